//! Long recordings by quota: each step handles some whole messages, and a state
//! carries the running sequence numbers from step to step.

use crate::copy::{message_of, released_entry};
use crate::parse::*;
use crate::refusal::*;
use crate::render::{render, render_behind, rendered_length};
use crate::sheet::{read_sheet, Rows};
use std::collections::HashMap;

/// A state has at most so many ids.
pub const MOST_IDS: usize = 64;

/// A message id and the sequence number that its next entry gets.
#[derive(Clone, Copy, Debug, PartialEq, Eq)]
pub struct Running {
    pub message_id: u32,
    pub next: u32,
}

/// The ids in the order of their first delivery.
pub type State = Vec<Running>;

/// What a step reports: messages handled and bytes consumed of the input, then
/// the numbers of the copy.
#[derive(Clone, Copy, Debug, Default, PartialEq, Eq)]
pub struct Stepped {
    pub handled: usize,
    pub consumed: usize,
    pub bytes: usize,
    pub messages: usize,
    pub packages: usize,
}

/// At most 64 ids, and none of them twice.
pub fn good_state(state: &[Running]) -> bool {
    let twice = |at: usize| state[..at].iter().any(|one| one.message_id == state[at].message_id);
    state.len() <= MOST_IDS && !(0..state.len()).any(twice)
}

/// Hands out the next sequence number of an id; one that is not there starts
/// at 0, if it still has a place.
pub fn number_for(state: &mut State, message_id: u32) -> Option<u32> {
    if let Some(running) = state.iter_mut().find(|running| running.message_id == message_id) {
        let number = running.next;
        running.next = number.wrapping_add(1);
        return Some(number);
    }
    if state.len() == MOST_IDS {
        return None;
    }
    state.push(Running { message_id, next: 1 });
    Some(0)
}

/// One step: IDS for the state, ROW, LARGE, the message checks within the
/// quota, IDS for a 65th id, ROOM. A refusal changes neither state nor buffer.
pub fn step(
    state: &mut State,
    input: &[u8],
    sheet: &[u8],
    quota: usize,
    buffer: &mut [u8],
) -> Result<Stepped, Refusal> {
    ask(good_state(state), IDS, 0)?;
    let mut rows = Rows::of(&read_sheet(sheet)?);
    ask_not_large(input.len())?;
    // The messages within the quota, each with its place.
    let mut taken = Vec::new();
    let mut place = 0;
    while taken.len() < quota && place < input.len() {
        let placed = message_at(input, place)?;
        let end = placed.end;
        taken.push((place, placed.message));
        place = end;
    }
    let mut after = state.clone();
    let handled = taken.len();
    let mut delivered = Vec::new();
    for (at, message) in taken {
        if let Some(entry) = released_entry(message, &mut rows) {
            match number_for(&mut after, entry.message_id) {
                Some(number) => delivered.push(message_of(entry, number)),
                None => return refuse(IDS, at),
            }
        }
    }
    let needed = delivered.iter().map(rendered_length).sum();
    ask(needed <= buffer.len(), ROOM, needed)?;
    let mut bytes = 0;
    for message in &delivered {
        bytes += render(message, &mut buffer[bytes..]);
    }
    *state = after;
    Ok(Stepped {
        handled,
        consumed: place,
        bytes,
        messages: delivered.len(),
        packages: delivered.iter().map(|message| message.packages.len()).sum(),
    })
}

/// The copy of a good recording of any length, by document 01's rule: an entry's
/// sequence number is the first state's next number for its id, or 0, and how many
/// earlier entries have the id, modulo 2^32.
pub fn long_copy(first: &[Running], recording: &[u8], sheet: &[u8]) -> Result<Vec<u8>, Refusal> {
    let mut rows = Rows::of(&read_sheet(sheet)?);
    let mut numbers: HashMap<u32, u32> =
        first.iter().map(|running| (running.message_id, running.next)).collect();
    let (mut copy, mut place) = (Vec::new(), 0);
    while place < recording.len() {
        let placed = message_at(recording, place)?;
        place = placed.end;
        if let Some(entry) = released_entry(placed.message, &mut rows) {
            let number = numbers.entry(entry.message_id).or_insert(0);
            render_behind(&message_of(entry, *number), &mut copy);
            *number = number.wrapping_add(1);
        }
    }
    Ok(copy)
}
