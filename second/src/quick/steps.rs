//! A step by quota in one walk over each message.

use super::copy::{put_front, released_at};
use super::render::put;
use super::sheet::Grants;
use crate::refusal::*;
use crate::steps::{good_state, number_for, State, Stepped, MOST_IDS};

/// One step: IDS for the state, ROW, LARGE, the message checks within the
/// quota, IDS for a 65th id, ROOM. A refusal changes neither state nor buffer.
pub fn step(
    state: &mut State,
    input: &[u8],
    sheet: &[u8],
    quota: usize,
    buffer: &mut [u8],
) -> Result<Stepped, Refusal> {
    ask(good_state(state), IDS, 0)?;
    let grants = Grants::read(sheet)?;
    ask_not_large(input.len())?;
    let mut after = State::with_capacity(MOST_IDS);
    after.extend_from_slice(state);
    let mut out = Vec::with_capacity(input.len());
    let mut done = Stepped::default();
    let mut without_number = None;
    while done.handled < quota && done.consumed < input.len() {
        let place = done.consumed;
        let released = released_at::<true>(input, place, &grants, &mut out)?;
        done.handled += 1;
        done.consumed = released.front.end;
        if released.packages > 0 {
            done.messages += 1;
            done.packages += released.packages;
            match number_for(&mut after, released.front.message_id) {
                Some(number) => put_front(&released, number, &mut out),
                None => _ = without_number.get_or_insert(place),
            }
        }
    }
    if let Some(place) = without_number {
        return refuse(IDS, place);
    }
    done.bytes = put(&out, buffer)?;
    *state = after;
    Ok(done)
}
