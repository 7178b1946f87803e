//! States for steps by quota, and runs of steps over recordings of any length.

use crate::dice::Dice;
use crate::generate::*;
use crate::orders::*;
use crate::refusal::MOST_BYTES;
use crate::sheet::Row;
use crate::steps::{Running, State, MOST_IDS};

/// A state as it is handed over: how many ids are held, 64 ids, and the next number
/// of each.
pub const STATE_WORDS: usize = 1 + 2 * MOST_IDS;

/// The state's words, of this machine. Behind the ids held is junk, which may well
/// be an id that is held.
pub fn words_of(dice: &mut Dice, state: &[Running]) -> Vec<u8> {
    let mut words = vec![0; STATE_WORDS];
    for at in 0..MOST_IDS {
        let known = !state.is_empty() && dice.chance(1, 4);
        let id = if known { dice.pick(state).message_id } else { dice.edge() };
        (words[1 + at], words[1 + MOST_IDS + at]) = (id, dice.edge());
    }
    words[0] = state.len() as u32;
    if state.len() > MOST_IDS {
        words[0] = dice.pick(&[words[0], 65, 128, 129, 1 << 16, 1 << 31, u32::MAX]);
    }
    for (at, running) in state.iter().take(MOST_IDS).enumerate() {
        (words[1 + at], words[1 + MOST_IDS + at]) = (running.message_id, running.next);
    }
    words.into_iter().flat_map(u32::to_ne_bytes).collect()
}

/// A state, mostly good, that has some of these ids.
pub fn any_state(dice: &mut Dice, ids: &[u32]) -> State {
    let count = dice.pick(&[0, 0, 1, 2, 5, 20, 60, 62, 63, 64, 64, 65, 66]);
    let mut state: State = Vec::new();
    for _ in 0..count {
        let known = !ids.is_empty() && dice.chance(1, 3);
        let mut message_id = if known { dice.pick(ids) } else { dice.edge() };
        while state.iter().any(|running| running.message_id == message_id) {
            message_id = dice.word();
        }
        let next = dice.pick(&[0, 1, 7, u32::MAX - 1, u32::MAX, 0x8000_0000]);
        state.push(Running { message_id, next });
    }
    if state.len() > 1 && dice.chance(1, 12) {
        // One id stands twice.
        let (one, other) = (dice.below(state.len()), dice.below(state.len()));
        state[one].message_id = state[other].message_id;
    }
    state
}

/// Small messages of many ids, of which some are delivered.
pub fn many_ids(dice: &mut Dice) -> (Vec<u8>, Vec<u32>, Vec<u8>) {
    let world = World::new(dice);
    let spread = dice.pick(&[3, 60, 63, 64, 65, 66, 90]);
    let mut messages = Vec::new();
    for number in 0..dice.within(spread, spread + 20) {
        let mut one = message_of_size(dice, &world, 36);
        one.message_id = (number % spread) as u32;
        (one.seconds, one.packages[0].delta) = (100, 0);
        one.packages[0].id = u32::from(dice.chance(7, 8));
        messages.push(one);
    }
    let row = Row { package_first: 1, package_last: 1, ..everything() };
    let ids = (0..spread as u32).collect();
    (lay_all(&messages).0, ids, pack_sheet(&[row]))
}

/// So many ids from this one on, each with its next number.
pub fn state_of(first: u32, count: usize) -> State {
    (0..count as u32).map(|at| Running { message_id: first + at, next: 3 * at }).collect()
}

/// A recording of any length that passes, a sheet for it, and a first state with room
/// for all of its ids.
#[derive(Clone, Debug)]
pub struct Run {
    pub recording: Vec<u8>,
    /// Where each message begins, and the end.
    pub places: Vec<usize>,
    pub sheet: Vec<u8>,
    pub first: State,
}

impl Run {
    /// A run over about so many bytes.
    pub fn new(dice: &mut Dice, size: usize) -> Run {
        let mut world = World::new(dice);
        let ids = dice.within(1, 60);
        world.message_ids = (0..ids as u32).map(|id| id.wrapping_mul(0x0101_0101)).collect();
        let style = dice.pick(&[Style::Mixed, Style::OnePackageEach, Style::FewLarge]);
        let messages = messages_of_size(dice, &world, size / 4 * 4, style);
        let sheet = if dice.chance(1, 3) {
            pack_sheet(&[everything()])
        } else {
            pack_sheet(&rows(dice, &targets(&messages)))
        };
        let mut first = Vec::new();
        for &message_id in &world.message_ids {
            if dice.chance(1, 2) {
                let next = dice.pick(&[0, 1, 40, u32::MAX, u32::MAX - 20]);
                first.push(Running { message_id, next });
            }
        }
        for at in 0..dice.below(MOST_IDS - ids + 1) {
            first.push(Running { message_id: 0xEEEE_0000 + at as u32, next: dice.edge() });
        }
        let (recording, mut places) = lay_all(&messages);
        places.push(recording.len());
        Run { recording, places, sheet, first }
    }

    /// What a step from this message on gets: its input, which ends behind a whole
    /// message, or anywhere behind those of the quota, and its quota.
    pub fn cut(&self, dice: &mut Dice, at: usize) -> (&[u8], usize) {
        let from = self.places[at];
        let longest = self.places.iter().rposition(|&to| to <= from + MOST_BYTES).unwrap_or(at);
        let some = dice.within(1, 40);
        let quota = dice.pick(&[0, 1, some, some, 700, usize::MAX]);
        let to = if quota <= longest - at && dice.chance(1, 2) {
            dice.within(self.places[at + quota], from + MOST_BYTES)
        } else {
            self.places[dice.within(at + 1, longest)]
        };
        (&self.recording[from..to.min(self.recording.len())], quota)
    }
}

/// Two recordings with one released list under the sheet, and one with another.
pub fn equal_and_other(dice: &mut Dice) -> ([Run; 2], Run) {
    let sheet = pack_sheet(&[Row { package_first: 1, package_last: 1, ..everything() }]);
    let world = World::new(dice);
    let mut released = Vec::new();
    for number in 0..dice.within(1, 60) {
        let mut one = message(dice, &world, 1);
        one.packages[0].id = 1;
        (one.message_id, one.seconds) = (number as u32 % 5, 100);
        released.push(one);
    }
    let held = dice.below(60);
    let first = state_of(3, held);
    let among_withheld = |dice: &mut Dice, released: &[DirtyMessage]| {
        let mut messages = Vec::new();
        for one in released {
            while dice.chance(1, 3) {
                let mut withheld = message(dice, &world, 2);
                withheld.packages.iter_mut().for_each(|package| package.id = 9);
                messages.push(withheld);
            }
            // The sequence number of the recording has no part in the copy.
            messages.push(DirtyMessage { sequence: dice.word(), ..one.clone() });
        }
        let (recording, mut places) = lay_all(&messages);
        places.push(recording.len());
        Run { recording, places, sheet: sheet.clone(), first: first.clone() }
    };
    let equal = [among_withheld(dice, &released), among_withheld(dice, &released)];
    let mut other = released.clone();
    let at = dice.below(other.len());
    match dice.below(8) {
        0 => other[at].message_id ^= 0x8000_0000,
        1 => other[at].seconds += 1,
        2 => other[at].nanoseconds ^= 1,
        3 => other[at].flags ^= 1 << dice.within(1, 3),
        4 => other[at].packages[0].status ^= 1,
        5 => other[at].packages[0].delta ^= 1,
        6 => other[at].packages[0].data.push(0),
        _ => drop(other.remove(at)),
    }
    (equal, among_withheld(dice, &other))
}
