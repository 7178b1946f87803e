//! Steps by quota, asked of the exports directly: runs of steps beside the copy of
//! the whole, at any length.

use crate::dice::Dice;
use crate::judge::{dump, Judge};
use crate::refusal::{IDS, MOST_BYTES};
use crate::runs::{self, words_of, Run, STATE_WORDS};
use crate::side_by_side::{self, Step};
use crate::steps::{long_copy, MOST_IDS};

fn told(what: &str, run: &Run) -> String {
    format!("  {what}\n{}  sheet:\n{}", dump(&run.recording, 0), dump(&run.sheet, 0))
}

/// All steps of a run, cut at random: the joined outputs, the last state, and how many
/// steps consumed something.
fn stepped(judge: &mut Judge, dice: &mut Dice, run: &Run) -> (Vec<u8>, Vec<u8>, usize) {
    let mut state = words_of(dice, &run.first);
    let (mut at, mut joined, mut steps) = (0, Vec::new(), 0);
    while at + 1 < run.places.len() {
        let (input, quota) = run.cut(dice, at);
        let room = input.len() + dice.pick(&[0, 0, 9, 300]);
        let buffer = dice.bytes(room);
        let step = Step { input, sheet: &run.sheet, quota, state: &state };
        let (answer, out, after) = side_by_side::step(judge, dice, step, &buffer);
        let [_, handled, consumed, bytes, ..] = answer.values.map(|value| value as usize);
        // The messages are those of the quota, and the bytes are theirs.
        let good = answer.number == 0
            && handled <= quota
            && run.places.get(at + handled) == Some(&(run.places[at] + consumed));
        judge.claim(good, || told("a step handles other messages", run));
        if !good {
            break;
        }
        joined.extend_from_slice(out.get(..bytes).unwrap_or_default());
        (at, state, steps) = (at + handled, after, steps + usize::from(handled > 0));
    }
    (joined, state, steps)
}

/// The joined outputs are the copy of the whole, numbered on from the first state, and
/// the last state tells the next number of each id.
pub fn run(judge: &mut Judge, dice: &mut Dice, run: &Run) {
    let (joined, state, steps) = stepped(judge, dice, run);
    let whole = long_copy(&run.first, &run.recording, &run.sheet).unwrap_or_default();
    judge.claim(joined == whole, || told("a run is not the copy of the whole", run));
    judge.trial("a run of steps is the copy of the whole", steps > 1 && !whole.is_empty());
    let true_state = held_in(&state) == next_numbers(run, &whole);
    judge.claim(true_state, || told("a state does not tell its next numbers", run));
    if run.recording.len() <= MOST_BYTES {
        let one = single_step(judge, dice, run);
        let same = one == (joined, held_in(&state));
        judge.claim(same, || told("some steps are not as one over the joined input", run));
        judge.trial("some steps are as one", steps > 1 && !whole.is_empty());
    }
}

/// One step over the whole of a run: its output, and the ids held after it.
fn single_step(judge: &mut Judge, dice: &mut Dice, run: &Run) -> (Vec<u8>, Vec<(u32, u32)>) {
    let (state, buffer) = (words_of(dice, &run.first), dice.bytes(run.recording.len()));
    let quota = dice.pick(&[run.places.len() - 1, run.places.len(), usize::MAX]);
    let step = Step { input: &run.recording, sheet: &run.sheet, quota, state: &state };
    let (answer, mut out, after) = side_by_side::step(judge, dice, step, &buffer);
    out.truncate(answer.values[3] as usize);
    (out, held_in(&after))
}

/// The ids that a state holds, each with its next number.
fn held_in(state: &[u8]) -> Vec<(u32, u32)> {
    let words: Vec<u32> =
        state.as_chunks().0.iter().map(|&four| u32::from_ne_bytes(four)).collect();
    let pairs = words[1..].iter().copied().zip(words[1 + MOST_IDS..].iter().copied());
    pairs.take(words[0] as usize).collect()
}

/// The first state's ids, then those of the copy in the order of their first delivery,
/// each with its next number behind the copy.
fn next_numbers(run: &Run, copy: &[u8]) -> Vec<(u32, u32)> {
    let first = run.first.iter().map(|running| (running.message_id, running.next));
    let mut numbers: Vec<(u32, u32)> = first.collect();
    let word = |at: usize| u32::from_be_bytes([0, 1, 2, 3].map(|byte| copy[at + byte]));
    let mut at = 0;
    while at < copy.len() {
        let id = word(at + 4);
        match numbers.iter_mut().find(|(one, _)| *one == id) {
            Some((_, next)) => *next = next.wrapping_add(1),
            None => numbers.push((id, 1)),
        }
        at += word(at + 12) as usize;
    }
    numbers
}

/// With no id held and no end to the quota, a step is the single copy, refusals
/// included, unless it answers IDS.
pub fn as_copy(judge: &mut Judge, dice: &mut Dice, recording: &[u8], sheet: &[u8]) {
    let room = dice.pick(&[recording.len(), recording.len() / 2]);
    let buffer = dice.bytes(room);
    let fresh = vec![0; 4 * STATE_WORDS];
    let step = Step { input: recording, sheet, quota: recording.len(), state: &fresh };
    let (stepped, one, _) = side_by_side::step(judge, dice, step, &buffer);
    let (copied, other) = side_by_side::copy_write(judge, dice, recording, sheet, &buffer);
    let same = stepped.number == copied.number
        && stepped.values[0] == copied.values[0]
        && stepped.values[3..] == copied.values[1..]
        && one == other;
    judge.claim(same || stepped.number == IDS, || {
        format!("  a single step is not the copy\n{}", dump(recording, 0))
    });
    judge.trial("a single step is the copy", copied.number == 0 && copied.values[1] > 0);
}

/// Two runs from one state with equal released lists give one joined output, whatever
/// is withheld and however they are cut; another list gives another.
pub fn equal_and_other(judge: &mut Judge, dice: &mut Dice) {
    let (equal, other) = runs::equal_and_other(dice);
    let [one, two] = &equal;
    let (first, second) = (stepped(judge, dice, one), stepped(judge, dice, two));
    judge.claim(first.0 == second.0, || {
        told("equal released lists, two outputs", one) + &told("the other one", two)
    });
    let telling = one.recording != two.recording && first.2 > 1;
    judge.trial("runs with equal released lists are equal", telling);
    let third = stepped(judge, dice, &other);
    judge.claim(first.0 != third.0, || {
        told("different released lists, one output", one) + &told("the other one", &other)
    });
    judge.trial("runs with different released lists differ", third.2 > 1);
}
