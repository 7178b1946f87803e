//! The quick forms beside the plain ones on generated inputs. Each function of `both` runs
//! the two and fails where they differ.

use crate::both::*;
use crate::damage::damaged;
use crate::dice::Dice;
use crate::generate::*;
use crate::orders::*;
use crate::refusal::*;
use crate::runs::any_state;
use std::collections::HashSet;

/// The refusal's number, or 0.
fn number<T>(outcome: Result<T, Refusal>) -> u32 {
    outcome.err().map_or(0, |refusal| refusal.number)
}

/// Tries every form that takes a recording, with buffers that have room and that may have
/// none, and gives the numbers that were told.
fn tried(dice: &mut Dice, world: &World, recording: &[u8], sheet: &[u8]) -> HashSet<u32> {
    let mut numbers = HashSet::from([number(check(recording))]);
    numbers.insert(number(copy_measure(recording, sheet)));
    numbers.insert(number(purge(&mut recording.to_vec(), sheet)));
    for most in [4 * recording.len() + 100, recording.len()] {
        let buffer = &mut dice.bytes(most);
        let room = dice.below(most + 1);
        for out in [0, room] {
            let out = &mut buffer[out..];
            numbers.insert(number(clean(recording, out)));
            numbers.insert(number(copy_write(recording, sheet, out)));
            let (mut state, quota) = (any_state(dice, &world.message_ids), dice.below(40));
            numbers.insert(number(step(&mut state, recording, sheet, quota, out)));
            numbers.insert(number(salvage(recording, out)));
            numbers.insert(number(cut(recording, 4 * dice.below(30), out)));
            numbers.insert(number(join(recording, out)));
            numbers.insert(number(write_capture(recording, 7, out)));
        }
    }
    numbers
}

#[test]
fn the_quick_forms_agree_with_the_plain_ones() {
    let mut numbers = HashSet::new();
    for case in 0..300 {
        let dice = &mut Dice::new(61, case);
        let mut world = World::new(dice);
        if case % 4 == 0 {
            // More ids than a list of few has, or a state.
            world.message_ids = (0..dice.within(10, 100) as u32).collect();
        }
        let size = 4 * dice.within(6, if case % 10 == 0 { 16_000 } else { 1_000 });
        let style = style(dice);
        let messages = messages_of_size(dice, &world, size, style);
        let sheet = match dice.below(4) {
            0 => pack_sheet(&[everything()]),
            1 => pack_sheet(&(0..32).map(|_| any_row(dice)).collect::<Vec<_>>()),
            _ => pack_sheet(&rows(dice, &targets(&messages))),
        };
        numbers.extend(tried(dice, &world, &lay_all(&messages).0, &sheet));
        let bad = damaged(dice, messages);
        numbers.extend(tried(dice, &world, &bad, &sheet));
    }
    let asked = [SHORT, VERSION, TYPE, LENGTH, CUT, TIME, OPTION, FRAGMENT, STANDARD, PACKAGE];
    for number in asked.into_iter().chain([0, COUNT, ROOM, IDS, GAP]) {
        assert!(numbers.contains(&number), "{number} was not reached");
    }
}
