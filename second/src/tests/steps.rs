//! Long recordings by quota.

use super::{m_with, m_with_options, refused};
use crate::both::{check, copy_write, step};
use crate::dice::Dice;
use crate::generate::*;
use crate::orders::*;
use crate::paper::{from_hex, message_m, row_r};
use crate::refusal::*;
use crate::runs::{equal_and_other, state_of, Run};
use crate::steps::{good_state, long_copy, Running, State, Stepped};

fn all() -> Vec<u8> {
    pack_sheet(&[everything()])
}

fn running(pairs: &[(u32, u32)]) -> State {
    pairs.iter().map(|&(message_id, next)| Running { message_id, next }).collect()
}

/// A step that is refused changes neither state nor buffer.
fn keep(
    state: &State,
    input: &[u8],
    sheet: &[u8],
    quota: usize,
    room: usize,
    answer: (u32, usize),
) {
    let (mut given, mut buffer) = (state.clone(), vec![0x5A; room]);
    let (number, place) = answer;
    assert_eq!(step(&mut given, input, sheet, quota, &mut buffer), refused(number, place));
    assert_eq!(&given, state);
    assert_eq!(buffer, vec![0x5A; room]);
}

#[test]
fn a_step_handles_the_first_so_many_or_all_there_are() {
    let three = [message_m(), m_with(7, "08"), message_m()].concat();
    let mut state = Vec::new();
    let mut buffer = vec![0x5A; 300];
    let done = step(&mut state, &three, &all(), 2, &mut buffer).unwrap();
    assert_eq!(done, Stepped { handled: 2, consumed: 112, bytes: 112, messages: 2, packages: 4 });
    assert_eq!(buffer[112..], [0x5A; 188]);
    assert_eq!(state, running(&[(7, 1), (8, 1)]));
    let done = step(&mut state, &three[112..], &all(), 9, &mut buffer).unwrap();
    assert_eq!(done, Stepped { handled: 1, consumed: 56, bytes: 56, messages: 1, packages: 2 });
    assert_eq!(buffer[..12], from_hex("100000C0 00000007 00000001"));
    assert_eq!(state, running(&[(7, 2), (8, 1)]));
    // Handled and consumed count what is not delivered, too.
    let done = step(&mut state, &three, &row_r(), 3, &mut buffer).unwrap();
    assert_eq!(done, Stepped { handled: 3, consumed: 168, bytes: 80, messages: 2, packages: 2 });
    assert_eq!(state, running(&[(7, 4), (8, 1)]));
}

#[test]
fn numbers_run_modulo_2_to_the_32() {
    let mut state = running(&[(3, 9), (7, u32::MAX)]);
    let two = [message_m(), message_m()].concat();
    let mut buffer = vec![0; 112];
    step(&mut state, &two, &all(), 2, &mut buffer).unwrap();
    assert_eq!(buffer[8..12], [0xFF; 4]);
    assert_eq!(buffer[64..68], [0; 4]);
    assert_eq!(state, running(&[(3, 9), (7, 1)]));
}

#[test]
fn quota_0_does_nothing() {
    let junk = vec![0xEE; 65_536];
    let mut state = running(&[(1, 2)]);
    let nothing = Stepped::default();
    assert_eq!(step(&mut state, &junk, &all(), 0, &mut []), Ok(nothing));
    assert_eq!(step(&mut state, &[], &[], 0, &mut []), Ok(nothing));
    assert_eq!(step(&mut state, &[], &all(), 5, &mut []), Ok(nothing));
    assert_eq!(state, running(&[(1, 2)]));
    // With a bad state, sheet or size it is refused all the same.
    keep(&state_of(0, 65), &junk, &all(), 0, 4, (IDS, 0));
    keep(&state, &junk, &[0; 31], 0, 4, (ROW, 31));
    keep(&state, &vec![0; 65_537], &all(), 0, 4, (LARGE, 65_536));
}

#[test]
fn a_good_state_has_at_most_64_ids_and_none_twice() {
    assert!(good_state(&[]) && good_state(&state_of(0, 64)));
    assert!(!good_state(&state_of(0, 65)));
    for (one, other) in [(0, 1), (0, 63), (30, 31), (62, 63)] {
        let mut twice = state_of(0, 64);
        twice[one].message_id = twice[other].message_id;
        assert!(!good_state(&twice));
    }
    // The same number for two ids is nothing bad.
    assert!(good_state(&running(&[(1, 5), (2, 5)])));
}

#[test]
fn the_refusals_in_their_order() {
    let (m, bad_row) = (message_m(), pack_row(&everything(), 2));
    let large = vec![0; 65_537];
    let full = state_of(1_000, 64);
    let bad_m = m_with(29, "0B");
    let twice = running(&[(1, 0), (1, 0)]);
    // IDS first of all.
    keep(&twice, &large, &bad_row, 1, 0, (IDS, 0));
    keep(&state_of(0, 65), &large, &bad_row, 1, 0, (IDS, 0));
    keep(&full, &large, &bad_row, 1, 0, (ROW, 0));
    keep(&full, &large, &all(), 1, 0, (LARGE, 65_536));
    // The message checks within the quota come before a 65th id.
    keep(&full, &[m.clone(), bad_m.clone()].concat(), &all(), 2, 0, (PACKAGE, 80));
    keep(&full, &[m.clone(), bad_m.clone()].concat(), &all(), 1, 0, (IDS, 0));
    // The 65th id's place is its message, and it comes before ROOM.
    let known = m_with(4, "000003E8");
    keep(&full, &[known.clone(), m.clone()].concat(), &all(), 2, 0, (IDS, 56));
    keep(&full, &[known.clone(), m.clone()].concat(), &all(), 1, 55, (ROOM, 56));
    keep(&Vec::new(), &m, &row_r(), 1, 39, (ROOM, 40));
    // Only delivered ids take a place.
    let mut state = full.clone();
    assert_eq!(step(&mut state, &m, &[], 1, &mut []).map(|done| done.handled), Ok(1));
    assert_eq!(state, full);
    // Each check of a message, at its place.
    let good = &Vec::new();
    for (bad, number, place) in [
        (m[..23].to_vec(), SHORT, 56),
        (m_with(0, "20"), VERSION, 56),
        (m_with(1, "01"), TYPE, 56),
        (m_with(15, "37"), LENGTH, 56),
        (m_with(15, "3C"), CUT, 56),
        (m_with(20, "3B9ACA00"), TIME, 56),
        (m_with_options("87050000 00020000"), OPTION, 80),
        (m_with_options("86060000 00008606 00000000"), OPTION, 86),
        (m_with(3, "90"), FRAGMENT, 56),
        (m_with(3, "00"), STANDARD, 56),
        (m_with(29, "0B"), PACKAGE, 80),
        (m_with_options("87060000 00010000"), COUNT, 56),
    ] {
        let input = [m.clone(), bad].concat();
        keep(good, &input, &all(), 2, 0, (number, place));
        // Behind the quota it is not looked at.
        let done = step(&mut Vec::new(), &input, &all(), 1, &mut [0; 56]).unwrap();
        assert_eq!((done.handled, done.consumed), (1, 56));
    }
}

#[test]
fn the_65th_id_may_come_in_one_step() {
    let mut input = Vec::new();
    for id in 0..65_u8 {
        input.extend(m_with(4, &format!("000000{id:02X}")));
    }
    let mut buffer = vec![0; input.len()];
    let mut state = Vec::new();
    let done = step(&mut state, &input, &all(), 64, &mut buffer).unwrap();
    assert_eq!((done.handled, state.len()), (64, 64));
    keep(&Vec::new(), &input, &all(), 65, 9, (IDS, 64 * 56));
    keep(&state, &input[64 * 56..], &all(), 1, 9, (IDS, 0));
    // One that is known already is none.
    assert!(step(&mut state, &input[..56], &all(), 1, &mut buffer).is_ok());
    assert_eq!(state[0], Running { message_id: 0, next: 2 });
}

#[test]
fn from_an_empty_state_one_step_is_the_copy() {
    for case in 0..1_000 {
        let dice = &mut Dice::new(41, case);
        let world = World::new(dice);
        let messages = messages(dice, &world);
        let input = lay_all(&messages).0;
        let sheet = pack_sheet(&rows(dice, &targets(&messages)));
        let mut buffers = [vec![0; 65_536], vec![0; 65_536]];
        let [one, other] = &mut buffers;
        let copied = copy_write(&input, &sheet, one);
        let stepped = step(&mut Vec::new(), &input, &sheet, usize::MAX, other);
        match (copied, stepped) {
            (Ok(copied), Ok(done)) => {
                assert_eq!(
                    (copied.bytes, copied.messages, copied.packages),
                    (done.bytes, done.messages, done.packages)
                );
                assert_eq!((done.handled, done.consumed), (messages.len(), input.len()));
            }
            (copied, done) => assert_eq!(copied.err(), done.err()),
        }
        assert_eq!(one, other);
    }
}

/// All steps of a run: the joined outputs and the last state.
fn stepped(dice: &mut Dice, run: &Run) -> (Vec<u8>, State) {
    let (mut state, mut at, mut joined) = (run.first.clone(), 0, Vec::new());
    let mut buffer = vec![0; 65_536];
    while at + 1 < run.places.len() {
        let (input, quota) = run.cut(dice, at);
        let done = step(&mut state, input, &run.sheet, quota, &mut buffer).unwrap();
        assert_eq!(run.places[at] + done.consumed, run.places[at + done.handled]);
        at += done.handled;
        joined.extend(&buffer[..done.bytes]);
    }
    (joined, state)
}

/// The joined outputs of a run are the copy of the whole, at any length, and the
/// state is true behind it.
#[test]
fn a_run_is_the_copy_of_the_whole() {
    for case in 0..16 {
        let dice = &mut Dice::new(42, case);
        let size = if case < 2 { 200_000 } else { dice.within(200, 30_000) };
        let run = Run::new(dice, size);
        let (joined, state) = stepped(dice, &run);
        assert!(joined == long_copy(&run.first, &run.recording, &run.sheet).unwrap(), "{case}");
        for one in &state {
            let before = run.first.iter().find(|old| old.message_id == one.message_id);
            let from = before.map_or(0, |old| old.next);
            let delivered = delivered_of(&joined, one.message_id);
            assert_eq!(one.next, from.wrapping_add(delivered), "{case}");
        }
        assert!(joined.len() <= run.recording.len() && good_state(&state));
    }
}

/// How many messages of this id there are.
fn delivered_of(copy: &[u8], message_id: u32) -> u32 {
    let (mut at, mut count) = (0, 0);
    while at < copy.len() {
        let number = |place: usize| u32::from_be_bytes(copy[place..place + 4].try_into().unwrap());
        count += u32::from(number(at + 4) == message_id);
        at += number(at + 12) as usize;
    }
    count
}

/// Two runs with equal released lists, from one state, give one joined output, and
/// another list gives another.
#[test]
fn runs_with_equal_released_lists_are_equal() {
    for case in 0..40 {
        let dice = &mut Dice::new(43, case);
        let (equal, other) = equal_and_other(dice);
        let [one, two] = equal.each_ref().map(|run| stepped(dice, run));
        assert_eq!(one, two);
        assert!(check(&one.0).is_ok());
        assert_ne!(one.0, stepped(dice, &other).0);
    }
}
