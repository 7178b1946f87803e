//! The streaming copy beside a run of steps.

use crate::both::step;
use crate::damage::damaged;
use crate::dice::Dice;
use crate::generate::*;
use crate::orders::*;
use crate::parse::message_at;
use crate::refusal::*;
use crate::steps::{long_copy, State};
use crate::stream::{copy, rows_of, Failure, Streamed, WINDOW};
use std::collections::HashSet;
use std::io::{self, Read, Seek, SeekFrom};

/// A recording that is read in odd pieces, and that is another one from the first
/// seek on.
struct Odd<'a> {
    bytes: &'a [u8],
    later: &'a [u8],
    at: usize,
    dice: Dice,
}

impl Read for Odd<'_> {
    fn read(&mut self, into: &mut [u8]) -> io::Result<usize> {
        let piece = self.dice.within(1, 100_000).min(into.len());
        let read = (&self.bytes[self.at..]).read(&mut into[..piece])?;
        self.at += read;
        Ok(read)
    }
}

impl Seek for Odd<'_> {
    fn seek(&mut self, _: SeekFrom) -> io::Result<u64> {
        (self.bytes, self.at) = (self.later, 0);
        Ok(0)
    }
}

/// The copy of a recording that is another one in the second pass.
fn streamed(bytes: &[u8], later: &[u8], mut sheet: &[u8]) -> Result<(Vec<u8>, Streamed), Failure> {
    let mut recording = Odd { bytes, later, at: 0, dice: Dice::new(50, bytes.len() as u64) };
    let rows = rows_of(&mut sheet)?;
    let mut out = Vec::new();
    let done = copy(&mut recording, &rows, &mut out);
    if let Err(Failure::Refused(_)) = done {
        assert!(out.is_empty());
    }
    Ok((out, done?))
}

/// The plain way: of each window the whole messages are found, and a step takes them.
fn by_steps(recording: &[u8], sheet: &[u8]) -> Result<(Vec<u8>, Streamed), Refusal> {
    let (mut state, mut out, mut done) = (State::new(), Vec::new(), Streamed::default());
    let mut buffer = vec![0; WINDOW];
    let mut start = 0;
    while start < recording.len() {
        let moved = |refusal: Refusal| Refusal { place: start + refusal.place, ..refusal };
        let window = &recording[start..recording.len().min(start + WINDOW)];
        let goes_on = start + WINDOW < recording.len();
        let mut end = 0;
        while end < window.len() {
            match message_at(window, end) {
                Ok(placed) => end = placed.end,
                Err(Refusal { number: SHORT | CUT, .. }) if goes_on => break,
                Err(refusal) => return Err(moved(refusal)),
            }
        }
        ask(end > 0, LARGE, start)?;
        let stepped = step(&mut state, &window[..end], sheet, usize::MAX, &mut buffer);
        let stepped = stepped.map_err(moved)?;
        out.extend(&buffer[..stepped.bytes]);
        done.handled += stepped.handled as u64;
        done.consumed += stepped.consumed as u64;
        done.messages += stepped.messages as u64;
        done.packages += stepped.packages as u64;
        done.bytes += stepped.bytes as u64;
        start += end;
    }
    Ok((out, done))
}

/// Compares the two, and gives the refusal's number or 0.
fn compared(recording: &[u8], sheet: &[u8], what: u64) -> u32 {
    match (streamed(recording, recording, sheet), by_steps(recording, sheet)) {
        (Ok(one), Ok(other)) => {
            assert!(one == other, "{what}");
            assert!(one.0 == long_copy(&[], recording, sheet).unwrap(), "{what}");
            0
        }
        (Err(Failure::Refused(one)), Err(other)) => {
            assert_eq!(one, other, "{what}");
            one.number
        }
        (one, other) => panic!("{what}: {:?} and {:?}", one.map(|_| ()), other.map(|_| ())),
    }
}

#[test]
fn the_streaming_copy_is_that_of_a_run_of_steps() {
    let mut numbers = HashSet::new();
    for case in 0..240 {
        let dice = &mut Dice::new(51, case);
        let mut world = World::new(dice);
        if case % 4 == 0 {
            // Some recordings have just 64 ids, and some have more.
            world.message_ids = (0..dice.within(63, 66) as u32).collect();
        }
        let size = 4 * dice.within(6, 50_000);
        let style = dice.pick(&[Style::Mixed, Style::OnePackageEach, Style::FewLarge]);
        let messages = messages_of_size(dice, &world, size, style);
        let sheet = match dice.below(3) {
            0 => pack_sheet(&[everything()]),
            _ => pack_sheet(&rows(dice, &targets(&messages))),
        };
        numbers.insert(compared(&lay_all(&messages).0, &sheet, case));
        numbers.insert(compared(&damaged(dice, messages), &sheet, case));
    }
    for number in [0, SHORT, VERSION, TYPE, LENGTH, CUT, TIME, OPTION, FRAGMENT, STANDARD] {
        assert!(numbers.contains(&number), "{number} was not reached");
    }
    assert!([PACKAGE, COUNT, LARGE, IDS].iter().all(|number| numbers.contains(number)));
}

/// Each message has an id of its own, so that the 65th is one too many.
#[test]
fn a_65th_id_is_told_before_a_bad_message_of_a_later_window_alone() {
    let dice = &mut Dice::new(52, 0);
    let world = World::new(dice);
    let mut messages: Vec<_> = (0..200).map(|_| message_of_size(dice, &world, 1_000)).collect();
    for (id, message) in messages.iter_mut().enumerate() {
        message.message_id = id as u32;
    }
    let (recording, places) = lay_all(&messages);
    let sheet = pack_sheet(&[everything()]);
    // The first window has 65 whole messages, and the header of the 66th.
    for (bad, told) in [(64, VERSION), (65, VERSION), (66, IDS), (0, VERSION), (199, IDS)] {
        let mut recording = recording.clone();
        recording[places[bad]] = 0x20;
        assert_eq!(compared(&recording, &sheet, bad as u64), told);
    }
}

#[test]
fn a_sheet_is_refused_first_and_by_its_whole_length() {
    for (length, place) in [(31, 31), (32, 0), (1_024, 0), (1_025, 1_025), (300_000, 300_000)] {
        let Err(Failure::Refused(refusal)) = streamed(&[0x20], &[], &vec![0; length]) else {
            panic!("{length}")
        };
        assert_eq!(refusal, Refusal { number: ROW, place });
    }
}

#[test]
fn a_recording_that_changes_between_the_passes_is_noticed() {
    let dice = &mut Dice::new(53, 0);
    let world = World::new(dice);
    let (first, places) = lay_all(&messages_of_size(dice, &world, 200_000, Style::Mixed));
    let sheet = pack_sheet(&[everything()]);
    let last = *places.last().unwrap();
    let mut bad = first.clone();
    bad[last] = 0x20;
    for later in [&bad[..], &first[..last], &first[..last + 20], &[]] {
        assert!(matches!(streamed(&first, later, &sheet), Err(Failure::Changed)));
    }
}
