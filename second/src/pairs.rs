//! Pairs of sheets for one recording: they overlap in ids and in time, touch
//! each other, or have nothing in common.

use crate::dice::Dice;
use crate::generate::*;
use crate::orders::{any_row, everything, row_around, row_at, row_between, rows, targets, Target};
use crate::parse::{read_recording, Message};
use crate::refusal::MOST_BYTES;
use crate::seams::{number_packages, Seam};
use crate::sheet::{Row, MOST_ROWS};
use std::ops::Range;

/// A recording that passes, and two good sheets.
#[derive(Clone, Debug)]
pub struct Pair {
    pub messages: Vec<DirtyMessage>,
    pub first: Vec<Row>,
    pub second: Vec<Row>,
}

impl Pair {
    pub fn new(dice: &mut Dice) -> Pair {
        loop {
            let pair = match dice.below(4) {
                0 => {
                    let seam = Seam::new(dice);
                    Pair::at_seam(dice, seam)
                }
                _ => Pair::between(dice),
            };
            if lay_all(&pair.messages).0.len() <= MOST_BYTES {
                return pair;
            }
        }
    }

    /// Two sheets of windows that touch on the seam, overlap in its moment, or
    /// are any of those that begin and end there.
    pub fn at_seam(dice: &mut Dice, seam: Seam) -> Pair {
        let Seam { start, seam: at, end, .. } = seam;
        let mut any = vec![(start, at), (start, at + 1), (start, end), (at, at + 1), (at, end)];
        if at + 1 < end {
            any.push((at + 1, end));
        }
        let (first, second) = match dice.below(3) {
            0 => (vec![(start, at)], vec![(at, end)]),
            1 => (vec![(start, at + 1)], vec![(at, end)]),
            _ => (any.clone(), any),
        };
        let (first, second) = (seam.sheet(dice, &first), seam.sheet(dice, &second));
        Pair { first, second, messages: seam.messages }
    }

    /// Two sheets whose rows are from one package to another, or the second of
    /// which narrows the first.
    fn between(dice: &mut Dice) -> Pair {
        let messages = some_messages(dice);
        let mut aims = targets(&messages);
        aims.sort_by_key(|aim| aim.time);
        // The package at which they meet, one from before it, one from behind it.
        let middle = dice.within(1, aims.len() - 2);
        let first = some_rows(dice, &aims, middle, 0..middle);
        let second = match dice.below(6) {
            0 => first.iter().map(|row| narrowed(dice, *row, &aims)).collect(),
            1 => some_rows(dice, &aims, middle, 0..aims.len()),
            _ => some_rows(dice, &aims, middle, middle + 1..aims.len()),
        };
        Pair { messages, first, second }
    }

    /// Two sheets of so many rows, each for one package.
    pub fn of_rows(dice: &mut Dice, first: usize, second: usize) -> Pair {
        let messages = some_messages(dice);
        let aims = targets(&messages);
        let (first, second) = (rows_at(dice, &aims, first), rows_at(dice, &aims, second));
        Pair { messages, first, second }
    }

    pub fn recording(&self) -> Vec<u8> {
        lay_all(&self.messages).0
    }

    /// The first sheet with a row more, at any place.
    pub fn added(&self, dice: &mut Dice) -> Option<Vec<Row>> {
        let aims = targets(&self.messages);
        if self.first.len() == MOST_ROWS {
            return None;
        }
        let row = match dice.below(8) {
            0 => any_row(dice),
            1 => everything(),
            2 | 3 => {
                let aim = dice.pick(&aims);
                row_around(dice, aim)
            }
            _ => {
                let (one, other) = (dice.pick(&aims), dice.pick(&aims));
                row_between(dice, one, other)
            }
        };
        let mut rows = self.first.clone();
        rows.insert(dice.below(rows.len() + 1), row);
        Some(rows)
    }

    /// The rows of both sheets in one, if they are few enough, in any order that
    /// keeps each sheet's own.
    pub fn joined(&self, dice: &mut Dice) -> Option<Vec<Row>> {
        let (mut first, mut second) = (self.first.iter(), self.second.iter());
        let mut rows = Vec::new();
        while rows.len() < self.first.len() + self.second.len() {
            let next = if dice.chance(1, 2) { first.next() } else { second.next() };
            rows.extend(next);
        }
        (rows.len() <= MOST_ROWS).then_some(rows)
    }
}

/// Some messages that have packages.
fn some_messages(dice: &mut Dice) -> Vec<DirtyMessage> {
    let world = World::new(dice);
    let mut messages = vec![message(dice, &world, 3)];
    for _ in 0..dice.within(1, 12) {
        let packages = package_count(dice);
        messages.push(message(dice, &world, packages));
    }
    if dice.chance(1, 2) {
        number_packages(dice, &mut messages);
    }
    messages
}

/// The rows of a good sheet: of every sort, many for one package each, or a few
/// from one package to another, the first of them from the middle one to one of
/// these others.
fn some_rows(dice: &mut Dice, aims: &[Target], middle: usize, others: Range<usize>) -> Vec<Row> {
    match dice.below(12) {
        0 => return rows(dice, aims),
        1 | 2 => {
            let count = dice.pick(&[4, 8, 16, 31, 32]);
            return rows_at(dice, aims, count);
        }
        _ => {}
    }
    let other = dice.pick(&aims[others]);
    let mut rows = vec![row_between(dice, aims[middle], other)];
    for _ in 0..dice.pick(&[0, 0, 0, 1, 2]) {
        let (from, to) = (dice.pick(aims), dice.pick(aims));
        rows.push(row_between(dice, from, to));
    }
    rows
}

/// So many rows for one package each.
fn rows_at(dice: &mut Dice, aims: &[Target], count: usize) -> Vec<Row> {
    (0..count).map(|_| row_at(dice.pick(aims))).collect()
}

/// The row with one of its ranges narrowed to that of another row, where they
/// overlap.
fn narrowed(dice: &mut Dice, row: Row, aims: &[Target]) -> Row {
    let (from, to) = (dice.pick(aims), dice.pick(aims));
    let other = row_between(dice, from, to);
    let mut narrowed = row;
    match dice.below(4) {
        0 => {
            narrowed.message_first = row.message_first.max(other.message_first);
            narrowed.message_last = row.message_last.min(other.message_last);
        }
        1 => {
            narrowed.package_first = row.package_first.max(other.package_first);
            narrowed.package_last = row.package_last.min(other.package_last);
        }
        2 => {
            let start = |row: &Row| (row.start_seconds, row.start_nanoseconds);
            let end = |row: &Row| (row.end_seconds, row.end_nanoseconds);
            (narrowed.start_seconds, narrowed.start_nanoseconds) = start(&row).max(start(&other));
            (narrowed.end_seconds, narrowed.end_nanoseconds) = end(&row).min(end(&other));
        }
        _ => narrowed.acquired_only = true,
    }
    if narrowed.is_good() {
        narrowed
    } else {
        row
    }
}

/// Does each entry of one copy stand in another, in order, with its packages in
/// order among those of the other's entry?
pub fn stands_in(smaller: &[u8], larger: &[u8]) -> bool {
    let (Ok(smaller), Ok(larger)) = (read_recording(smaller), read_recording(larger)) else {
        return false;
    };
    // Taking the earliest that fits leaves most for those that follow.
    let mut left = larger.iter();
    smaller.iter().all(|entry| left.any(|other| holds(&other.message, &entry.message)))
}

/// Has this message the same id, time and flags, and all packages in order?
fn holds(larger: &Message, smaller: &Message) -> bool {
    let header = |message: &Message| {
        (message.message_id, message.seconds, message.nanoseconds, message.flags)
    };
    let mut left = larger.packages.iter();
    header(larger) == header(smaller)
        && smaller.packages.iter().all(|package| left.any(|other| other == package))
}
