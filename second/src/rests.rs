//! Recordings to purge: what goes and what stays beside each other, and pairs of
//! recordings of which the same stays.

use crate::dice::Dice;
use crate::generate::*;
use crate::orders::{row_at, row_between, targets, Target, LATEST};
use crate::parse::{count_place, package_time, COUNT_KIND, SIMULATED_FLAG};
use crate::refusal::MOST_BYTES;
use crate::seams::number_packages;
use crate::sheet::{granted, Row};

/// A recording that passes, its packages numbered by their first four data
/// bytes, and the rows of a good sheet.
#[derive(Clone, Debug)]
pub struct Scene {
    pub world: World,
    pub messages: Vec<DirtyMessage>,
    pub rows: Vec<Row>,
}

impl Scene {
    pub fn new(dice: &mut Dice) -> Scene {
        loop {
            let world = World { dirty: true, ..World::new(dice) };
            let mut messages = vec![message(dice, &world, 3)];
            for _ in 0..dice.below(10) {
                let packages = package_count(dice);
                messages.push(message(dice, &world, packages));
            }
            for message in &mut messages {
                if dice.chance(1, 2) {
                    put_count(dice, &world, message);
                }
            }
            number_packages(dice, &mut messages);
            let aims = targets(&messages);
            let rows = some_rows(dice, &aims);
            if lay_all(&messages).0.len() <= MOST_BYTES {
                return Scene { world, messages, rows };
            }
        }
    }

    pub fn recording(&self) -> Vec<u8> {
        lay_all(&self.messages).0
    }

    /// Does this package of the message go?
    pub fn goes(&self, message: &DirtyMessage, package: &DirtyPackage) -> bool {
        let time = package_time(message.seconds, message.nanoseconds, package.delta);
        let simulated = message.flags & SIMULATED_FLAG != 0;
        granted(&self.rows, message.message_id, package.id, time, simulated)
    }

    /// Does the message lose its last package?
    fn goes_whole(&self, message: &DirtyMessage) -> bool {
        !message.packages.is_empty()
            && message.packages.iter().all(|package| self.goes(message, package))
    }

    /// Two recordings of equal length of which the same stays. They differ in
    /// all that goes: in dirt, in packages, in messages, in their number and
    /// their places.
    pub fn equal_rests(&self, dice: &mut Dice) -> Option<(Vec<u8>, Vec<u8>)> {
        let mut one = self.messages.clone();
        let mut other = self.other_recording(dice);
        let length = |messages: &[DirtyMessage]| lay_all(messages).0.len();
        let (first, second) = (length(&one), length(&other));
        let shorter = if first < second { &mut one } else { &mut other };
        if first != second {
            // A message that goes fills the shorter one.
            let filling = self.going_message(dice, Some(first.abs_diff(second)))?;
            shorter.insert(dice.below(shorter.len() + 1), filling);
        }
        let (one, other) = (lay_all(&one).0, lay_all(&other).0);
        (one.len() <= MOST_BYTES).then_some((one, other))
    }

    /// Another recording of which the same stays.
    fn other_recording(&self, dice: &mut Dice) -> Vec<DirtyMessage> {
        let mut other = Vec::new();
        for message in &self.messages {
            if dice.chance(1, 4) {
                other.extend(self.going_message(dice, None));
            }
            if !self.goes_whole(message) {
                other.push(self.other_message(dice, message));
            }
        }
        other
    }

    /// A message of which the same stays.
    fn other_message(&self, dice: &mut Dice, message: &DirtyMessage) -> DirtyMessage {
        let mut other = message.clone();
        other.reserved_nibble = dice.byte() & 15;
        other.reserved_flags = dice.byte();
        other.behind_options = behind_options(dice, &self.world, other.options.len());
        other.packages.clear();
        for package in &message.packages {
            if dice.chance(1, 3) {
                other.packages.extend(self.going_package(dice, message));
            }
            if !self.goes(message, package) {
                let padding = [dice.byte(), dice.byte(), dice.byte()];
                let reserved = dice.byte();
                other.packages.push(DirtyPackage { reserved, padding, ..package.clone() });
            }
        }
        // A message without packages stays for having none.
        if !message.packages.is_empty() && dice.chance(1, 3) {
            other.packages.extend(self.going_package(dice, message));
        }
        other.recount();
        other
    }

    /// A package of this message that some row grants, if a few throws find one.
    fn going_package(&self, dice: &mut Dice, message: &DirtyMessage) -> Option<DirtyPackage> {
        let base = package_time(message.seconds, message.nanoseconds, 0);
        let simulated = message.flags & SIMULATED_FLAG != 0;
        for _ in 0..6 {
            let row = dice.pick(&self.rows);
            let first = row.start().saturating_sub(base);
            let behind = row.end().saturating_sub(base).min(1 << 32);
            if first >= behind {
                continue;
            }
            let spread = first + dice.throw() % (behind - first);
            let delta = dice.pick(&[first, behind - 1, spread]) as u32;
            let id = dice.within(row.package_first as usize, row.package_last as usize) as u32;
            let time = base + u64::from(delta);
            if row.grants(message.message_id, id, time, simulated) {
                return Some(DirtyPackage { id, delta, ..package(dice, &self.world) });
            }
        }
        None
    }

    /// A message that goes whole, if one of this size can be made: of 36 bytes or
    /// more.
    fn going_message(&self, dice: &mut Dice, size: Option<usize>) -> Option<DirtyMessage> {
        let row = dice.pick(&self.rows);
        let mut made = match size {
            Some(size) if size < 36 => return None,
            Some(size) => message_of_size(dice, &self.world, size),
            None => {
                let packages = dice.within(1, 3);
                message(dice, &self.world, packages)
            }
        };
        let (first, last) = (row.message_first as usize, row.message_last as usize);
        made.message_id = dice.within(first, last) as u32;
        let start = row.start() + dice.throw() % (row.end().min(LATEST) - row.start());
        made.seconds = (start / 1_000_000_000) as u32;
        made.nanoseconds = (start % 1_000_000_000) as u32;
        if row.acquired_only {
            made.flags &= !SIMULATED_FLAG;
        }
        let header = made.clone();
        for package in &mut made.packages {
            let going = self.going_package(dice, &header)?;
            (package.id, package.delta) = (going.id, going.delta);
        }
        Some(made)
    }
}

/// The rows of a good sheet: a few from one package to another, or many for one
/// package each.
fn some_rows(dice: &mut Dice, aims: &[Target]) -> Vec<Row> {
    let mut rows = Vec::new();
    for _ in 0..dice.pick(&[1, 1, 1, 2, 3]) {
        let (from, to) = (dice.pick(aims), dice.pick(aims));
        rows.push(row_between(dice, from, to));
    }
    if dice.chance(1, 6) {
        rows = (0..dice.pick(&[5, 16, 32])).map(|_| row_at(dice.pick(aims))).collect();
    }
    rows
}

/// Puts a package count into a message's options, if it has none and there is
/// room: before the others or behind them.
fn put_count(dice: &mut Dice, world: &World, message: &mut DirtyMessage) {
    if count_place(&message.options).is_none() && message.options.len() <= 54 {
        let at = if dice.chance(1, 2) { 0 } else { message.options.len() };
        message.options.splice(at..at, [COUNT_KIND, 6, 0, 0, 0, 0]);
        message.behind_options = behind_options(dice, world, message.options.len());
        message.recount();
    }
}

/// Changes one thing of a message that may stay.
pub fn change_record(dice: &mut Dice, message: &mut DirtyMessage) {
    let package = match message.packages.len() {
        0 => None,
        count => message.packages.get_mut(dice.below(count)),
    };
    match (dice.below(10), package) {
        (0, _) => message.flags ^= dice.pick(&[0x40, 8, 4, 2, 1]),
        (1, _) => message.message_id ^= 1 << dice.below(32),
        (2, _) => message.sequence ^= 1 << dice.below(32),
        (3, _) => message.seconds ^= 1 << dice.below(32),
        (4, _) if !message.options.is_empty() => {
            message.options.clear();
            message.behind_options.clear();
        }
        (5, Some(package)) => package.status ^= 1 << dice.below(8),
        (6, Some(package)) => package.id ^= 1 << dice.below(32),
        (7, Some(package)) => package.data.push(0),
        (8, Some(package)) => package.delta ^= 1 << dice.below(32),
        (9, Some(_)) => {
            message.packages.remove(dice.below(message.packages.len()));
            message.recount();
        }
        _ => message.nanoseconds = message.nanoseconds.checked_sub(1).unwrap_or(1),
    }
}
