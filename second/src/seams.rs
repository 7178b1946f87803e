//! Neighbouring windows: rows that agree in everything but time, the first
//! ending where the second starts, and packages at and around their ends.

use crate::dice::Dice;
use crate::generate::*;
use crate::orders::{everything, row_near, targets, with_window, LATEST};
use crate::sheet::Row;

/// Two neighbouring windows, and a recording whose packages are numbered by
/// their first four data bytes.
#[derive(Clone, Debug)]
pub struct Seam {
    pub messages: Vec<DirtyMessage>,
    /// The rows of a sheet, up to 16 of them; their windows do not count.
    rows: Vec<Row>,
    pub start: u64,
    pub seam: u64,
    pub end: u64,
}

impl Seam {
    /// Windows of any length, often a short one.
    pub fn new(dice: &mut Dice) -> Seam {
        let length = |dice: &mut Dice| match dice.below(4) {
            0 => 1,
            1 => dice.within(1, 20) as u64,
            2 => dice.within(1, 5_000_000_000) as u64,
            _ => 1 + dice.throw() % (LATEST / 2),
        };
        let (first, second) = (length(dice), length(dice));
        let latest_start = LATEST - first - second;
        let start = match dice.below(5) {
            0 => 0,
            1 => latest_start,
            // The seam is on a whole second, or the start is.
            2 => (latest_start / 2).next_multiple_of(1_000_000_000).saturating_sub(first),
            3 => latest_start / 1_000_000_000 * 1_000_000_000,
            _ => dice.throw() % (latest_start + 1),
        };
        Seam::at(dice, start, start + first, start + first + second)
    }

    /// The windows from `start` up to `seam` and from there up to `end`.
    pub fn at(dice: &mut Dice, start: u64, seam: u64, end: u64) -> Seam {
        let world = World::new(dice);
        let inside = [start + dice.throw() % (seam - start), seam + dice.throw() % (end - seam)];
        let mut moments = vec![start, start + 1, seam - 1, seam, seam + 1, end - 1, end, end + 1];
        moments.extend(inside);
        moments.extend(start.checked_sub(1));
        let mut messages = Vec::new();
        while !moments.is_empty() {
            let moment = moments.swap_remove(dice.below(moments.len()));
            messages.push(message_at(
                dice,
                &world,
                moment,
                &[start, seam - 1, seam, seam + 1, end],
            ));
        }
        number_packages(dice, &mut messages);
        let targets = targets(&messages);
        let count = dice.pick(&[1, 1, 1, 2, 3, 16]);
        let rows = (0..count).map(|_| {
            let target = dice.pick(&targets);
            row_near(dice, target)
        });
        Seam { rows: rows.collect(), messages, start, seam, end }
    }

    /// The times of the packages, in the order of their numbers.
    pub fn times(&self) -> Vec<u64> {
        targets(&self.messages).iter().map(|target| target.time).collect()
    }

    /// The sheet of the first window.
    pub fn first(&self) -> Vec<Row> {
        self.rows.iter().map(|row| with_window(*row, self.start, self.seam)).collect()
    }

    /// The sheet of the second window.
    pub fn second(&self) -> Vec<Row> {
        self.rows.iter().map(|row| with_window(*row, self.seam, self.end)).collect()
    }

    /// The sheet of one window over both.
    pub fn whole(&self) -> Vec<Row> {
        self.rows.iter().map(|row| with_window(*row, self.start, self.end)).collect()
    }

    /// A sheet in which each row has one of these windows, and some rows are for
    /// every id.
    pub fn sheet(&self, dice: &mut Dice, windows: &[(u64, u64)]) -> Vec<Row> {
        let mut rows = Vec::new();
        for row in &self.rows {
            let row = if dice.chance(1, 2) { everything() } else { *row };
            let (start, end) = dice.pick(windows);
            rows.push(with_window(row, start, end));
        }
        rows
    }

    /// The rows of both windows in one sheet, one window behind the other or
    /// row by row.
    pub fn both(&self, dice: &mut Dice) -> Vec<Row> {
        let (first, second) = (self.first(), self.second());
        match dice.below(3) {
            0 => [first, second].concat(),
            1 => [second, first].concat(),
            _ => first.into_iter().zip(second).flat_map(|pair| [pair.0, pair.1]).collect(),
        }
    }
}

/// A message with a package at this time, and with some at those others that
/// its packages can have.
fn message_at(dice: &mut Dice, world: &World, moment: u64, others: &[u64]) -> DirtyMessage {
    let furthest = moment.min(u32::MAX.into());
    let spread = dice.throw() % (furthest + 1);
    // No message is later than the latest time.
    let delta = dice.pick(&[0, furthest, spread, spread % 20]).max(moment.saturating_sub(LATEST));
    let base = moment - delta;
    let mut deltas = vec![delta];
    for other in others {
        let fits = (base..=base + u64::from(u32::MAX)).contains(other);
        if fits && dice.chance(1, 3) {
            deltas.push(other - base);
        }
    }
    let mut made = message(dice, world, deltas.len());
    made.seconds = (base / 1_000_000_000) as u32;
    made.nanoseconds = (base % 1_000_000_000) as u32;
    for (package, delta) in made.packages.iter_mut().zip(deltas) {
        package.delta = delta as u32;
    }
    made
}

/// Numbers the packages of a recording, so that they can be told apart in a
/// copy.
pub fn number_packages(dice: &mut Dice, messages: &mut [DirtyMessage]) {
    let packages = messages.iter_mut().flat_map(|message| &mut message.packages);
    for (number, package) in packages.enumerate() {
        package.data = (number as u32).to_be_bytes().to_vec();
        package.data.extend(dice.some_bytes(0, 5));
    }
}
