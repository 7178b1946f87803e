//! Order sheets to compare with: ranges that just touch a package's ids and
//! time, and every kind of bad row.

use crate::dice::Dice;
use crate::generate::DirtyMessage;
use crate::parse::{package_time, SIMULATED_FLAG};
use crate::sheet::Row;

/// The latest time that a row can name, in nanoseconds; none can grant it.
pub const LATEST: u64 = 4_294_967_295_999_999_999;

/// How many kinds of bad row there are.
pub const BAD_ROWS: usize = 11;

/// A package that a row may aim at.
#[derive(Clone, Copy, Debug)]
pub struct Target {
    pub message_id: u32,
    pub package_id: u32,
    pub time: u64,
    pub simulated: bool,
}

pub fn targets(messages: &[DirtyMessage]) -> Vec<Target> {
    let mut targets = Vec::new();
    for message in messages {
        for package in &message.packages {
            targets.push(Target {
                message_id: message.message_id,
                package_id: package.id,
                time: package_time(message.seconds, message.nanoseconds, package.delta),
                simulated: message.flags & SIMULATED_FLAG != 0,
            });
        }
    }
    targets
}

/// Puts numbers into bytes bit by bit, the most significant first.
fn pack_bits(fields: &[(u32, u32)]) -> Vec<u8> {
    let mut bits = Vec::new();
    for &(number, width) in fields {
        for place in (0..width).rev() {
            bits.push(number >> place & 1);
        }
    }
    bits.chunks(8).map(|eight| eight.iter().fold(0, |byte, bit| byte << 1 | *bit as u8)).collect()
}

/// The 32 bytes of a row with these spare bits besides its own.
pub fn pack_row(row: &Row, spare: u32) -> Vec<u8> {
    pack_bits(&[
        (row.message_first, 32),
        (row.message_last, 32),
        (row.package_first, 32),
        (row.package_last, 32),
        (row.start_seconds, 32),
        (row.start_nanoseconds, 30),
        (row.end_seconds, 32),
        (row.end_nanoseconds, 30),
        (spare | u32::from(row.acquired_only), 4),
    ])
}

pub fn pack_sheet(rows: &[Row]) -> Vec<u8> {
    rows.iter().flat_map(|row| pack_row(row, 0)).collect()
}

/// A range near a number from 0 to `most`: it holds the number, ends or begins
/// at it, or just misses it.
fn range_near(dice: &mut Dice, number: u64, most: u64, may_miss: bool) -> (u64, u64) {
    let far = dice.throw() % (most / 2 + 1);
    let near = dice.below(3) as u64;
    let number = number.min(most);
    match dice.below(if may_miss { 9 } else { 7 }) {
        0 | 1 => (number, number),
        2 => (number - far.min(number), number),
        3 => (number, number + far.min(most - number)),
        4 => (number - near.min(number), number + near.min(most - number)),
        5 | 6 => (0, most),
        7 if number < most => (number + 1, number + 1 + far.min(most - number - 1)),
        8 if number > 0 => (number - 1 - far.min(number - 1), number - 1),
        _ => (number, number),
    }
}

/// A good row that touches this target, or misses it by one in some range.
pub fn row_near(dice: &mut Dice, target: Target) -> Row {
    let ids = u64::from(u32::MAX);
    let miss = dice.below(6);
    let message = range_near(dice, target.message_id.into(), ids, miss == 0);
    let package = range_near(dice, target.package_id.into(), ids, miss == 1);
    let time = range_near(dice, target.time, LATEST - 1, miss == 2);
    Row { acquired_only: dice.chance(1, 4), ..row_of(message, package, time) }
}

/// A row that surely holds this target, if any row can.
pub fn row_around(dice: &mut Dice, target: Target) -> Row {
    let ids = u64::from(u32::MAX);
    let message = range_near(dice, target.message_id.into(), ids, false);
    let package = range_near(dice, target.package_id.into(), ids, false);
    let time = range_near(dice, target.time, LATEST - 1, false);
    let acquired_only = !target.simulated && dice.chance(1, 4);
    Row { acquired_only, ..row_of(message, package, time) }
}

/// A row from one target to another: in time, in message ids or in package ids,
/// or in some of these, and with everything in the others. Some windows end at
/// the later one and leave it out.
pub fn row_between(dice: &mut Dice, one: Target, other: Target) -> Row {
    let between = |narrow: bool, one: u64, other: u64, most: u64| {
        if narrow {
            (one.min(other).min(most), one.max(other).min(most))
        } else {
            (0, most)
        }
    };
    let ids = u64::from(u32::MAX);
    let narrow = dice.pick(&[1, 1, 1, 1, 2, 3, 4, 5, 7]);
    let mut time = between(narrow & 1 != 0, one.time, other.time, LATEST - 1);
    let message = between(narrow & 2 != 0, one.message_id.into(), other.message_id.into(), ids);
    let package = between(narrow & 4 != 0, one.package_id.into(), other.package_id.into(), ids);
    if time.0 < time.1 && dice.chance(1, 5) {
        time.1 -= 1;
    }
    Row { acquired_only: dice.chance(1, 8), ..row_of(message, package, time) }
}

/// A row for the ids and the moment of this target and for nothing else.
pub fn row_at(target: Target) -> Row {
    let (message, package) = (target.message_id.into(), target.package_id.into());
    let time = target.time.min(LATEST - 1);
    row_of((message, message), (package, package), (time, time))
}

/// A row of these ranges, which have both their ends; the row's window ends
/// just behind the last time.
fn row_of(message: (u64, u64), package: (u64, u64), time: (u64, u64)) -> Row {
    let ids = Row {
        message_first: message.0 as u32,
        message_last: message.1 as u32,
        package_first: package.0 as u32,
        package_last: package.1 as u32,
        ..Row::default()
    };
    with_window(ids, time.0, time.1 + 1)
}

/// The row with the window from `start` on up to `end`, in nanoseconds.
pub fn with_window(row: Row, start: u64, end: u64) -> Row {
    Row {
        start_seconds: (start / 1_000_000_000) as u32,
        start_nanoseconds: (start % 1_000_000_000) as u32,
        end_seconds: (end / 1_000_000_000) as u32,
        end_nanoseconds: (end % 1_000_000_000) as u32,
        ..row
    }
}

/// A row that grants whatever a row can grant.
pub fn everything() -> Row {
    Row {
        message_last: u32::MAX,
        package_last: u32::MAX,
        end_seconds: u32::MAX,
        end_nanoseconds: 999_999_999,
        ..Row::default()
    }
}

/// A good row that has nothing to do with a recording.
pub fn any_row(dice: &mut Dice) -> Row {
    let target = Target {
        message_id: dice.edge(),
        package_id: dice.edge(),
        time: dice.throw() % (LATEST + 1),
        simulated: dice.chance(1, 2),
    };
    row_near(dice, target)
}

/// The rows of a good sheet for these targets.
pub fn rows(dice: &mut Dice, targets: &[Target]) -> Vec<Row> {
    let count = match dice.below(12) {
        0 => 0,
        1 => 32,
        2 => dice.within(5, 31),
        _ => dice.within(1, 4),
    };
    if !targets.is_empty() && dice.chance(1, 20) {
        return last_alone(dice, targets, count);
    }
    let mut rows = Vec::new();
    for _ in 0..count {
        if targets.is_empty() || dice.chance(1, 8) {
            rows.push(any_row(dice));
        } else {
            let target = dice.pick(targets);
            rows.push(row_near(dice, target));
        }
    }
    rows
}

/// So many rows or 32, of which the last alone grants some package.
fn last_alone(dice: &mut Dice, targets: &[Target], count: usize) -> Vec<Row> {
    let count = dice.pick(&[count, 32]);
    let target = dice.pick(targets);
    let Target { message_id, package_id, time, simulated } = target;
    let mut rows = Vec::new();
    while rows.len() + 1 < count {
        let row = any_row(dice);
        if !row.grants(message_id, package_id, time, simulated) {
            rows.push(row);
        }
    }
    rows.push(row_around(dice, target));
    rows
}

/// The 32 bytes of a row that is bad in one way, from 0 to BAD_ROWS - 1.
pub fn bad_row(dice: &mut Dice, way: usize) -> Vec<u8> {
    let mut row = any_row(dice);
    let mut spare = 0;
    let late = dice.within(1_000_000_000, (1 << 30) - 1) as u32;
    let too_late = dice.pick(&[1_000_000_000, (1 << 30) - 1, late]);
    match way {
        0 => {
            row.message_first = row.message_last.max(1);
            row.message_last = row.message_first - 1;
        }
        1 => {
            row.package_first = row.package_last.max(1);
            row.package_last = row.package_first - 1;
        }
        2 => {
            row.start_seconds = row.end_seconds.max(1);
            row.end_seconds = row.start_seconds - 1;
        }
        3 => {
            row.end_seconds = row.start_seconds;
            row.start_nanoseconds = row.end_nanoseconds.max(1);
            row.end_nanoseconds = row.start_nanoseconds - 1;
        }
        4 => {
            // The end is late enough, so only the nanoseconds are bad.
            row.start_seconds = row.start_seconds.min(u32::MAX - 2);
            row.end_seconds = u32::MAX;
            row.start_nanoseconds = too_late;
        }
        5 => row.end_nanoseconds = too_late,
        // The lowest spare bit is a good one.
        6..=8 => spare = 2 << (way - 6),
        9 => {
            // A window without a moment.
            row.end_seconds = row.start_seconds;
            row.end_nanoseconds = row.start_nanoseconds;
        }
        _ => {
            spare = dice.within(2, 15) as u32;
            row.end_nanoseconds = too_late;
            row.package_first = row.package_last.max(1);
            row.package_last = row.package_first - 1;
        }
    }
    pack_row(&row, spare)
}

/// A sheet that is refused: some bad rows, or a bad size, or both.
pub fn bad_sheet(dice: &mut Dice, targets: &[Target]) -> Vec<u8> {
    let mut good = rows(dice, targets);
    if good.is_empty() {
        good.push(any_row(dice));
    }
    let mut sheet = pack_sheet(&good);
    let bad_rows = dice.below(3);
    for _ in 0..bad_rows {
        let index = dice.below(good.len());
        let way = dice.below(BAD_ROWS);
        let row = bad_row(dice, way);
        sheet[32 * index..32 * index + 32].copy_from_slice(&row);
    }
    if bad_rows == 0 || dice.chance(1, 4) {
        match dice.below(5) {
            0 => sheet.truncate(sheet.len() - dice.within(1, 31)),
            1 => sheet.extend(dice.some_bytes(1, 31)),
            2 => sheet.resize(1024 + 32, 0),
            3 => sheet.resize(1024 + 32 * dice.within(1, 40), 0),
            _ => sheet.resize(1024 + dice.within(1, 2000), 0),
        }
    }
    sheet
}
