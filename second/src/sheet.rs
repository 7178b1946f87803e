//! The order sheet: rows of 256 bits and what they grant.

use crate::parse::{package_time, MOST_NANOSECONDS};
use crate::refusal::*;

pub const ROW_BYTES: usize = 32;
pub const MOST_ROWS: usize = 32;

#[derive(Clone, Copy, Debug, Default, PartialEq, Eq)]
pub struct Row {
    pub message_first: u32,
    pub message_last: u32,
    pub package_first: u32,
    pub package_last: u32,
    pub start_seconds: u32,
    pub start_nanoseconds: u32,
    pub end_seconds: u32,
    pub end_nanoseconds: u32,
    /// The lowest spare bit: the row grants only in messages that are not
    /// simulated.
    pub acquired_only: bool,
}

impl Row {
    pub fn start(&self) -> u64 {
        package_time(self.start_seconds, self.start_nanoseconds, 0)
    }

    pub fn end(&self) -> u64 {
        package_time(self.end_seconds, self.end_nanoseconds, 0)
    }

    /// Are first and last, start and end in order, and the nanoseconds not too many?
    pub fn is_good(&self) -> bool {
        self.message_first <= self.message_last
            && self.package_first <= self.package_last
            && self.start_nanoseconds <= MOST_NANOSECONDS
            && self.end_nanoseconds <= MOST_NANOSECONDS
            && self.start() < self.end()
    }

    /// May the row grant packages of this message? The range has both its ends.
    fn is_for(&self, message_id: u32, simulated: bool) -> bool {
        (self.message_first..=self.message_last).contains(&message_id)
            && !(self.acquired_only && simulated)
    }

    /// The packages that it then grants.
    fn grant(&self) -> Grant {
        Grant {
            package_first: self.package_first,
            package_last: self.package_last,
            start: self.start(),
            end: self.end(),
        }
    }

    pub fn grants(&self, message_id: u32, package_id: u32, time: u64, simulated: bool) -> bool {
        self.is_for(message_id, simulated) && self.grant().has(package_id, time)
    }
}

/// The packages that a row grants of a message that it is for.
#[derive(Clone, Copy, Debug)]
pub struct Grant {
    package_first: u32,
    package_last: u32,
    /// In nanoseconds.
    start: u64,
    end: u64,
}

impl Grant {
    /// The range of ids has both its ends; the window has its start alone.
    pub fn has(&self, package_id: u32, time: u64) -> bool {
        (self.package_first..=self.package_last).contains(&package_id)
            && (self.start..self.end).contains(&time)
    }
}

/// The rows of a sheet, each with its grant. As many grants as are for the message at hand
/// stand first in `at_hand`.
#[derive(Clone, Debug)]
pub struct Rows {
    rows: Vec<(Row, Grant)>,
    at_hand: Vec<Grant>,
}

impl Rows {
    pub fn of(rows: &[Row]) -> Rows {
        let at_hand: Vec<Grant> = rows.iter().map(Row::grant).collect();
        Rows { rows: rows.iter().copied().zip(at_hand.clone()).collect(), at_hand }
    }

    /// The grants of the rows that are for this message.
    pub fn grants_for(&mut self, message_id: u32, simulated: bool) -> &[Grant] {
        let mut count = 0;
        for (row, grant) in &self.rows {
            if row.is_for(message_id, simulated) {
                self.at_hand[count] = *grant;
                count += 1;
            }
        }
        &self.at_hand[..count]
    }
}

/// Does some row of the sheet grant this package?
pub fn granted(rows: &[Row], message_id: u32, package_id: u32, time: u64, simulated: bool) -> bool {
    rows.iter().any(|row| row.grants(message_id, package_id, time, simulated))
}

/// Reads a sheet into its rows: first the size, then row after row.
pub fn read_sheet(sheet: &[u8]) -> Result<Vec<Row>, Refusal> {
    let good_size = sheet.len() <= MOST_ROWS * ROW_BYTES && sheet.len().is_multiple_of(ROW_BYTES);
    ask(good_size, ROW, sheet.len())?;
    let mut rows = Vec::new();
    for (index, bytes) in sheet.chunks(ROW_BYTES).enumerate() {
        match read_row(bytes) {
            Some(row) => rows.push(row),
            None => return refuse(ROW, index * ROW_BYTES),
        }
    }
    Ok(rows)
}

/// The row in these 32 bytes, if it keeps the rules.
pub fn read_row(bytes: &[u8]) -> Option<Row> {
    let half = |from: usize| u128::from_be_bytes(bytes[from..from + 16].try_into().unwrap());
    let (ids, times) = (half(0), half(16));
    let row = Row {
        message_first: (ids >> 96) as u32,
        message_last: (ids >> 64) as u32,
        package_first: (ids >> 32) as u32,
        package_last: ids as u32,
        start_seconds: (times >> 96) as u32,
        start_nanoseconds: (times >> 66) as u32 & 0x3FFF_FFFF,
        end_seconds: (times >> 34) as u32,
        end_nanoseconds: (times >> 4) as u32 & 0x3FFF_FFFF,
        acquired_only: times & 1 != 0,
    };
    let spare = times & 0b1110;
    (row.is_good() && spare == 0).then_some(row)
}
