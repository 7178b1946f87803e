//! Ids as a line of text: read into ranges, and written from ranges.
//!
//! A line is first judged as text, byte after byte; only a line of good form
//! is cut into items and its numbers are looked at.

use crate::refusal::*;
use std::fmt::Write;

/// A line has at most so many items.
pub const MOST_RANGES: usize = 32;
/// An id has at most so many digits.
pub const MOST_DIGITS: usize = 10;

/// The ids from `first` to `last`, both included.
#[derive(Clone, Copy, Debug, Default, PartialEq, Eq)]
pub struct IdRange {
    pub first: u32,
    pub last: u32,
}

/// Reads a line: LARGE, TEXT at the byte that breaks the form, TEXT at the
/// first bad item.
pub fn read_ids(line: &[u8]) -> Result<Vec<IdRange>, Refusal> {
    ask_not_large(line.len())?;
    if let Err(place) = form(line) {
        return refuse(TEXT, place);
    }
    let mut ranges = Vec::new();
    let mut place = 0;
    for item in line.split(|&byte| byte == b',') {
        match range_of(item).filter(|_| ranges.len() < MOST_RANGES) {
            Some(range) => ranges.push(range),
            None => return refuse(TEXT, place),
        }
        place += item.len() + 1;
    }
    Ok(ranges)
}

/// Is the line a list of ids with 1 to 10 digits, alone or two with "-"
/// between? The error is the first byte that breaks this, or the line's end.
fn form(line: &[u8]) -> Result<(), usize> {
    // The digits of the id so far, and whether it is an item's second one.
    let (mut digits, mut second) = (0, false);
    for (place, byte) in line.iter().enumerate() {
        match byte {
            b'0'..=b'9' if digits < MOST_DIGITS => digits += 1,
            b'-' if digits > 0 && !second => (digits, second) = (0, true),
            b',' if digits > 0 => (digits, second) = (0, false),
            _ => return Err(place),
        }
    }
    if digits > 0 {
        Ok(())
    } else {
        Err(line.len())
    }
}

/// The range of an item of good form, if its ids are below 2^32 and the first
/// is not above the last.
fn range_of(item: &[u8]) -> Option<IdRange> {
    let mut ids = item.split(|&byte| byte == b'-').map(id_of);
    let first = ids.next()??;
    let last = ids.next().unwrap_or(Some(first))?;
    (first <= last).then_some(IdRange { first, last })
}

fn id_of(digits: &[u8]) -> Option<u32> {
    std::str::from_utf8(digits).ok()?.parse().ok()
}

/// Writes ranges as a line: TEXT with an index, ROOM. Reports the bytes
/// written.
pub fn write_ids(ranges: &[IdRange], buffer: &mut [u8]) -> Result<usize, Refusal> {
    ask(!ranges.is_empty(), TEXT, 0)?;
    let good = |(index, range): (usize, &IdRange)| {
        ask(index < MOST_RANGES && range.first <= range.last, TEXT, index)
    };
    ranges.iter().enumerate().try_for_each(good)?;
    let mut line = String::new();
    for range in ranges {
        if !line.is_empty() {
            line.push(',');
        }
        put_item(range, &mut line);
    }
    ask(line.len() <= buffer.len(), ROOM, line.len())?;
    buffer[..line.len()].copy_from_slice(line.as_bytes());
    Ok(line.len())
}

/// Puts a range behind the line as an item: a single id where both ends agree.
fn put_item(range: &IdRange, line: &mut String) {
    let written = if range.first == range.last {
        write!(line, "{}", range.first)
    } else {
        write!(line, "{}-{}", range.first, range.last)
    };
    written.expect("a line in memory takes every byte");
}

/// How many readings a line has by the grammar alone: a list is an item, or an
/// item, a comma and a list; an item is an id, or an id, "-" and an id.
pub fn readings(line: &[u8]) -> usize {
    // A longer item has no reading.
    let parts = parted(line, b',').take_while(|(item, _)| item.len() <= 2 * MOST_DIGITS + 1);
    let lists = parts.map(|(item, list)| match items(item) {
        // What is behind is then not asked for, which would take very long.
        0 => 0,
        ways => ways * readings(list),
    });
    items(line) + lists.sum::<usize>()
}

/// Do these bytes begin some line of the grammar? An open id is ended by a digit.
pub fn begins_a_line(start: &[u8]) -> bool {
    readings(start) > 0 || readings(&[start, b"0"].concat()) > 0
}

/// How many readings as one item there are.
fn items(item: &[u8]) -> usize {
    usize::from(is_id(item)) + parted(item, b'-').filter(|&(a, b)| is_id(a) && is_id(b)).count()
}

fn is_id(digits: &[u8]) -> bool {
    (1..=MOST_DIGITS).contains(&digits.len()) && digits.iter().all(u8::is_ascii_digit)
}

/// What stands before and behind this byte, for each place where it stands.
fn parted(bytes: &[u8], byte: u8) -> impl Iterator<Item = (&[u8], &[u8])> {
    let places = (0..bytes.len()).filter(move |&at| bytes[at] == byte);
    places.map(|at| (&bytes[..at], &bytes[at + 1..]))
}
