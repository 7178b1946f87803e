//! Ids as a line of text: form and numbers are judged in one walk, and digits go straight
//! into the line.

use crate::ids::{IdRange, MOST_DIGITS, MOST_RANGES};
use crate::refusal::*;

/// The longest line: 32 ranges of two ids with 10 digits, and the commas.
const LONGEST: usize = MOST_RANGES * (2 * MOST_DIGITS + 2) - 1;

/// Reads a line: LARGE, TEXT at the byte that breaks the form, TEXT at the
/// first bad item.
pub fn read_ids(line: &[u8]) -> Result<Vec<IdRange>, Refusal> {
    ask_not_large(line.len())?;
    let mut ranges = Vec::with_capacity(MOST_RANGES);
    let (mut bad_item, mut item_place) = (None, 0);
    // The digits of the id so far and its value, and the first id where this is the second.
    let (mut digits, mut value, mut first) = (0, 0_u64, None);
    // The line's end ends an item as a comma does.
    for (place, &byte) in line.iter().chain(b",").enumerate() {
        match byte {
            b'0'..=b'9' if digits < MOST_DIGITS => {
                digits += 1;
                value = 10 * value + u64::from(byte - b'0');
            }
            b'-' if digits > 0 && first.is_none() => {
                first = Some(value);
                (digits, value) = (0, 0);
            }
            b',' if digits > 0 => {
                match range_of(first.unwrap_or(value), value) {
                    Some(range) if ranges.len() < MOST_RANGES => ranges.push(range),
                    _ => _ = bad_item.get_or_insert(item_place),
                }
                (digits, value, first, item_place) = (0, 0, None, place + 1);
            }
            _ => return refuse(TEXT, place),
        }
    }
    match bad_item {
        Some(place) => refuse(TEXT, place),
        None => Ok(ranges),
    }
}

/// The range of these ids, if they are below 2^32 and the first is not above the last.
fn range_of(first: u64, last: u64) -> Option<IdRange> {
    let range = IdRange { first: first.try_into().ok()?, last: last.try_into().ok()? };
    (range.first <= range.last).then_some(range)
}

/// Writes ranges as a line: TEXT with an index, ROOM. Reports the bytes
/// written.
pub fn write_ids(ranges: &[IdRange], buffer: &mut [u8]) -> Result<usize, Refusal> {
    ask(!ranges.is_empty(), TEXT, 0)?;
    for (index, range) in ranges.iter().enumerate() {
        ask(index < MOST_RANGES && range.first <= range.last, TEXT, index)?;
    }
    let mut line = [b','; LONGEST];
    let mut length = 0;
    for (index, range) in ranges.iter().enumerate() {
        length += usize::from(index > 0);
        length += put_id(range.first, &mut line[length..]);
        if range.first != range.last {
            line[length] = b'-';
            length += 1 + put_id(range.last, &mut line[length + 1..]);
        }
    }
    ask(length <= buffer.len(), ROOM, length)?;
    buffer[..length].copy_from_slice(&line[..length]);
    Ok(length)
}

/// Puts an id's digits to the start of the line and gives how many they are.
fn put_id(id: u32, line: &mut [u8]) -> usize {
    let digits = id.checked_ilog10().map_or(1, |log| log as usize + 1);
    let mut rest = id;
    for digit in line[..digits].iter_mut().rev() {
        *digit = b'0' + (rest % 10) as u8;
        rest /= 10;
    }
    digits
}
