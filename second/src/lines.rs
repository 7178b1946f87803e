//! Lines of ids and lists of ranges, good, odd and damaged.

use crate::dice::Dice;
use crate::ids::{IdRange, MOST_RANGES};
use crate::refusal::MOST_BYTES;

/// Ranges as they are handed over for writing: always 32 of them, and how many
/// count. That may be any number; what is behind the last that counts is junk.
#[derive(Clone, Debug)]
pub struct Handed {
    pub ranges: [IdRange; MOST_RANGES],
    pub count: usize,
}

impl Handed {
    /// These ranges; those from the 33rd on can only be counted.
    pub fn new(dice: &mut Dice, ranges: &[IdRange]) -> Handed {
        let mut all = [(); MOST_RANGES].map(|()| {
            // Often inverted, and never taken for a range of the list.
            let (first, last) = (dice.edge(), dice.edge());
            dice.pick(&[IdRange { first, last }, IdRange::default()])
        });
        for (slot, range) in all.iter_mut().zip(ranges) {
            *slot = *range;
        }
        Handed { ranges: all, count: ranges.len() }
    }

    /// First and last of each range in turn, as words of this machine.
    pub fn words(&self) -> Vec<u8> {
        let ends = self.ranges.iter().flat_map(|range| [range.first, range.last]);
        ends.flat_map(u32::to_ne_bytes).collect()
    }
}

/// A good range, often at an end of the ids or of one id alone.
pub fn range(dice: &mut Dice) -> IdRange {
    let (one, other) = (dice.edge(), dice.edge());
    let near = one.saturating_add(dice.below(3) as u32);
    let last = dice.pick(&[one, near, other]);
    IdRange { first: one.min(last), last: one.max(last) }
}

fn some_ranges(dice: &mut Dice, count: usize) -> Vec<IdRange> {
    (0..count).map(|_| range(dice)).collect()
}

/// From one to 32 good ranges.
pub fn good_ranges(dice: &mut Dice) -> Vec<IdRange> {
    let most = dice.pick(&[1, 3, 8, MOST_RANGES]);
    let spread = dice.within(1, most);
    let count = dice.pick(&[most, spread]);
    some_ranges(dice, count)
}

/// Ranges, mostly good; some are inverted, and sometimes there are none or
/// too many.
pub fn any_ranges(dice: &mut Dice) -> Vec<IdRange> {
    let mut ranges = match dice.below(8) {
        0 => Vec::new(),
        1 | 2 => {
            let count = dice.within(31, 40);
            some_ranges(dice, count)
        }
        _ => good_ranges(dice),
    };
    if dice.chance(1, 3) {
        for _ in 0..dice.within(1, 3) {
            invert_one(dice, &mut ranges);
        }
    }
    ranges
}

/// Turns some range round, or one that would stay as it is into 1 to 0.
fn invert_one(dice: &mut Dice, ranges: &mut [IdRange]) {
    if ranges.is_empty() {
        return;
    }
    let at = dice.below(ranges.len());
    let IdRange { first, last } = ranges[at];
    ranges[at] = if first == last {
        IdRange { first: 1, last: 0 }
    } else {
        IdRange { first: first.max(last), last: first.min(last) }
    };
}

/// An id in digits, with leading zeros up to 10 digits if it is an odd one.
fn digits(dice: &mut Dice, id: u64, odd: bool) -> String {
    let plain = id.to_string();
    let width = if odd { dice.within(plain.len(), plain.len().max(10)) } else { 0 };
    format!("{id:0width$}")
}

/// A good line of these ranges; an odd one has leading zeros, and ranges of
/// one id as `7-7`.
pub fn line_of(dice: &mut Dice, ranges: &[IdRange], odd: bool) -> Vec<u8> {
    let mut items = Vec::new();
    for range in ranges {
        let mut item = digits(dice, range.first.into(), odd);
        if range.first != range.last || odd && dice.chance(1, 2) {
            item.push('-');
            item.push_str(&digits(dice, range.last.into(), odd));
        }
        items.push(item);
    }
    items.join(",").into_bytes()
}

/// A line: good, with bad items, or of bad form.
pub fn any_line(dice: &mut Dice) -> Vec<u8> {
    let ranges = if dice.chance(1, 6) {
        let count = dice.within(30, 36);
        some_ranges(dice, count)
    } else {
        good_ranges(dice)
    };
    let odd = dice.chance(1, 2);
    let mut line = line_of(dice, &ranges, odd);
    match dice.below(10) {
        0..=2 => {}
        3..=5 => break_items(dice, &mut line),
        6..=8 => break_form(dice, &mut line),
        _ => {
            break_items(dice, &mut line);
            break_form(dice, &mut line);
        }
    }
    if dice.chance(1, 80) {
        lengthen(dice, &mut line);
    }
    line
}

/// Replaces one to three items by bad ones of good form.
fn break_items(dice: &mut Dice, line: &mut Vec<u8>) {
    let text = String::from_utf8_lossy(line).into_owned();
    let mut items: Vec<String> = text.split(',').map(String::from).collect();
    for _ in 0..dice.within(1, 3) {
        let at = dice.below(items.len());
        items[at] = bad_item(dice);
    }
    *line = items.join(",").into_bytes();
}

/// An item with an id too large, or inverted.
fn bad_item(dice: &mut Dice) -> String {
    const TOO_LARGE: [u64; 5] =
        [4_294_967_296, 4_294_967_297, 4_294_967_306, 9_999_999_999, 8_589_934_592];
    let large = dice.pick(&TOO_LARGE);
    let id = dice.within(1, u32::MAX as usize);
    match dice.below(6) {
        0 => large.to_string(),
        1 => format!("{}-{large}", id),
        2 => format!("{large}-{}", id),
        3 => format!("{large}-{}", dice.pick(&TOO_LARGE)),
        4 => format!("{id}-{}", id - 1),
        _ => format!("{id}-{:010}", dice.below(id)),
    }
}

/// Breaks the form of a line at some place, or only just not.
fn break_form(dice: &mut Dice, line: &mut Vec<u8>) {
    const STRANGE: [u8; 16] = [
        b' ', b'\n', b'\r', b'\t', b'-', b',', b'/', b':', b'+', b'.', b';', b'a', 0, 0x80, 0xB0,
        0xFF,
    ];
    let at = dice.below(line.len() + 1);
    match dice.below(9) {
        0 | 1 => line.insert(at, dice.pick(&STRANGE)),
        2 if at < line.len() => line[at] = dice.pick(&STRANGE),
        3 => line.push(dice.pick(&STRANGE)),
        4 => line.truncate(at),
        5 if at < line.len() => {
            line.remove(at);
        }
        6 => {
            // An id with 10 or 11 digits.
            let zeros = dice.within(1, 10);
            line.splice(at..at, vec![b'0'; zeros]);
        }
        7 if at < line.len() => line[at] = dice.byte(),
        _ => {
            let some = dice.some_bytes(0, 12);
            *line = some;
        }
    }
}

/// Makes the line about as long as an input may be.
fn lengthen(dice: &mut Dice, line: &mut Vec<u8>) {
    let filling = dice.pick(&[&b",7"[..], b",0000000007", b",1-2", b"7", b" "]);
    let goal = MOST_BYTES - 2 + dice.below(5);
    while line.len() < goal {
        line.extend(filling);
    }
    line.truncate(goal);
}

/// Every line of at most so many bytes, of digits, signs and a strange byte.
pub fn short_lines(most: usize) -> Vec<Vec<u8>> {
    let mut lines = vec![Vec::new()];
    let mut longest = lines.clone();
    for _ in 0..most {
        let longer = |line: &Vec<u8>| b"09-,x".map(|byte| [&line[..], &[byte]].concat());
        longest = longest.iter().flat_map(longer).collect();
        lines.extend_from_slice(&longest);
    }
    lines
}
