//! Reading: headers, options, packages, whole messages and recordings.
//!
//! A message is taken apart into a record; everything else works on records.

use crate::refusal::*;
use std::mem::replace;

pub const HEADER_BYTES: usize = 24;
pub const PACKAGE_HEADER_BYTES: usize = 12;
pub const MOST_NANOSECONDS: u32 = 999_999_999;

/// The flag bits that a message record has: 6, 3, 2, 1 and 0.
pub const RECORD_FLAGS: u8 = 0b0100_1111;
pub const STANDARD_FLAG: u8 = 0b1000_0000;
pub const PLAYBACK_FLAG: u8 = 0b0100_0000;
pub const FRAGMENT_FLAGS: u8 = 0b0011_0000;
pub const SIMULATED_FLAG: u8 = 0b0000_1000;

/// The options that a message has at most once: a fragment's byte offset and
/// the package count. Both have a number of 32 bits.
pub const OFFSET_KIND: u8 = 0x86;
pub const COUNT_KIND: u8 = 0x87;

/// What reading a header alone tells.
#[derive(Clone, Debug, PartialEq, Eq)]
pub struct Header<'a> {
    pub option_words: usize,
    /// Flag bits 7 to 0.
    pub flags: u8,
    pub message_id: u32,
    pub sequence: u32,
    pub length: usize,
    pub seconds: u32,
    pub nanoseconds: u32,
    pub option_run: &'a [u8],
}

impl Header<'_> {
    /// So many bytes stand before the payload.
    pub fn front(&self) -> usize {
        HEADER_BYTES + 4 * self.option_words
    }
}

/// One package; L is 12 and the number of data bytes.
#[derive(Clone, Debug, PartialEq, Eq)]
pub struct Package<'a> {
    pub id: u32,
    pub status: u8,
    pub delta: u32,
    pub data: &'a [u8],
}

impl Package<'_> {
    pub fn length(&self) -> usize {
        PACKAGE_HEADER_BYTES + self.data.len()
    }

    pub fn padded(&self) -> usize {
        up_to_four(self.length())
    }
}

/// The message record.
#[derive(Clone, Debug, PartialEq, Eq)]
pub struct Message<'a> {
    /// Flag bits 6, 3, 2, 1 and 0; all others are zero here.
    pub flags: u8,
    pub message_id: u32,
    pub sequence: u32,
    pub seconds: u32,
    pub nanoseconds: u32,
    pub option_run: &'a [u8],
    pub packages: Vec<Package<'a>>,
}

impl Message<'_> {
    pub fn simulated(&self) -> bool {
        self.flags & SIMULATED_FLAG != 0
    }
}

/// A message record and where it was found.
#[derive(Clone, Debug)]
pub struct Placed<'a> {
    pub message: Message<'a>,
    pub payload_place: usize,
    pub end: usize,
}

pub fn up_to_four(length: usize) -> usize {
    length.div_ceil(4) * 4
}

/// Package time in nanoseconds; the greatest is far below 2^64.
pub fn package_time(seconds: u32, nanoseconds: u32, delta: u32) -> u64 {
    u64::from(seconds) * 1_000_000_000 + u64::from(nanoseconds) + u64::from(delta)
}

pub fn number_at(bytes: &[u8], at: usize) -> u32 {
    u32::from_be_bytes([bytes[at], bytes[at + 1], bytes[at + 2], bytes[at + 3]])
}

/// Reads the header of the message at the start of the input: 12, then 1 to 7.
pub fn read_header(input: &[u8]) -> Result<Header<'_>, Refusal> {
    ask_not_large(input.len())?;
    header_at(input, 0)
}

/// Checks 1 to 7 for the message at this place.
pub fn header_at(input: &[u8], place: usize) -> Result<Header<'_>, Refusal> {
    let left = &input[place..];
    ask(left.len() >= HEADER_BYTES, SHORT, place)?;
    ask(left[0] >> 4 == 1, VERSION, place)?;
    ask(left[1] & 15 == 0, TYPE, place)?;
    let option_words = usize::from(left[0] & 15);
    let payload = HEADER_BYTES + 4 * option_words;
    let length = number_at(left, 12) as usize;
    ask(length >= payload && length.is_multiple_of(4), LENGTH, place)?;
    ask(length <= left.len(), CUT, place)?;
    let nanoseconds = number_at(left, 20);
    ask(nanoseconds <= MOST_NANOSECONDS, TIME, place)?;
    let options = &left[HEADER_BYTES..payload];
    let run_length = match options_end(options) {
        Ok(end) => end,
        Err(bad) => return refuse(OPTION, place + HEADER_BYTES + bad),
    };
    Ok(Header {
        option_words,
        flags: left[3],
        message_id: number_at(left, 4),
        sequence: number_at(left, 8),
        length,
        seconds: number_at(left, 16),
        nanoseconds,
        option_run: &options[..run_length],
    })
}

/// Where the options end: at the first option of kind 0x00, or behind them
/// all. The error is the place of the first option against the rules.
pub fn options_end(options: &[u8]) -> Result<usize, usize> {
    let (mut offset, mut count) = (false, false);
    let mut at = 0;
    while at < options.len() {
        let kind = options[at];
        if kind == 0x00 {
            return Ok(at);
        }
        let length = option_length(kind, &options[at + 1..]).ok_or(at)?;
        let again = match kind {
            OFFSET_KIND => replace(&mut offset, true),
            COUNT_KIND => replace(&mut count, true),
            _ => false,
        };
        if again {
            return Err(at);
        }
        at += length;
    }
    Ok(at)
}

/// Where the first option of this kind stands in a good option run, if it is there.
pub fn option_place(run: &[u8], kind: u8) -> Option<usize> {
    let mut at = 0;
    while at < run.len() {
        if run[at] == kind {
            return Some(at);
        }
        at += option_length(run[at], &run[at + 1..])?;
    }
    None
}

/// Where the package count stands in a good option run, if it is there.
pub fn count_place(run: &[u8]) -> Option<usize> {
    option_place(run, COUNT_KIND)
}

/// Does the package count, where a good option run has one, equal the packages?
pub fn counts(run: &[u8], packages: usize) -> bool {
    count_place(run).is_none_or(|at| number_at(run, at + 2) as usize == packages)
}

/// The length of the option of this kind, if it keeps the rules; `rest` are
/// the option bytes behind the kind.
pub fn option_length(kind: u8, rest: &[u8]) -> Option<usize> {
    if kind < 0x80 {
        return Some(1);
    }
    let length = usize::from(*rest.first()?);
    let allowed = match kind {
        0x82..=0x84 => (3..=32).contains(&length),
        0x85 => length == 6 || length == 18,
        0x86 | 0x87 => length == 6,
        _ => (2..=60).contains(&length),
    };
    (allowed && length <= 1 + rest.len()).then_some(length)
}

/// One step of a package walk: a package, or nothing at the run's end.
pub fn package_step(run: &[u8], at: usize) -> Result<Option<Package<'_>>, Refusal> {
    ask_not_large(run.len())?;
    if at >= run.len() {
        return Ok(None);
    }
    match package_at(&run[at..]) {
        Some(package) => Ok(Some(package)),
        None => refuse(PACKAGE, at),
    }
}

/// The package at the start of these bytes, if it keeps the rules.
fn package_at(left: &[u8]) -> Option<Package<'_>> {
    if left.len() < PACKAGE_HEADER_BYTES {
        return None;
    }
    let length = usize::from(u16::from_be_bytes([left[4], left[5]]));
    if length < PACKAGE_HEADER_BYTES || up_to_four(length) > left.len() {
        return None;
    }
    Some(Package {
        id: number_at(left, 0),
        status: left[7],
        delta: number_at(left, 8),
        data: &left[PACKAGE_HEADER_BYTES..length],
    })
}

/// Visits each package of a run, and counts them; the error is the place of the first bad
/// one.
fn each_package<'a>(run: &'a [u8], mut visit: impl FnMut(Package<'a>)) -> Result<usize, usize> {
    let (mut packages, mut at) = (0, 0);
    while at < run.len() {
        let package = package_at(&run[at..]).ok_or(at)?;
        at += package.padded();
        packages += 1;
        visit(package);
    }
    Ok(packages)
}

/// All packages of a run; the error is the place of the first bad one.
pub fn packages_of(run: &[u8]) -> Result<Vec<Package<'_>>, usize> {
    let mut packages = Vec::new();
    each_package(run, |package| packages.push(package))?;
    Ok(packages)
}

/// Checks 1 to 10 and COUNT for the message at this place, and visits its packages. Gives
/// its header and how many packages it has.
fn visited_at<'a>(
    input: &'a [u8],
    place: usize,
    visit: impl FnMut(Package<'a>),
) -> Result<(Header<'a>, usize), Refusal> {
    let header = header_at(input, place)?;
    let payload_place = place + header.front();
    let payload = &input[payload_place..place + header.length];
    ask(header.flags & FRAGMENT_FLAGS == 0, FRAGMENT, place)?;
    let standard = header.flags & STANDARD_FLAG != 0;
    ask(standard != payload.is_empty(), STANDARD, place)?;
    let packages = match each_package(payload, visit) {
        Ok(packages) => packages,
        Err(bad) => return refuse(PACKAGE, payload_place + bad),
    };
    ask(counts(header.option_run, packages), COUNT, place)?;
    Ok((header, packages))
}

/// What is told of a message that is checked and not taken apart.
#[derive(Clone, Copy, Debug)]
pub struct Passed {
    pub end: usize,
    pub packages: usize,
}

/// The same checks alone; the packages are not listed.
pub fn passed_at(input: &[u8], place: usize) -> Result<Passed, Refusal> {
    let (header, packages) = visited_at(input, place, |_| {})?;
    Ok(Passed { end: place + header.length, packages })
}

/// The record of the message at this place, with the same checks.
pub fn message_at(input: &[u8], place: usize) -> Result<Placed<'_>, Refusal> {
    let mut packages = Vec::new();
    let (header, _) = visited_at(input, place, |package| packages.push(package))?;
    let message = Message {
        flags: header.flags & RECORD_FLAGS,
        message_id: header.message_id,
        sequence: header.sequence,
        seconds: header.seconds,
        nanoseconds: header.nanoseconds,
        option_run: header.option_run,
        packages,
    };
    Ok(Placed { message, payload_place: place + header.front(), end: place + header.length })
}

/// Reads a whole recording: LARGE, then 1 to 10 and COUNT for the first bad message.
pub fn read_recording(recording: &[u8]) -> Result<Vec<Placed<'_>>, Refusal> {
    ask_not_large(recording.len())?;
    let mut messages = Vec::new();
    let mut place = 0;
    while place < recording.len() {
        let placed = message_at(recording, place)?;
        place = placed.end;
        messages.push(placed);
    }
    Ok(messages)
}

/// Checks a recording, as reading does, and reports its messages and packages.
pub fn check(recording: &[u8]) -> Result<(usize, usize), Refusal> {
    ask_not_large(recording.len())?;
    let (mut messages, mut packages, mut place) = (0, 0, 0);
    while place < recording.len() {
        let passed = passed_at(recording, place)?;
        messages += 1;
        packages += passed.packages;
        place = passed.end;
    }
    Ok((messages, packages))
}
