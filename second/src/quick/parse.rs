//! Every check of a message where it lies; its packages are counted and not listed.

use crate::parse::*;
use crate::refusal::*;

/// What stands in front of a payload, and where the payload lies.
#[derive(Clone, Copy, Debug)]
pub struct Front<'a> {
    /// Flag bits 7 to 0.
    pub flags: u8,
    pub message_id: u32,
    pub sequence: u32,
    pub seconds: u32,
    pub nanoseconds: u32,
    pub options: Options<'a>,
    pub payload: &'a [u8],
    pub payload_place: usize,
    pub end: usize,
}

impl Front<'_> {
    /// Is the message marked as simulated?
    #[inline]
    pub fn simulated(&self) -> bool {
        self.flags & SIMULATED_FLAG != 0
    }
}

/// A good option run, and where its offset and its package count stand.
#[derive(Clone, Copy, Debug, Default)]
pub struct Options<'a> {
    pub run: &'a [u8],
    pub offset: Option<usize>,
    pub count: Option<usize>,
}

impl<'a> Options<'a> {
    /// The options in these bytes. The error is the place of the first bad one.
    pub fn read(bytes: &'a [u8]) -> Result<Options<'a>, usize> {
        let mut options = Options::default();
        let mut at = 0;
        while at < bytes.len() && bytes[at] != 0x00 {
            let kind = bytes[at];
            let length = option_length(kind, &bytes[at + 1..]).ok_or(at)?;
            let earlier = match kind {
                OFFSET_KIND => options.offset.replace(at),
                COUNT_KIND => options.count.replace(at),
                _ => None,
            };
            if earlier.is_some() {
                return Err(at);
            }
            at += length;
        }
        options.run = &bytes[..at];
        Ok(options)
    }

    /// Does the package count, where there is one, equal the packages?
    #[inline]
    pub fn counts(&self, packages: usize) -> bool {
        self.count.is_none_or(|at| number_at(self.run, at + 2) as usize == packages)
    }
}

/// A message that passes every check, and how many packages it has.
#[derive(Clone, Copy, Debug)]
pub struct Passed<'a> {
    pub front: Front<'a>,
    pub packages: usize,
}

/// The length of a package with its padding.
#[inline(always)]
pub fn padded(length: usize) -> usize {
    (length + 3) & !3
}

/// Checks 1 to 7 for the message or fragment at this place.
#[inline(always)]
pub fn header_at(input: &[u8], place: usize) -> Result<Front<'_>, Refusal> {
    let left = &input[place..];
    let Some(header) = left.first_chunk::<HEADER_BYTES>() else {
        return refuse(SHORT, place);
    };
    ask(header[0] >> 4 == 1, VERSION, place)?;
    ask(header[1] & 15 == 0, TYPE, place)?;
    let payload = HEADER_BYTES + 4 * usize::from(header[0] & 15);
    let length = number_at(header, 12) as usize;
    ask(length >= payload && length.is_multiple_of(4), LENGTH, place)?;
    ask(length <= left.len(), CUT, place)?;
    let nanoseconds = number_at(header, 20);
    ask(nanoseconds <= MOST_NANOSECONDS, TIME, place)?;
    let mut options = Options::default();
    if payload > HEADER_BYTES {
        options = match Options::read(&left[HEADER_BYTES..payload]) {
            Ok(options) => options,
            Err(bad) => return refuse(OPTION, place + HEADER_BYTES + bad),
        };
    }
    Ok(Front {
        flags: header[3],
        message_id: number_at(header, 4),
        sequence: number_at(header, 8),
        seconds: number_at(header, 16),
        nanoseconds,
        options,
        payload: &left[payload..length],
        payload_place: place + payload,
        end: place + length,
    })
}

/// Checks 1 to 9 for the message at this place.
#[inline(always)]
pub fn front_at(input: &[u8], place: usize) -> Result<Front<'_>, Refusal> {
    let front = header_at(input, place)?;
    ask(front.flags & FRAGMENT_FLAGS == 0, FRAGMENT, place)?;
    ask((front.flags & STANDARD_FLAG != 0) != front.payload.is_empty(), STANDARD, place)?;
    Ok(front)
}

/// The length and the padded length of the package at the start of these bytes, if it
/// keeps the rules.
#[inline(always)]
pub fn package_lengths(left: &[u8]) -> Option<(usize, usize)> {
    let header = left.first_chunk::<PACKAGE_HEADER_BYTES>()?;
    let length = usize::from(u16::from_be_bytes([header[4], header[5]]));
    let padded = padded(length);
    (length >= PACKAGE_HEADER_BYTES && padded <= left.len()).then_some((length, padded))
}

/// How many packages a run has; the error is the place of the first bad one.
#[inline(always)]
pub fn count_packages(run: &[u8]) -> Result<usize, usize> {
    let (mut left, mut packages) = (run, 0);
    while !left.is_empty() {
        let Some((_, padded)) = package_lengths(left) else {
            return Err(run.len() - left.len());
        };
        left = &left[padded..];
        packages += 1;
    }
    Ok(packages)
}

/// Checks 1 to 10 and COUNT for the message at this place.
#[inline(always)]
pub fn passed_at(input: &[u8], place: usize) -> Result<Passed<'_>, Refusal> {
    let front = front_at(input, place)?;
    let packages = match count_packages(front.payload) {
        Ok(packages) => packages,
        Err(bad) => return refuse(PACKAGE, front.payload_place + bad),
    };
    ask(front.options.counts(packages), COUNT, place)?;
    Ok(Passed { front, packages })
}

/// Checks a recording and reports its messages and packages.
pub fn check(recording: &[u8]) -> Result<(usize, usize), Refusal> {
    ask_not_large(recording.len())?;
    let (mut messages, mut packages, mut place) = (0, 0, 0);
    while place < recording.len() {
        let passed = passed_at(recording, place)?;
        messages += 1;
        packages += passed.packages;
        place = passed.front.end;
    }
    Ok((messages, packages))
}
