//! The writer and the cleaner: a payload is taken over whole, and then checked, counted and
//! cleaned in one walk over bytes of our own, so that a refusal leaves the buffer as it is.

use super::parse::*;
use crate::parse::*;
use crate::refusal::*;
use crate::render::{Draft, MOST_OPTION_BYTES};

/// The header of a message of so many bytes with this front, and so many option bytes.
#[inline(always)]
pub fn header_bytes(front: &Front, option_bytes: usize, length: usize) -> [u8; HEADER_BYTES] {
    let first = 0x10 | (option_bytes / 4) as u32;
    let words = [
        first << 24 | u32::from(front.flags),
        front.message_id,
        front.sequence,
        length as u32,
        front.seconds,
        front.nanoseconds,
    ];
    let mut bytes = [0; HEADER_BYTES];
    for (place, word) in bytes.as_chunks_mut::<4>().0.iter_mut().zip(words) {
        *place = word.to_be_bytes();
    }
    bytes
}

/// The same of a clean form: the flags that do not count are zero.
#[inline(always)]
pub fn clean_header(front: &Front, option_bytes: usize, length: usize) -> [u8; HEADER_BYTES] {
    let flags = front.flags & (STANDARD_FLAG | RECORD_FLAGS);
    header_bytes(&Front { flags, ..*front }, option_bytes, length)
}

/// How many bytes the clean form of this message has.
#[inline(always)]
pub fn clean_length(front: &Front) -> usize {
    HEADER_BYTES + padded(front.options.run.len()) + front.payload.len()
}

/// Puts an option run, filled with zeros to whole words, behind the bytes of `out`.
#[inline(always)]
pub fn put_options(run: &[u8], out: &mut Vec<u8>) {
    if !run.is_empty() {
        out.extend_from_slice(run);
        out.extend_from_slice(&[0; 3][..padded(run.len()) - run.len()]);
    }
}

/// Makes the reserved byte and the padding of a package of this length zero.
#[inline(always)]
pub fn clean_package(package: &mut [u8], length: usize) {
    let padding = package.len() - length;
    package[6] = 0;
    if let Some(last) = package.last_chunk_mut::<4>() {
        *last = (u32::from_be_bytes(*last) & u32::MAX << (8 * padding)).to_be_bytes();
    }
}

/// Cleans the packages of a run and counts them; the error is the place of the first bad
/// one.
#[inline(always)]
pub fn clean_packages(run: &mut [u8]) -> Result<usize, usize> {
    let (mut at, mut packages) = (0, 0);
    while at < run.len() {
        let left = &mut run[at..];
        let (length, padded) = package_lengths(left).ok_or(at)?;
        clean_package(&mut left[..padded], length);
        at += padded;
        packages += 1;
    }
    Ok(packages)
}

/// Makes every check of the message at this place, of which this is the front, and puts its
/// clean form behind the bytes of `out`.
#[inline(always)]
pub fn put_clean(front: &Front, place: usize, out: &mut Vec<u8>) -> Result<(), Refusal> {
    let run = front.options.run;
    out.extend_from_slice(&clean_header(front, padded(run.len()), clean_length(front)));
    put_options(run, out);
    let start = out.len();
    out.extend_from_slice(front.payload);
    match clean_packages(&mut out[start..]) {
        Ok(packages) => ask(front.options.counts(packages), COUNT, place),
        Err(bad) => refuse(PACKAGE, front.payload_place + bad),
    }
}

/// Puts the bytes to the start of the buffer, if it has room.
#[inline]
pub fn put(bytes: &[u8], buffer: &mut [u8]) -> Result<usize, Refusal> {
    ask(bytes.len() <= buffer.len(), ROOM, bytes.len())?;
    buffer[..bytes.len()].copy_from_slice(bytes);
    Ok(bytes.len())
}

/// The writer: LARGE, TIME, OPTION, PACKAGE, COUNT, ROOM.
pub fn write(draft: &Draft, buffer: &mut [u8]) -> Result<usize, Refusal> {
    // Two lengths of slices and the header can not pass 2^128.
    let words = (draft.options.len() as u128).div_ceil(4);
    let length = HEADER_BYTES as u128 + 4 * words + draft.packages.len() as u128;
    ask(length <= MOST_BYTES as u128, LARGE, MOST_BYTES)?;
    ask(draft.nanoseconds <= MOST_NANOSECONDS, TIME, 0)?;
    ask(draft.options.len() <= MOST_OPTION_BYTES, OPTION, MOST_OPTION_BYTES)?;
    let options = match Options::read(draft.options) {
        Ok(options) => options,
        Err(bad) => return refuse(OPTION, bad),
    };
    // An option of kind 0x00 has no place in the writer's run.
    ask(options.run.len() == draft.options.len(), OPTION, options.run.len())?;
    let standard = if draft.packages.is_empty() { 0 } else { STANDARD_FLAG };
    let front = Front {
        flags: standard | draft.flags & RECORD_FLAGS,
        message_id: draft.message_id,
        sequence: draft.sequence,
        seconds: draft.seconds,
        nanoseconds: draft.nanoseconds,
        options,
        payload: draft.packages,
        // The places of the packages are counted from the first.
        payload_place: 0,
        end: draft.packages.len(),
    };
    let mut out = Vec::with_capacity(clean_length(&front));
    put_clean(&front, 0, &mut out)?;
    put(&out, buffer)
}

/// The cleaner: the clean form of the first message of the input.
pub fn clean(input: &[u8], buffer: &mut [u8]) -> Result<usize, Refusal> {
    ask_not_large(input.len())?;
    let front = front_at(input, 0)?;
    let mut out = Vec::with_capacity(clean_length(&front));
    put_clean(&front, 0, &mut out)?;
    put(&out, buffer)
}
