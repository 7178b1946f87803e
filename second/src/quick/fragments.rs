//! Fragments: what is cut goes straight to its place, and what is joined is gathered in
//! one walk.

use super::parse::{front_at, header_at, padded, Front};
use super::render::{clean_header, clean_length, clean_packages, header_bytes, put, put_clean};
use crate::fragments::{offset_option, Cut, FIRST, LAST, MIDDLE, OFFSET_BYTES};
use crate::parse::*;
use crate::refusal::*;
use crate::render::MOST_OPTION_BYTES;

/// The option bytes of a fragment that has its offset alone.
const OWN_OPTION_BYTES: usize = 8;

/// Cuts the first message of the input: LARGE, the message checks, LENGTH for
/// a bad size, OPTION at an offset or where there is no place for one, ROOM.
pub fn cut(input: &[u8], size: usize, buffer: &mut [u8]) -> Result<Cut, Refusal> {
    ask_not_large(input.len())?;
    let front = front_at(input, 0)?;
    let mut clean = Vec::with_capacity(clean_length(&front));
    put_clean(&front, 0, &mut clean)?;
    ask(size >= 4 && size.is_multiple_of(4), LENGTH, 0)?;
    if let Some(at) = front.options.offset {
        return refuse(OPTION, HEADER_BYTES + at);
    }
    if front.payload.len() <= size {
        return Ok(Cut { bytes: put(&clean, buffer)?, fragments: 1 });
    }
    let option_bytes = front.options.run.len() + OFFSET_BYTES;
    ask(option_bytes <= MOST_OPTION_BYTES, OPTION, HEADER_BYTES)?;
    let fragments = front.payload.len().div_ceil(size);
    let fronts = fragments * (HEADER_BYTES + OWN_OPTION_BYTES);
    let bytes = fronts + padded(option_bytes) - OWN_OPTION_BYTES + front.payload.len();
    ask(bytes <= buffer.len(), ROOM, bytes)?;
    let payload = &clean[clean.len() - front.payload.len()..];
    write_fragments(&front, payload, size, &mut buffer[..bytes]);
    Ok(Cut { bytes, fragments })
}

/// Writes the fragments of a message whose clean payload this is; they fill the buffer.
fn write_fragments(front: &Front, payload: &[u8], size: usize, buffer: &mut [u8]) {
    let fragments = payload.len().div_ceil(size);
    let mut left = buffer;
    for (index, part) in payload.chunks(size).enumerate() {
        let (place, run) = match index {
            0 => (FIRST, front.options.run),
            _ if index + 1 == fragments => (LAST, &[][..]),
            _ => (MIDDLE, &[][..]),
        };
        let option_bytes = padded(run.len() + OFFSET_BYTES);
        let length = HEADER_BYTES + option_bytes + part.len();
        // Bit 7 is set, for there is a payload.
        let flags = STANDARD_FLAG | front.flags & RECORD_FLAGS | place;
        let sequence = front.sequence.wrapping_add(index as u32);
        let header = header_bytes(&Front { flags, sequence, ..*front }, option_bytes, length);
        let (fragment, behind) = left.split_at_mut(length);
        fragment[..HEADER_BYTES].copy_from_slice(&header);
        let (options, to) = fragment[HEADER_BYTES..].split_at_mut(option_bytes);
        let (own, offset) = options.split_at_mut(run.len());
        own.copy_from_slice(run);
        offset[..OFFSET_BYTES].copy_from_slice(&offset_option(index * size));
        offset[OFFSET_BYTES..].fill(0);
        to.copy_from_slice(part);
        left = behind;
    }
}

fn part(front: &Front) -> u8 {
    front.flags & FRAGMENT_FLAGS
}

/// Does this fragment tell the offset at which so many bytes of payload end?
fn stands_at(front: &Front, done: usize) -> bool {
    let offset = front.options.offset.map(|at| number_at(front.options.run, at + 2) as usize);
    offset == Some(done)
}

/// Is this the fragment behind the last one, by all but its offset?
fn follows(front: &Front, last: &Front) -> bool {
    (part(front) == MIDDLE || part(front) == LAST)
        && (part(last) == FIRST || part(last) == MIDDLE)
        && front.sequence == last.sequence.wrapping_add(1)
        && front.message_id == last.message_id
        && front.seconds == last.seconds
        && front.nanoseconds == last.nanoseconds
        && front.flags & !FRAGMENT_FLAGS == last.flags & !FRAGMENT_FLAGS
}

/// Puts the payloads of one whole message, or of all fragments of one, behind the bytes of
/// `out`: GAP for the first one, then 1 to 7 and GAP, fragment by fragment.
fn put_payloads(input: &[u8], first: &Front, out: &mut Vec<u8>) -> Result<(), Refusal> {
    let whole = part(first) == 0;
    ask(whole || part(first) == FIRST && stands_at(first, 0), GAP, 0)?;
    let start = out.len();
    out.extend_from_slice(first.payload);
    let mut last = *first;
    while last.end < input.len() {
        let next = header_at(input, last.end)?;
        ask(follows(&next, &last) && stands_at(&next, out.len() - start), GAP, last.end)?;
        out.extend_from_slice(next.payload);
        last = next;
    }
    ask(whole || part(&last) == LAST, GAP, last.end)
}

/// The options of the message that begins with this front, as they stand before and behind
/// a fragment's offset.
fn own_options<'a>(first: &Front<'a>) -> (&'a [u8], &'a [u8]) {
    let run = first.options.run;
    match first.options.offset {
        Some(at) if part(first) != 0 => (&run[..at], &run[at + OFFSET_BYTES..]),
        _ => (run, &[]),
    }
}

/// Joins fragments into the clean form, or cleans one whole message: LARGE, 1
/// to 7 and GAP, then 9 and on at place 0, ROOM.
pub fn join(input: &[u8], buffer: &mut [u8]) -> Result<usize, Refusal> {
    ask_not_large(input.len())?;
    ask(!input.is_empty(), GAP, 0)?;
    let first = header_at(input, 0)?;
    let mut out = Vec::with_capacity(input.len());
    out.extend_from_slice(&[0; HEADER_BYTES]);
    let (before, behind) = own_options(&first);
    out.extend_from_slice(before);
    out.extend_from_slice(behind);
    out.resize(padded(out.len()), 0);
    let start = out.len();
    put_payloads(input, &first, &mut out)?;
    ask((first.flags & STANDARD_FLAG != 0) != (out.len() == start), STANDARD, 0)?;
    let Ok(packages) = clean_packages(&mut out[start..]) else {
        return refuse(PACKAGE, 0);
    };
    ask(first.options.counts(packages), COUNT, 0)?;
    let header = clean_header(&first, start - HEADER_BYTES, out.len());
    out[..HEADER_BYTES].copy_from_slice(&header);
    put(&out, buffer)
}
