//! Fragments: a message's clean form is cut, and fragments are joined.

use crate::parse::*;
use crate::refusal::*;
use crate::render::{render_if_room, rendered, MOST_OPTION_BYTES};

// Flag bits 5-4 of fragments.
pub const FIRST: u8 = 0b0001_0000;
pub const MIDDLE: u8 = 0b0010_0000;
pub const LAST: u8 = 0b0011_0000;

/// An offset takes so many option bytes.
pub const OFFSET_BYTES: usize = 6;

/// What cutting reports; a message that is not cut is one fragment.
#[derive(Clone, Copy, Debug, PartialEq, Eq)]
pub struct Cut {
    pub bytes: usize,
    pub fragments: usize,
}

/// One fragment, or a whole message, with its payload as it stands.
#[derive(Clone, Copy, Debug)]
struct Fragment<'a> {
    /// Flag bits 7 to 0.
    flags: u8,
    message_id: u32,
    sequence: u32,
    seconds: u32,
    nanoseconds: u32,
    option_run: &'a [u8],
    payload: &'a [u8],
}

impl Fragment<'_> {
    /// The fragment's bytes, with the fewest option words.
    fn lay(&self, out: &mut Vec<u8>) {
        let option_bytes = up_to_four(self.option_run.len());
        let length = HEADER_BYTES + option_bytes + self.payload.len();
        out.extend([0x10 | (option_bytes / 4) as u8, 0, 0, self.flags]);
        let numbers =
            [self.message_id, self.sequence, length as u32, self.seconds, self.nanoseconds];
        for number in numbers {
            out.extend(number.to_be_bytes());
        }
        out.extend(self.option_run);
        out.extend(&[0; 3][..option_bytes - self.option_run.len()]);
        out.extend(self.payload);
    }

    fn part(&self) -> u8 {
        self.flags & FRAGMENT_FLAGS
    }

    /// What all fragments of one message have in common: id, time and flags
    /// without bits 5-4.
    fn common(&self) -> (u32, u32, u32, u8) {
        (self.message_id, self.seconds, self.nanoseconds, self.flags & !FRAGMENT_FLAGS)
    }

    /// Does the fragment say that so many bytes of payload stand before it?
    fn is_behind(&self, bytes: usize) -> bool {
        let place = option_place(self.option_run, OFFSET_KIND);
        place.is_some_and(|at| number_at(self.option_run, at + 2) as usize == bytes)
    }

    /// May the input begin with this one? A whole message may.
    fn begins(&self) -> bool {
        self.part() == 0 || self.part() == FIRST && self.is_behind(0)
    }

    /// Does it go on where the last one ends, with so many bytes of payload before it?
    fn follows(&self, last: &Fragment, bytes: usize) -> bool {
        (self.part() == MIDDLE || self.part() == LAST)
            && (last.part() == FIRST || last.part() == MIDDLE)
            && self.sequence == last.sequence.wrapping_add(1)
            && self.common() == last.common()
            && self.is_behind(bytes)
    }
}

/// The option that tells a fragment's offset.
pub fn offset_option(offset: usize) -> [u8; OFFSET_BYTES] {
    let [a, b, c, d] = (offset as u32).to_be_bytes();
    [OFFSET_KIND, OFFSET_BYTES as u8, a, b, c, d]
}

/// A good option run without its offset, of which it has at most one.
pub fn without_offset(run: &[u8]) -> Vec<u8> {
    match option_place(run, OFFSET_KIND) {
        Some(at) => [&run[..at], &run[at + OFFSET_BYTES..]].concat(),
        None => run.to_vec(),
    }
}

/// Puts the bytes to the start of the buffer, if it has room.
fn put(bytes: &[u8], buffer: &mut [u8]) -> Result<usize, Refusal> {
    ask(bytes.len() <= buffer.len(), ROOM, bytes.len())?;
    buffer[..bytes.len()].copy_from_slice(bytes);
    Ok(bytes.len())
}

/// Cuts the first message of the input: LARGE, the message checks, LENGTH for
/// a bad size, OPTION at an offset or where there is no place for one, ROOM.
pub fn cut(input: &[u8], size: usize, buffer: &mut [u8]) -> Result<Cut, Refusal> {
    ask_not_large(input.len())?;
    let message = message_at(input, 0)?.message;
    ask(size >= 4 && size.is_multiple_of(4), LENGTH, 0)?;
    if let Some(at) = option_place(message.option_run, OFFSET_KIND) {
        return refuse(OPTION, HEADER_BYTES + at);
    }
    let clean = rendered(&message);
    let payload = &clean[HEADER_BYTES + up_to_four(message.option_run.len())..];
    if payload.len() <= size {
        return Ok(Cut { bytes: put(&clean, buffer)?, fragments: 1 });
    }
    let fits = message.option_run.len() + OFFSET_BYTES <= MOST_OPTION_BYTES;
    ask(fits, OPTION, HEADER_BYTES)?;
    let bytes = fragments_of(&message, payload, size);
    Ok(Cut { bytes: put(&bytes, buffer)?, fragments: payload.len().div_ceil(size) })
}

/// The fragments of a message whose clean payload, which this is, does not fit.
fn fragments_of(message: &Message, payload: &[u8], size: usize) -> Vec<u8> {
    let count = payload.len().div_ceil(size);
    let mut bytes = Vec::new();
    for (index, part) in payload.chunks(size).enumerate() {
        let (place, options) = match index {
            0 => (FIRST, message.option_run),
            _ if index + 1 == count => (LAST, &[][..]),
            _ => (MIDDLE, &[][..]),
        };
        let fragment = Fragment {
            // Bit 7 is set, for there is a payload.
            flags: STANDARD_FLAG | message.flags | place,
            message_id: message.message_id,
            sequence: message.sequence.wrapping_add(index as u32),
            seconds: message.seconds,
            nanoseconds: message.nanoseconds,
            option_run: &[options, &offset_option(index * size)].concat(),
            payload: part,
        };
        fragment.lay(&mut bytes);
    }
    bytes
}

/// Checks 1 to 7 for the fragment at this place, and where it ends.
fn fragment_at(input: &[u8], place: usize) -> Result<(Fragment<'_>, usize), Refusal> {
    let header = header_at(input, place)?;
    let end = place + header.length;
    let fragment = Fragment {
        flags: header.flags,
        message_id: header.message_id,
        sequence: header.sequence,
        seconds: header.seconds,
        nanoseconds: header.nanoseconds,
        option_run: header.option_run,
        payload: &input[place + header.front()..end],
    };
    Ok((fragment, end))
}

/// Reads the input as one whole message or as all fragments of one: 1 to 7 and
/// then GAP, fragment by fragment. What comes back is the first, and the whole payload.
fn gather(input: &[u8]) -> Result<(Fragment<'_>, Vec<u8>), Refusal> {
    ask(!input.is_empty(), GAP, 0)?;
    let (first, mut place) = fragment_at(input, 0)?;
    ask(first.begins(), GAP, 0)?;
    let mut payload = first.payload.to_vec();
    let mut last = first;
    while place < input.len() {
        let (fragment, end) = fragment_at(input, place)?;
        ask(fragment.follows(&last, payload.len()), GAP, place)?;
        payload.extend(fragment.payload);
        last = fragment;
        place = end;
    }
    ask(last.part() == 0 || last.part() == LAST, GAP, place)?;
    Ok((first, payload))
}

/// Joins fragments into the clean form, or cleans one whole message: LARGE, 1
/// to 7 and GAP, then 9 and on at place 0, ROOM.
pub fn join(input: &[u8], buffer: &mut [u8]) -> Result<usize, Refusal> {
    ask_not_large(input.len())?;
    let (first, payload) = gather(input)?;
    let option_run = match first.part() {
        0 => first.option_run.to_vec(),
        _ => without_offset(first.option_run),
    };
    let standard = first.flags & STANDARD_FLAG != 0;
    ask(standard != payload.is_empty(), STANDARD, 0)?;
    let Ok(packages) = packages_of(&payload) else {
        return refuse(PACKAGE, 0);
    };
    ask(counts(&option_run, packages.len()), COUNT, 0)?;
    let message = Message {
        flags: first.flags & RECORD_FLAGS,
        message_id: first.message_id,
        sequence: first.sequence,
        seconds: first.seconds,
        nanoseconds: first.nanoseconds,
        option_run: &option_run,
        packages,
    };
    render_if_room(&message, buffer)
}
