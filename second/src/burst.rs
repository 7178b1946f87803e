//! Bursts: the randomizer sequence, randomizing and opening.

use crate::refusal::*;

pub const PERIOD: usize = 255;
pub const MARKER_BYTES: [u8; 8] = [0x03, 0x47, 0x76, 0xC7, 0x27, 0x28, 0x95, 0xB0];
pub const CODEBLOCK_BYTES: usize = 768;
pub const MOST_CODEBLOCKS: usize = 80;

/// One period of the randomizer's bytes.
pub static SEQUENCE: [u8; PERIOD] = sequence_bytes();

/// The bits of 255 bytes, worked out one by one.
const fn sequence_bits() -> [u8; 8 * PERIOD] {
    let mut bits = [1; 8 * PERIOD];
    let mut n = 8;
    while n < bits.len() {
        bits[n] = bits[n - 8] ^ bits[n - 5] ^ bits[n - 3] ^ bits[n - 1];
        n += 1;
    }
    bits
}

/// The bits in bytes, the first bit highest.
const fn sequence_bytes() -> [u8; PERIOD] {
    let bits = sequence_bits();
    let mut bytes = [0; PERIOD];
    let mut n = 0;
    while n < bits.len() {
        bytes[n / 8] = bytes[n / 8] << 1 | bits[n];
        n += 1;
    }
    bytes
}

/// Exclusive-ors byte k with sequence byte k, period by period.
fn apply_sequence(buffer: &mut [u8]) {
    let (periods, rest) = buffer.as_chunks_mut::<PERIOD>();
    for period in periods {
        apply_period(period);
    }
    apply_period(rest);
}

/// Exclusive-ors these bytes, a period at most, with the sequence's first ones.
#[inline]
fn apply_period(bytes: &mut [u8]) {
    for (byte, sequence) in bytes.iter_mut().zip(&SEQUENCE) {
        *byte ^= sequence;
    }
}

pub fn randomize(buffer: &mut [u8]) -> Result<(), Refusal> {
    ask_not_large(buffer.len())?;
    apply_sequence(buffer);
    Ok(())
}

/// Opens a burst in its buffer and reports the codeblocks: LARGE, MARKER, BLOCKS.
pub fn open_burst(burst: &mut [u8]) -> Result<usize, Refusal> {
    ask_not_large(burst.len())?;
    ask(burst.starts_with(&MARKER_BYTES), MARKER, 0)?;
    let length = burst.len();
    let codeblock_bytes = &mut burst[MARKER_BYTES.len()..];
    let codeblocks = codeblock_bytes.len() / CODEBLOCK_BYTES;
    let whole = codeblock_bytes.len().is_multiple_of(CODEBLOCK_BYTES);
    ask(whole && (1..=MOST_CODEBLOCKS).contains(&codeblocks), BLOCKS, length)?;
    apply_sequence(codeblock_bytes);
    Ok(codeblocks)
}
