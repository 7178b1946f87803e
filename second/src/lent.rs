//! A buffer lent to the library, between margins of junk.
//!
//! The margins show a write beside the buffer, and junk that was read shows in
//! the answer. A twin keeps the bytes as they should be afterwards.

use crate::dice::Dice;
use crate::refusal::MOST_BYTES;
use std::ops::Range;

#[derive(Clone, Debug)]
pub struct Lent {
    bytes: Vec<u8>,
    twin: Vec<u8>,
    part: Range<usize>,
}

impl Lent {
    /// Lends these bytes; their address is seldom a multiple of 8.
    pub fn new(dice: &mut Dice, content: &[u8]) -> Lent {
        let before = dice.within(1, 32);
        let behind = dice.within(1, 32);
        let mut bytes = dice.bytes(before);
        bytes.extend_from_slice(content);
        bytes.extend(dice.bytes(behind));
        Lent { twin: bytes.clone(), bytes, part: before..before + content.len() }
    }

    /// Lends a buffer of so many junk bytes.
    pub fn buffer(dice: &mut Dice, length: usize) -> Lent {
        let content = dice.bytes(length);
        Lent::new(dice, &content)
    }

    /// The part that the library gets.
    pub fn lend(&mut self) -> &mut [u8] {
        &mut self.bytes[self.part.clone()]
    }

    pub fn content(&self) -> &[u8] {
        &self.bytes[self.part.clone()]
    }

    /// The part as it should be afterwards.
    pub fn expected(&mut self) -> &mut [u8] {
        &mut self.twin[self.part.clone()]
    }

    pub fn as_expected(&self) -> &[u8] {
        &self.twin[self.part.clone()]
    }

    /// The first difference as a place in the buffer, which is negative before
    /// it, with the byte expected and the byte found.
    pub fn first_difference(&self) -> Option<(isize, u8, u8)> {
        if self.bytes == self.twin {
            return None;
        }
        let at = (0..self.bytes.len()).find(|&at| self.bytes[at] != self.twin[at])?;
        Some((at as isize - self.part.start as isize, self.twin[at], self.bytes[at]))
    }
}

/// The length of a buffer for an output of so many bytes: just enough, one
/// byte less, none, or more.
pub fn room_for(dice: &mut Dice, needed: usize) -> usize {
    match dice.below(10) {
        0..=2 => needed,
        3 | 4 => needed.saturating_sub(1),
        5 => 0,
        6 => needed + 1,
        7 => needed + dice.below(200),
        8 => dice.below(needed + 1),
        _ if dice.chance(1, 20) => MOST_BYTES + dice.within(1, 5_000),
        _ => needed + dice.below(8),
    }
}
