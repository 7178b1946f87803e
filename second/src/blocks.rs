//! Recordings with bad blocks: what a recorder leaves that lost a part.

use crate::damage::{change_blindly, with_faults, FAULTS};
use crate::dice::Dice;
use crate::generate::*;
use crate::parse::message_at;
use crate::salvage::{Stretch, SKIPPED_BYTES};

/// A bad block has at most so many bytes.
pub const LONGEST_BLOCK: usize = 300;

/// Where a bad block lies.
pub const BLOCK_PLACES: [BlockPlace; 7] = [
    BlockPlace::Start,
    BlockPlace::End,
    BlockPlace::MessageStart,
    BlockPlace::MessageEnd,
    BlockPlace::InsideMessage,
    BlockPlace::WholeMessages,
    BlockPlace::Anywhere,
];

#[derive(Clone, Copy, Debug, PartialEq, Eq)]
pub enum BlockPlace {
    /// From the recording's first byte on.
    Start,
    /// Up to the recording's last byte.
    End,
    /// From a message's first byte on.
    MessageStart,
    /// Up to a message's last byte.
    MessageEnd,
    /// From inside a message on, to its end at most.
    InsideMessage,
    /// Some messages, from first to last byte.
    WholeMessages,
    Anywhere,
}

/// What a bad block reads as.
#[derive(Clone, Copy, Debug, PartialEq, Eq)]
pub enum Fill {
    Zeros,
    Ones,
    Junk,
}

pub const FILLS: [Fill; 3] = [Fill::Zeros, Fill::Ones, Fill::Junk];

/// A recording that passes, and the same with a bad block in it.
#[derive(Clone, Debug)]
pub struct BadBlock {
    pub good: Vec<u8>,
    pub bad: Vec<u8>,
    /// Each message.
    pub messages: Vec<Stretch>,
    /// The messages that the block touches, from the first byte to the last.
    pub touched: Stretch,
}

impl BadBlock {
    /// A block of so many bytes, one or more, or of those that are there, at such a
    /// place.
    pub fn new(dice: &mut Dice, place: BlockPlace, fill: Fill, length: usize) -> BadBlock {
        let messages = some_messages(dice);
        let (good, places) = lay_all(&messages);
        let ends = places[1..].iter().copied().chain([good.len()]);
        let stretch = |(start, end): (usize, usize)| Stretch { start, length: end - start };
        let messages: Vec<Stretch> = places.iter().copied().zip(ends).map(stretch).collect();
        let one = dice.pick(&messages);
        let length = length.min(good.len());
        let most = good.len() - length;
        let (start, end) = match place {
            BlockPlace::Start => (0, length),
            BlockPlace::End => (most, good.len()),
            BlockPlace::MessageStart => (one.start, one.start + length),
            BlockPlace::MessageEnd => (one.end().saturating_sub(length), one.end()),
            BlockPlace::InsideMessage => {
                let start = one.start + dice.below(one.length);
                (start, (start + length).min(one.end()))
            }
            BlockPlace::WholeMessages => (one.start, dice.pick(&messages).end().max(one.end())),
            BlockPlace::Anywhere => {
                let start = dice.below(most + 1);
                (start, start + length)
            }
        };
        let end = end.min(good.len());
        let mut bad = good.clone();
        match fill {
            Fill::Zeros => bad[start..end].fill(0),
            Fill::Ones => bad[start..end].fill(0xFF),
            Fill::Junk => bad[start..end].copy_from_slice(&dice.bytes(end - start)),
        }
        let touches = |one: &&Stretch| one.start < end && start < one.end();
        let of_block: Vec<&Stretch> = messages.iter().filter(touches).collect();
        let (first, last) = (of_block[0].start, of_block[of_block.len() - 1].end());
        BadBlock { touched: Stretch { start: first, length: last - first }, good, bad, messages }
    }

    /// The messages that the block does not touch, one behind the other.
    pub fn untouched(&self) -> Vec<u8> {
        let touched = self.touched;
        [&self.good[..touched.start], &self.good[touched.end()..]].concat()
    }

    /// Does nothing pass where the touched messages were? Else a message could be
    /// kept that was none before.
    pub fn nothing_passes(&self) -> bool {
        let mut places = (self.touched.start..self.touched.end()).step_by(SKIPPED_BYTES);
        places.all(|at| message_at(&self.bad, at).is_err())
    }
}

/// From two to twelve messages.
fn some_messages(dice: &mut Dice) -> Vec<DirtyMessage> {
    let world = World::new(dice);
    let mut some = Vec::new();
    for _ in 0..dice.within(2, 12) {
        let packages = package_count(dice);
        some.push(message(dice, &world, packages));
    }
    some
}

/// A recording in which some blocks were lost, overwritten or put in.
pub fn bad_blocks(dice: &mut Dice) -> Vec<u8> {
    let world = World::new(dice);
    let (mut bytes, places) = lay_all(&messages(dice, &world));
    for _ in 0..dice.within(1, 6) {
        let at = dice.below(bytes.len() + 1);
        let near = if places.is_empty() { at } else { dice.pick(&places).min(bytes.len()) };
        let at = dice.pick(&[at, at / 4 * 4, near]);
        let spread = dice.within(1, 300);
        let length = dice.pick(&[1, 2, 3, 4, 8, 12, 24, 40, spread]);
        match dice.below(4) {
            // Bytes that are zero, or all ones, or anything.
            0 => {
                let fill = dice.pick(&[0x00, 0xFF, 0x10]);
                let end = (at + length).min(bytes.len());
                bytes[at..end].fill(fill);
            }
            1 => {
                let junk = dice.bytes(length);
                bytes.splice(at..at, junk);
            }
            2 => {
                let end = (at + length).min(bytes.len());
                bytes.drain(at..end);
            }
            _ => change_blindly(dice, &mut bytes),
        }
    }
    bytes
}

/// Small messages parted by so many stretches that do not pass.
pub fn with_holes(dice: &mut Dice, holes: usize) -> Vec<u8> {
    let world = World::new(dice);
    let mut bytes = Vec::new();
    let first = dice.chance(1, 2);
    for number in 0..holes {
        if number > 0 || first {
            let packages = dice.below(2);
            message(dice, &world, packages).lay(&mut bytes);
        }
        let words = dice.within(1, 3);
        bytes.extend(vec![dice.pick(&[0x00, 0xFF]); 4 * words]);
    }
    if dice.chance(1, 2) {
        message(dice, &world, 1).lay(&mut bytes);
    }
    bytes
}

/// A message, broken in its first bytes or not, that holds whole messages in
/// its data: they are kept if it is not.
pub fn nested(dice: &mut Dice) -> Vec<u8> {
    let world = World::new(dice);
    let mut outer = message(dice, &world, 2);
    for package in &mut outer.packages {
        package.data.clear();
        for _ in 0..dice.within(0, 2) {
            let inner = dice.below(3);
            message(dice, &world, inner).lay(&mut package.data);
            let pieces = dice.pick(&[0, 0, 0, 1, 2, 4]);
            package.data.extend(dice.bytes(pieces));
        }
    }
    let mut bytes = if dice.chance(2, 3) {
        let fault = dice.pick(&FAULTS);
        with_faults(dice, &mut [outer], &[(0, fault)])
    } else {
        outer.laid()
    };
    if dice.chance(1, 3) {
        let packages = package_count(dice);
        message(dice, &world, packages).lay(&mut bytes);
    }
    bytes
}

/// An input of `4 * words` bytes in which no message passes, but a third of all offsets
/// has a header that does, with packages of 12 bytes up to the input's end, the last of
/// them cut. By threes the words are: header or length, length of a package, and header
/// or length again, of a message with one option word.
pub fn slow(words: usize) -> Vec<u8> {
    const PACKAGE_WORD: u32 = 12 << 16;
    let mut bytes = Vec::with_capacity(4 * words);
    for at in 0..words {
        let word = match at % 6 {
            1 | 4 => PACKAGE_WORD,
            0 => 0x1000_0080,
            5 => 0x1100_0080,
            // The length of the message that began three words before.
            residue => {
                let start = at.saturating_sub(3);
                let payload = start + if residue == 3 { 6 } else { 7 };
                let run = words.saturating_sub(payload + 1) / 3 * 3 + 1;
                4 * (payload + run - start) as u32
            }
        };
        bytes.extend(word.to_be_bytes());
    }
    bytes
}
