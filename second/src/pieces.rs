//! Messages to be cut, and fragments to be joined, good, dirty and damaged.

use crate::damage::change_blindly;
use crate::dice::Dice;
use crate::fragments::{offset_option, without_offset, FIRST, LAST, MIDDLE};
use crate::generate::*;
use crate::paper::{m_with, message_m};
use crate::parse::{number_at, option_place, COUNT_KIND, OFFSET_KIND};

/// The first fragment has room for an offset behind at most so many option bytes.
pub const MOST_ORIGINAL_OPTIONS: usize = 54;

/// A size of payloads, mostly good.
pub fn any_size(dice: &mut Dice) -> usize {
    let words = dice.within(1, 40);
    if dice.chance(1, 8) {
        return dice.pick(&[0, 1, 2, 3, 5, 6, 7, 4 * words + 1, usize::MAX, usize::MAX - 1]);
    }
    dice.pick(&[4, 4, 8, 12, 16, 100, 4 * words, 65_512, 65_536, usize::MAX - 3])
}

/// A good message without an offset.
pub fn message_to_cut(dice: &mut Dice, world: &World) -> DirtyMessage {
    let packages = package_count(dice);
    let mut one = message(dice, world, packages);
    one.options = without_offset(&one.options);
    one.behind_options = behind_options(dice, world, one.options.len());
    if one.options.len() > MOST_ORIGINAL_OPTIONS && dice.chance(2, 3) {
        one.options.clear();
        one.behind_options.clear();
    }
    one
}

/// A good message without an offset that has room for one.
pub fn message_to_split(dice: &mut Dice, world: &World) -> DirtyMessage {
    loop {
        let one = message_to_cut(dice, world);
        if one.options.len() <= MOST_ORIGINAL_OPTIONS {
            return one;
        }
    }
}

/// A fragment with everything in it that does not count.
#[derive(Clone, Debug)]
pub struct DirtyFragment {
    pub reserved_nibble: u8,
    pub reserved_flags: u8,
    /// Flag bits 7 to 0.
    pub flags: u8,
    pub message_id: u32,
    pub sequence: u32,
    pub seconds: u32,
    pub nanoseconds: u32,
    pub options: Vec<u8>,
    pub behind_options: Vec<u8>,
    pub payload: Vec<u8>,
}

impl DirtyFragment {
    pub fn lay(&self, out: &mut Vec<u8>) {
        let option_bytes = self.options.len() + self.behind_options.len();
        out.push(0x10 | (option_bytes / 4) as u8);
        out.push(self.reserved_nibble << 4);
        out.extend([self.reserved_flags, self.flags]);
        let length = 24 + option_bytes + self.payload.len();
        let numbers =
            [self.message_id, self.sequence, length as u32, self.seconds, self.nanoseconds];
        for number in numbers {
            out.extend(number.to_be_bytes());
        }
        out.extend(&self.options);
        out.extend(&self.behind_options);
        out.extend(&self.payload);
    }
}

/// The bytes of some fragments, and where each starts.
pub fn lay_fragments(parts: &[DirtyFragment]) -> (Vec<u8>, Vec<usize>) {
    let mut out = Vec::new();
    let mut places = Vec::new();
    for part in parts {
        places.push(out.len());
        part.lay(&mut out);
    }
    (out, places)
}

/// Splits a message, which has room for an offset, into good fragments of unequal
/// lengths, some of them perhaps empty, with dirt and with options that do not count.
pub fn split(dice: &mut Dice, world: &World, message: &DirtyMessage) -> Vec<DirtyFragment> {
    let laid = message.laid();
    let mut payload = &laid[24 + message.option_bytes()..];
    let flags = laid[3];
    let count = dice.within(2, 7);
    let mut parts: Vec<DirtyFragment> = Vec::new();
    let mut offset = 0;
    for index in 0..count {
        let last = index + 1 == count;
        let words = if last { payload.len() / 4 } else { dice.below(payload.len() / 4 + 1) };
        let words = if last { words } else { words.min(dice.pick(&[0, 1, 3, 10, 1_000])) };
        let part = match index {
            0 => FIRST,
            _ if last => LAST,
            _ => MIDDLE,
        };
        let mut options = offset_option(offset).to_vec();
        if index == 0 {
            // The offset may stand before or behind the others.
            options = match dice.chance(1, 2) {
                true => [&message.options[..], &options].concat(),
                false => [&options[..], &message.options].concat(),
            };
        } else if dice.chance(1, 3) {
            // Options of later fragments count for nothing, a count included.
            options.extend([COUNT_KIND, 6, 0, 0, 0, dice.byte(), 5]);
        }
        parts.push(DirtyFragment {
            reserved_nibble: if world.dirty { dice.byte() & 15 } else { 0 },
            reserved_flags: if world.dirty { dice.byte() } else { 0 },
            flags: flags | part,
            message_id: message.message_id,
            sequence: message.sequence.wrapping_add(index as u32),
            seconds: message.seconds,
            nanoseconds: message.nanoseconds,
            behind_options: behind_options(dice, world, options.len()),
            options,
            payload: payload[..4 * words].to_vec(),
        });
        payload = &payload[4 * words..];
        offset += 4 * words;
    }
    parts
}

/// The ways in which fragments go wrong.
pub const FRAGMENT_FAULTS: usize = 18;

/// These ways are always refused.
pub const ALWAYS_REFUSED: [usize; 12] = [0, 1, 2, 3, 4, 5, 7, 8, 10, 11, 12, 13];

/// Damages good fragments in one way and lays them.
pub fn broken_fragments(dice: &mut Dice, mut parts: Vec<DirtyFragment>, way: usize) -> Vec<u8> {
    match way {
        0..=7 => change_part(dice, &mut parts, way),
        8..=12 => change_order(dice, &mut parts, way),
        14..=16 => change_whole(dice, &mut parts, way),
        _ => {}
    }
    let mut bytes = lay_fragments(&parts).0;
    match way {
        // Something stands behind the last.
        13 => match dice.below(3) {
            0 => bytes.extend(message_m()),
            1 => bytes.extend(dice.some_bytes(1, 23)),
            _ => bytes.extend(m_with(0, &[0x20])),
        },
        17 => change_blindly(dice, &mut bytes),
        _ => {}
    }
    bytes
}

/// One fragment does not go on from those before it.
fn change_part(dice: &mut Dice, parts: &mut [DirtyFragment], way: usize) {
    let at = dice.below(parts.len());
    let later = dice.within(1, parts.len() - 1);
    match way {
        // It lacks the offset, or has a wrong one.
        0 => {
            parts[at].options = vec![1; 4];
            parts[at].behind_options.clear();
        }
        1 => {
            let far = dice.word().max(1);
            let wrong = dice.pick(&[4, 1, 0xFFFF_FFFC, 0x8000_0000, far]);
            if let Some(place) = option_place(&parts[at].options, OFFSET_KIND) {
                let number = number_at(&parts[at].options, place + 2).wrapping_add(wrong);
                parts[at].options[place + 2..place + 6].copy_from_slice(&number.to_be_bytes());
            }
        }
        2 => parts[at].flags ^= dice.pick(&[0x10, 0x20, 0x30]),
        3 => {
            let wrong = dice.pick(&[1, 2, u32::MAX, 0x8000_0000]);
            parts[later].sequence = parts[later].sequence.wrapping_add(wrong);
        }
        4 => parts[later].message_id ^= 1 << dice.below(32),
        5 => parts[later].seconds ^= 1 << dice.below(32),
        6 => parts[later].nanoseconds ^= 1,
        _ => parts[later].flags ^= dice.pick(&[0x80, 0x40, 8, 4, 2, 1]),
    }
}

/// A fragment is lost, swapped with another, doubled, or stands behind the last.
fn change_order(dice: &mut Dice, parts: &mut Vec<DirtyFragment>, way: usize) {
    let at = dice.below(parts.len());
    let one = parts[at].clone();
    match way {
        8 => drop(parts.remove(at)),
        9 => {
            let later = dice.within(1, parts.len() - 1);
            parts.swap(0, later);
        }
        10 => parts.insert(at, one),
        11 => drop(parts.pop()),
        _ => parts.push(one),
    }
}

/// The fragments go on, but the whole is bad: bit 7, a count, a package.
fn change_whole(dice: &mut Dice, parts: &mut [DirtyFragment], way: usize) {
    match way {
        14 => parts.iter_mut().for_each(|part| part.flags ^= 0x80),
        15 => {
            let count = [COUNT_KIND, 6, 0, 0, 0, dice.below(4) as u8];
            parts[0].options = [&count[..], &offset_option(0)].concat();
            parts[0].behind_options.clear();
        }
        _ => {
            if let Some(part) = parts.iter_mut().find(|part| part.payload.len() >= 8) {
                part.payload[4..6].copy_from_slice(&(dice.below(60) as u16).to_be_bytes());
            }
        }
    }
}

/// Breaks a header check, 1 to 7, in one fragment.
pub fn bad_header(dice: &mut Dice, parts: &[DirtyFragment]) -> Vec<u8> {
    let (mut bytes, places) = lay_fragments(parts);
    let place = dice.pick(&places);
    match dice.below(7) {
        0 => bytes.truncate(place + dice.within(1, 23)),
        1 => bytes[place] ^= dice.pick(&[0x10, 0x20, 0x80]),
        2 => bytes[place + 1] |= 1 + dice.below(15) as u8,
        3 => bytes[place + 15] |= 1 + dice.below(3) as u8,
        4 => bytes[place + 12] |= 0x80,
        5 => bytes[place + 20] |= 0xC0,
        _ => bytes[place + 25] = dice.pick(&[0, 1, 5, 7, 61]),
    }
    bytes
}
