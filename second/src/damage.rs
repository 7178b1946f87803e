//! Damage: aimed faults that reach each refusal of a message, and blind ones.

use crate::dice::Dice;
use crate::generate::{lay_all, option_run, DirtyMessage};
use crate::parse::{count_place, options_end, COUNT_KIND, OFFSET_KIND};
use crate::refusal::*;

/// The refusal numbers of a message's checks, in their order.
pub const FAULTS: [u32; 11] =
    [SHORT, VERSION, TYPE, LENGTH, CUT, TIME, OPTION, FRAGMENT, STANDARD, PACKAGE, COUNT];

/// Lays a recording and damages it: one to three aimed faults, often two in
/// one message, or blind changes.
pub fn damaged(dice: &mut Dice, mut messages: Vec<DirtyMessage>) -> Vec<u8> {
    if messages.is_empty() || dice.chance(1, 5) {
        let mut bytes = lay_all(&messages).0;
        for _ in 0..dice.within(1, 3) {
            change_blindly(dice, &mut bytes);
        }
        return bytes;
    }
    let mut faults = Vec::new();
    for _ in 0..dice.pick(&[1, 1, 2, 2, 3]) {
        let at_same = faults.last().filter(|_| dice.chance(1, 2)).map(|&(index, _)| index);
        let index = at_same.unwrap_or_else(|| dice.below(messages.len()));
        faults.push((index, any_fault(dice)));
    }
    with_faults(dice, &mut messages, &faults)
}

/// The refusal number of some check; options and packages can go wrong in more
/// ways than the others.
pub fn any_fault(dice: &mut Dice) -> u32 {
    let any = dice.pick(&FAULTS);
    dice.pick(&[any, any, any, OPTION, PACKAGE])
}

/// Lays a recording with these faults: the index of a message and the refusal
/// number of a check.
pub fn with_faults(
    dice: &mut Dice,
    messages: &mut [DirtyMessage],
    faults: &[(usize, u32)],
) -> Vec<u8> {
    for &(index, number) in faults {
        match number {
            OPTION => break_options(dice, &mut messages[index]),
            COUNT => break_count(dice, &mut messages[index]),
            PACKAGE if messages[index].packages.is_empty() || dice.chance(1, 4) => {
                let words = dice.within(1, 2);
                messages[index].tail = dice.bytes(4 * words);
            }
            _ => {}
        }
    }
    let (mut bytes, places) = lay_all(messages);
    for &(index, number) in faults {
        // An earlier fault may have cut this message off.
        if places[index] + 24 <= bytes.len() {
            let message = &messages[index];
            break_bytes(dice, &mut bytes, places[index], message, number);
        }
    }
    bytes
}

fn set_number(bytes: &mut [u8], at: usize, number: u32) {
    bytes[at..at + 4].copy_from_slice(&number.to_be_bytes());
}

/// Breaks one rule in the bytes of the message at this place.
fn break_bytes(
    dice: &mut Dice,
    bytes: &mut Vec<u8>,
    place: usize,
    message: &DirtyMessage,
    number: u32,
) {
    match number {
        SHORT => make_short(dice, bytes, place),
        VERSION => {
            let version = dice.pick(&[0, 2, 3, 8, 9, 15]);
            bytes[place] = bytes[place] & 15 | version << 4;
        }
        TYPE => bytes[place + 1] |= 1 + dice.below(15) as u8,
        LENGTH => {
            let length = bad_length(dice, message);
            set_number(bytes, place + 12, length);
        }
        CUT => cut(dice, bytes, place),
        TIME => {
            let spread = dice.within(1_000_000_000, u32::MAX as usize) as u32;
            let late = dice.pick(&[1_000_000_000, 1_000_000_001, 1 << 30, u32::MAX, spread]);
            set_number(bytes, place + 20, late);
        }
        FRAGMENT => bytes[place + 3] |= dice.pick(&[0x10, 0x20, 0x30]),
        STANDARD => bytes[place + 3] ^= 0x80,
        PACKAGE if message.tail.is_empty() => break_package(dice, bytes, place, message),
        _ => {}
    }
}

/// Leaves fewer than 24 bytes at a message's start.
fn make_short(dice: &mut Dice, bytes: &mut Vec<u8>, place: usize) {
    let few = dice.within(1, 23);
    if dice.chance(1, 2) {
        bytes.truncate(place + few);
    } else {
        bytes.extend(dice.bytes(few));
    }
}

/// A length below 24 + 4·W, or no multiple of 4.
fn bad_length(dice: &mut Dice, message: &DirtyMessage) -> u32 {
    let fewest = 24 + message.option_bytes() as u32;
    let odd = dice.within(1, 3) as u32;
    match dice.below(5) {
        0 => fewest - 4,
        1 => fewest - odd,
        2 => fewest + 4 * dice.below(8) as u32 + odd,
        3 => u32::MAX - dice.below(3) as u32,
        _ => 4 * dice.below(6) as u32,
    }
}

/// Says a length above the bytes left, or takes bytes from the end.
fn cut(dice: &mut Dice, bytes: &mut Vec<u8>, place: usize) {
    let left = bytes.len() - place;
    if left > 24 && dice.chance(1, 3) {
        let kept = dice.within(24, left - 1);
        bytes.truncate(place + kept);
        return;
    }
    // The first multiple of 4 above what is left.
    let above = (left / 4 * 4 + 4) as u32;
    let further = above + 4 * dice.below(20_000) as u32;
    // A sum of place and length must not wrap in 32 bits.
    let wrapping = (place as u32).wrapping_neg() & !3;
    let choices = [above, above, further, 0x8000_0000, 0xFFFF_FFFC, wrapping.max(above)];
    let length = dice.pick(&choices);
    set_number(bytes, place + 12, length);
}

/// Gives some package a bad L, or one that leaves too little for the next.
fn break_package(dice: &mut Dice, bytes: &mut [u8], place: usize, message: &DirtyMessage) {
    let mut starts = Vec::new();
    let mut at = place + 24 + message.option_bytes();
    for package in &message.packages {
        starts.push(at);
        at += 12 + package.data.len().div_ceil(4) * 4;
    }
    if starts.is_empty() || at > bytes.len() {
        return;
    }
    let chosen = dice.pick(&starts);
    let left = at - chosen;
    let length = match dice.below(8) {
        0 => 11,
        1 => dice.below(12),
        2 => left + 1,
        3 => left + dice.below(8),
        4 => left - dice.within(1, 12),
        5 => 65_535 - dice.below(4),
        6 => dice.within(12, left),
        _ => dice.below(65_536),
    };
    bytes[chosen + 4..chosen + 6].copy_from_slice(&(length as u16).to_be_bytes());
}

/// Puts an option against the rules behind some good ones.
fn break_options(dice: &mut Dice, message: &mut DirtyMessage) {
    let mut options = option_run(dice, 24, message.packages.len());
    match dice.below(8) {
        0 => {
            // A kind from 0x80 up is the very last option byte.
            while options.len() % 4 != 3 {
                options.push(1 + dice.below(0x7F) as u8);
            }
            options.push(0x80 | dice.byte());
        }
        1 | 2 => {
            // The option bytes end before the option does, often by one byte.
            let (kind, length) = long_good_option(dice);
            let most = ((options.len() + length - 1) / 4).min(15);
            options.extend([kind, length as u8]);
            let fewest = options.len().div_ceil(4);
            let words = if dice.chance(1, 2) { most } else { dice.within(fewest, most) };
            let data = dice.bytes(4 * words - options.len());
            options.extend(data);
        }
        3 | 4 => {
            // A second option of a kind that stands at most once; both are good.
            let kind = dice.pick(&[OFFSET_KIND, COUNT_KIND]);
            for _ in 0..2 {
                options.extend([kind, 6]);
                options.extend((message.packages.len() as u32).to_be_bytes());
                options.extend(vec![1; dice.below(3)]);
            }
            options.resize(options.len().next_multiple_of(4), 0);
        }
        _ => {
            let (kind, length) = bad_option(dice);
            options.extend([kind, length as u8]);
            let words = dice.within(options.len().div_ceil(4), 15);
            let behind = dice.bytes(4 * words - options.len());
            options.extend(behind);
        }
    }
    message.options = options;
    message.behind_options.clear();
}

/// Gives the message a package count that is wrong, often by one.
fn break_count(dice: &mut Dice, message: &mut DirtyMessage) {
    // An earlier fault may have broken the options.
    if options_end(&message.options) != Ok(message.options.len()) {
        return;
    }
    let place = count_place(&message.options).unwrap_or_else(|| {
        if message.options.len() > 54 {
            message.options.clear();
        }
        let end = message.options.len();
        message.options.extend([COUNT_KIND, 6, 0, 0, 0, 0]);
        message.behind_options = vec![0; message.options.len().next_multiple_of(4) - end - 6];
        end
    });
    let packages = message.packages.len() as u32;
    let spread = dice.word();
    let choices = [packages + 1, packages.wrapping_sub(1), packages ^ 1 << dice.below(32), spread];
    let count = dice.pick(&choices).to_be_bytes();
    message.options[place + 2..place + 6].copy_from_slice(&count);
}

/// A kind and a good length of 6 bytes or more.
fn long_good_option(dice: &mut Dice) -> (u8, usize) {
    match dice.below(4) {
        0 => (0x82 + dice.below(3) as u8, dice.within(6, 32)),
        1 => (0x85, dice.pick(&[6, 18])),
        2 => (0x86 + dice.below(2) as u8, 6),
        _ => (dice.pick(&[0x80, 0x81, 0x88, 0xFF]), dice.within(6, 60)),
    }
}

/// A kind and a length that it may not have.
fn bad_option(dice: &mut Dice) -> (u8, usize) {
    let general = dice.pick(&[0x80, 0x81, 0x88, 0xC0, 0xFF]);
    match dice.below(6) {
        0 => (general, dice.below(2)),
        1 => (general, dice.within(61, 255)),
        2 => (general, 61),
        3 => (0x82 + dice.below(3) as u8, dice.pick(&[0, 1, 2, 33, 34, 60, 255])),
        4 => (0x85, dice.pick(&[0, 2, 5, 7, 17, 19, 60])),
        _ => (0x86 + dice.below(2) as u8, dice.pick(&[0, 2, 5, 7, 18, 60])),
    }
}

/// Changes bytes without an aim.
pub fn change_blindly(dice: &mut Dice, bytes: &mut Vec<u8>) {
    let length = bytes.len();
    match dice.below(8) {
        0 => bytes.truncate(dice.below(length + 1)),
        1 => bytes.extend(dice.some_bytes(1, 40)),
        2 if length > 8 => {
            // Some bytes in the middle are lost.
            let from = dice.below(length - 4);
            let count = dice.within(1, 4);
            bytes.drain(from..from + count);
        }
        3..=5 if length >= 24 => {
            let at = dice.below(24);
            bytes[at] ^= 1 << dice.below(8);
        }
        _ if length > 0 => {
            let at = dice.below(length);
            bytes[at] = dice.byte();
        }
        _ => bytes.push(dice.byte()),
    }
}
