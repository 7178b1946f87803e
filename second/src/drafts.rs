//! Drafts for the writer, good ones and bad ones in each check's way.

use crate::dice::Dice;
use crate::generate::{message, package_count, DirtyMessage, World};
use crate::parse::{count_place, options_end, COUNT_KIND, OFFSET_KIND};
use crate::render::Draft;

/// A draft that owns its two runs.
#[derive(Clone, Debug)]
pub struct OwnDraft {
    pub flags: u8,
    pub message_id: u32,
    pub sequence: u32,
    pub seconds: u32,
    pub nanoseconds: u32,
    pub options: Vec<u8>,
    pub packages: Vec<u8>,
}

impl OwnDraft {
    pub fn borrowed(&self) -> Draft<'_> {
        Draft {
            flags: self.flags,
            message_id: self.message_id,
            sequence: self.sequence,
            seconds: self.seconds,
            nanoseconds: self.nanoseconds,
            options: &self.options,
            packages: &self.packages,
        }
    }
}

/// The draft of a message; flag bits 7, 5 and 4 are anything.
pub fn draft_of(dice: &mut Dice, message: &DirtyMessage) -> OwnDraft {
    let mut packages = Vec::new();
    for package in &message.packages {
        package.lay(&mut packages);
    }
    packages.extend(&message.tail);
    OwnDraft {
        flags: message.flags | dice.byte() & 0xB0,
        message_id: message.message_id,
        sequence: message.sequence,
        seconds: message.seconds,
        nanoseconds: message.nanoseconds,
        options: message.options.clone(),
        packages,
    }
}

pub fn good_draft(dice: &mut Dice) -> OwnDraft {
    let world = World::new(dice);
    let packages = package_count(dice);
    let message = message(dice, &world, packages);
    draft_of(dice, &message)
}

/// A draft with one to three faults, so that the order of checks shows.
pub fn bad_draft(dice: &mut Dice) -> OwnDraft {
    let mut draft = good_draft(dice);
    for _ in 0..dice.pick(&[1, 1, 2, 3]) {
        match dice.below(12) {
            0 => make_large(dice, &mut draft),
            1 => {
                let late = dice.within(1_000_000_000, u32::MAX as usize) as u32;
                draft.nanoseconds = dice.pick(&[1_000_000_000, u32::MAX, late]);
            }
            2 => {
                // A run above 60 bytes, good or bad as options.
                let fill = dice.pick(&[1, 0x7F, 0x00, 0x80]);
                draft.options.resize(dice.within(61, 70), fill);
            }
            3..=5 => break_options(dice, &mut draft.options),
            6 | 7 => miscount(dice, &mut draft.options),
            _ => break_packages(dice, &mut draft.packages),
        }
    }
    draft
}

/// Makes 24, the option run rounded up and the packages pass 65,536, or only
/// just not.
fn make_large(dice: &mut Dice, draft: &mut OwnDraft) {
    let options = draft.options.len().div_ceil(4) * 4;
    let room = 65_512_usize.saturating_sub(options);
    match dice.below(4) {
        0 => draft.packages.resize(room + 1, 0),
        1 => draft.packages.resize(room + dice.below(9), 0),
        2 => draft.options.resize(65_513 - dice.below(6), 1),
        _ => draft.packages.resize(65_537 + dice.below(4_000), 0),
    }
}

/// Gives a good option run a package count that is seldom the right one.
fn miscount(dice: &mut Dice, options: &mut Vec<u8>) {
    // An earlier fault may have broken the run.
    if options_end(options) != Ok(options.len()) {
        return;
    }
    let place = count_place(options).unwrap_or_else(|| {
        if options.len() > 54 {
            options.clear();
        }
        options.extend([COUNT_KIND, 6, 0, 0, 0, 0]);
        options.len() - 6
    });
    let count = dice.pick(&[0, 1, 2, 3, 256, u32::MAX]).to_be_bytes();
    options[place + 2..place + 6].copy_from_slice(&count);
}

fn break_options(dice: &mut Dice, options: &mut Vec<u8>) {
    match dice.below(6) {
        // A kind from 0x80 up ends the run.
        0 => options.push(0x80 | dice.byte()),
        // The option would be whole only with the zero fill.
        1 => options.extend([0x80, 4, 0]),
        // An option of kind 0x00, with something or nothing behind it.
        2 => {
            options.push(0x00);
            options.extend(dice.some_bytes(0, 3));
        }
        // A second option of a kind that stands at most once.
        3 => {
            let kind = dice.pick(&[OFFSET_KIND, COUNT_KIND]);
            options.truncate(40);
            options.extend([kind, 6, 0, 0, 0, 1, kind, 6, 0, 0, 0, 1]);
        }
        4 => {
            let kind = 0x80 + dice.below(9) as u8;
            let length = dice.pick(&[0, 1, 2, 5, 7, 17, 19, 33, 61, 255]);
            options.extend([kind, length]);
        }
        _ if options.is_empty() => options.push(0x00),
        _ => {
            let at = dice.below(options.len());
            options[at] = dice.byte();
        }
    }
}

fn break_packages(dice: &mut Dice, packages: &mut Vec<u8>) {
    let length = packages.len();
    match dice.below(5) {
        // Fewer than 12 bytes are left.
        0 => packages.extend(dice.some_bytes(1, 11)),
        // The last package's padding or data is cut.
        1 => packages.truncate(length - dice.within(0, 15).min(length)),
        2 if length >= 12 => {
            packages[4] = 0;
            packages[5] = dice.below(13) as u8;
        }
        3 if length >= 12 => {
            let beyond = (length + 1 + dice.below(4)).min(65_535) as u16;
            packages[4..6].copy_from_slice(&beyond.to_be_bytes());
        }
        _ if length > 0 => {
            let at = dice.below(length);
            packages[at] = dice.byte();
        }
        _ => packages.push(dice.byte()),
    }
}
