//! Recordings to compare with: several tenants, odd sizes, and dirt in every
//! byte and bit that a reading has to ignore.

use crate::dice::Dice;
use crate::parse::{count_place, COUNT_KIND, OFFSET_KIND};

/// A package with its reserved byte and the padding that it may need.
#[derive(Clone, Debug)]
pub struct DirtyPackage {
    pub id: u32,
    pub status: u8,
    pub delta: u32,
    pub data: Vec<u8>,
    pub reserved: u8,
    pub padding: [u8; 3],
}

/// A message with everything in it that does not count.
#[derive(Clone, Debug)]
pub struct DirtyMessage {
    pub reserved_nibble: u8,
    pub reserved_flags: u8,
    /// Flag bits 6, 3, 2, 1 and 0.
    pub flags: u8,
    pub message_id: u32,
    pub sequence: u32,
    pub seconds: u32,
    pub nanoseconds: u32,
    /// Whole options, none of kind 0x00, in a good message.
    pub options: Vec<u8>,
    /// The option bytes behind them: 0x00 and anything, or none.
    pub behind_options: Vec<u8>,
    pub packages: Vec<DirtyPackage>,
    /// Payload bytes behind the packages: none in a good message.
    pub tail: Vec<u8>,
}

impl DirtyPackage {
    pub fn lay(&self, out: &mut Vec<u8>) {
        out.extend(self.id.to_be_bytes());
        out.extend((12 + self.data.len() as u16).to_be_bytes());
        out.push(self.reserved);
        out.push(self.status);
        out.extend(self.delta.to_be_bytes());
        out.extend(&self.data);
        let odd = self.data.len() % 4;
        if odd > 0 {
            out.extend(&self.padding[..4 - odd]);
        }
    }
}

impl DirtyMessage {
    pub fn option_bytes(&self) -> usize {
        self.options.len() + self.behind_options.len()
    }

    pub fn lay(&self, out: &mut Vec<u8>) {
        let mut payload = Vec::new();
        for package in &self.packages {
            package.lay(&mut payload);
        }
        payload.extend(&self.tail);
        let words = (self.option_bytes() / 4) as u8;
        let standard = if payload.is_empty() { 0 } else { 0x80 };
        let length = (24 + self.option_bytes() + payload.len()) as u32;
        out.push(0x10 | words);
        out.push(self.reserved_nibble << 4);
        out.push(self.reserved_flags);
        out.push(standard | self.flags);
        out.extend(self.message_id.to_be_bytes());
        out.extend(self.sequence.to_be_bytes());
        out.extend(length.to_be_bytes());
        out.extend(self.seconds.to_be_bytes());
        out.extend(self.nanoseconds.to_be_bytes());
        out.extend(&self.options);
        out.extend(&self.behind_options);
        out.extend(payload);
    }

    pub fn laid(&self) -> Vec<u8> {
        let mut out = Vec::new();
        self.lay(&mut out);
        out
    }

    /// Sets the package count, where the options have one, to the packages.
    pub fn recount(&mut self) {
        if let Some(at) = count_place(&self.options) {
            let count = self.packages.len() as u32;
            self.options[at + 2..at + 6].copy_from_slice(&count.to_be_bytes());
        }
    }
}

/// The bytes of a recording, and where each of its messages starts.
pub fn lay_all(messages: &[DirtyMessage]) -> (Vec<u8>, Vec<usize>) {
    let mut out = Vec::new();
    let mut places = Vec::new();
    for message in messages {
        places.push(out.len());
        message.lay(&mut out);
    }
    (out, places)
}

/// The tenants of one recorder: their ids and the times they flew at.
#[derive(Clone, Debug)]
pub struct World {
    pub message_ids: Vec<u32>,
    pub package_ids: Vec<u32>,
    pub seconds: Vec<u32>,
    pub dirty: bool,
}

impl World {
    pub fn new(dice: &mut Dice) -> World {
        let message_ids = tenants(dice);
        // The same numbers as message ids show if one stands in for the other.
        let package_ids = if dice.chance(1, 3) { message_ids.clone() } else { tenants(dice) };
        let seconds = (0..dice.within(1, 3)).map(|_| moment(dice)).collect();
        World { message_ids, package_ids, seconds, dirty: dice.chance(5, 6) }
    }

    fn dirt(&self, dice: &mut Dice) -> u8 {
        if self.dirty && dice.chance(3, 4) {
            dice.byte()
        } else {
            0
        }
    }
}

/// A few ids that lie close together, at an end of the range, or anywhere.
fn tenants(dice: &mut Dice) -> Vec<u32> {
    let base = dice.edge();
    let mut ids = vec![base];
    for _ in 0..dice.below(5) {
        let id = match dice.below(4) {
            0 => base.wrapping_add(1),
            1 => base.wrapping_sub(1),
            2 => base ^ 1 << dice.below(32),
            _ => dice.edge(),
        };
        ids.push(id);
    }
    ids
}

/// Seconds, often near a limit.
fn moment(dice: &mut Dice) -> u32 {
    match dice.below(6) {
        0 => 0,
        1 => u32::MAX - dice.below(6) as u32,
        2 => 1 << dice.below(32),
        3 => 100,
        _ => dice.word(),
    }
}

/// Good nanoseconds, often at a limit.
pub fn nanoseconds(dice: &mut Dice) -> u32 {
    match dice.below(5) {
        0 => 0,
        1 => 999_999_999 - dice.below(2) as u32,
        2 => dice.below(20) as u32,
        _ => dice.below(1_000_000_000) as u32,
    }
}

pub fn delta(dice: &mut Dice) -> u32 {
    match dice.below(6) {
        0 => 0,
        1 => dice.below(20) as u32,
        2 => 1_000_000_000 - 1 + dice.below(3) as u32,
        3 => u32::MAX - dice.below(2) as u32,
        _ => dice.word(),
    }
}

fn data_length(dice: &mut Dice) -> usize {
    match dice.below(16) {
        0..=3 => 0,
        4..=11 => dice.below(10),
        12..=14 => dice.below(80),
        _ => dice.below(400),
    }
}

pub fn package(dice: &mut Dice, world: &World) -> DirtyPackage {
    let length = data_length(dice);
    DirtyPackage {
        id: dice.pick(&world.package_ids),
        status: dice.byte(),
        delta: delta(dice),
        data: dice.bytes(length),
        reserved: world.dirt(dice),
        padding: [world.dirt(dice), world.dirt(dice), world.dirt(dice)],
    }
}

/// One option with a length byte that keeps the rules, of at most `most` bytes,
/// in a message of so many packages.
fn long_option(dice: &mut Dice, most: usize, packages: usize) -> Vec<u8> {
    let kind = match dice.below(4) {
        0 => dice.pick(&[OFFSET_KIND, COUNT_KIND]),
        1 => 0x80 + dice.below(8) as u8,
        _ => 0x80 | dice.byte(),
    };
    let length = match kind {
        0x82..=0x84 => {
            let spread = dice.within(3, 32);
            dice.pick(&[3, 4, 32, spread])
        }
        0x85 => dice.pick(&[6, 18]),
        0x86 | 0x87 => 6,
        _ => {
            let spread = dice.within(2, 60);
            dice.pick(&[2, 3, 60, spread, spread.min(9)])
        }
    };
    if length > most {
        return Vec::new();
    }
    let mut option = vec![kind, length as u8];
    if kind == COUNT_KIND {
        option.extend((packages as u32).to_be_bytes());
        return option;
    }
    // Zero bytes inside an option's data end nothing.
    for _ in 2..length {
        option.push(if dice.chance(1, 3) { 0 } else { dice.byte() });
    }
    option
}

/// Whole options, none of kind 0x00, of at most `most` bytes together, for a
/// message of so many packages.
pub fn option_run(dice: &mut Dice, most: usize, packages: usize) -> Vec<u8> {
    let mut run = Vec::new();
    let mut kinds = Vec::new();
    let goal = match dice.below(6) {
        0 | 1 => 0,
        2 => most,
        _ => dice.below(most + 1),
    };
    while run.len() < goal {
        let left = goal - run.len();
        if dice.chance(1, 3) {
            run.push(1 + dice.below(0x7F) as u8);
        } else {
            let option = long_option(dice, left, packages);
            let second = option.first().is_some_and(|kind| kinds.contains(kind));
            // Only these two stand at most once.
            if !(second && [OFFSET_KIND, COUNT_KIND].contains(&option[0])) {
                kinds.extend(option.first());
                run.extend(option);
            }
        }
    }
    run
}

/// Option bytes behind the run: they fill its last word, or some words more.
pub fn behind_options(dice: &mut Dice, world: &World, run: usize) -> Vec<u8> {
    let fewest = run.div_ceil(4);
    let words = if world.dirty && dice.chance(1, 3) { dice.within(fewest, 15) } else { fewest };
    let mut behind = Vec::new();
    for at in run..4 * words {
        behind.push(if at == run { 0 } else { world.dirt(dice) });
    }
    behind
}

pub fn message(dice: &mut Dice, world: &World, packages: usize) -> DirtyMessage {
    let options = option_run(dice, 60, packages);
    DirtyMessage {
        reserved_nibble: world.dirt(dice) & 15,
        reserved_flags: world.dirt(dice),
        flags: dice.byte() & 0x4F,
        message_id: dice.pick(&world.message_ids),
        sequence: dice.edge(),
        seconds: dice.pick(&world.seconds),
        nanoseconds: nanoseconds(dice),
        behind_options: behind_options(dice, world, options.len()),
        options,
        packages: (0..packages).map(|_| package(dice, world)).collect(),
        tail: Vec::new(),
    }
}

/// How many packages a message has: often few, seldom many, sometimes none.
pub fn package_count(dice: &mut Dice) -> usize {
    match dice.below(12) {
        0 | 1 => 0,
        2..=9 => dice.within(1, 4),
        _ => dice.within(1, 12),
    }
}

/// A small recording.
pub fn messages(dice: &mut Dice, world: &World) -> Vec<DirtyMessage> {
    let count = match dice.below(16) {
        0 => 0,
        1..=12 => dice.within(1, 5),
        _ => dice.within(1, 20),
    };
    let mut messages = Vec::new();
    for _ in 0..count {
        let packages = package_count(dice);
        messages.push(message(dice, world, packages));
    }
    if dice.chance(1, 12) {
        messages.push(zero_message(dice, world));
    }
    messages
}

/// Package 0 of message 0 at time 0, which an all-zero row would grant if its
/// window had its end.
fn zero_message(dice: &mut Dice, world: &World) -> DirtyMessage {
    let mut zero = message(dice, world, 2);
    (zero.message_id, zero.seconds, zero.nanoseconds) = (0, 0, 0);
    (zero.packages[0].id, zero.packages[0].delta) = (0, 0);
    zero
}

/// A message of exactly `size` bytes, which is a multiple of 4 from 24 up.
pub fn message_of_size(dice: &mut Dice, world: &World, size: usize) -> DirtyMessage {
    let mut made = message(dice, world, 0);
    made.options.clear();
    made.behind_options.clear();
    let payload = size - 24;
    if payload < 12 {
        // Too little for a package, so option words take it up.
        made.behind_options = vec![0; payload];
    } else {
        let mut filling = package(dice, world);
        let padding = dice.below(4).min(payload - 12);
        filling.data = dice.bytes(payload - 12 - padding);
        made.packages.push(filling);
    }
    made
}

/// How a long recording is made up.
#[derive(Clone, Copy, Debug, PartialEq, Eq)]
pub enum Style {
    Mixed,
    OnePackageEach,
    /// One package each; ids are new for a while and then come back.
    ManyIds,
    FewLarge,
}

/// A recording of exactly `size` bytes, which is 0 or a multiple of 4 from 24 up.
pub fn messages_of_size(
    dice: &mut Dice,
    world: &World,
    size: usize,
    style: Style,
) -> Vec<DirtyMessage> {
    let mut messages = Vec::new();
    let turn = dice.within(1, 1_820);
    let mut left = size;
    while left > 0 {
        let mut next = match style {
            Style::Mixed => {
                let packages = package_count(dice);
                message(dice, world, packages)
            }
            Style::OnePackageEach | Style::ManyIds => message_of_size(dice, world, 36),
            Style::FewLarge => {
                let room = 4 * dice.within(6, 5_000);
                message_of_size(dice, world, room)
            }
        };
        if style == Style::ManyIds {
            next.message_id = there_and_back(messages.len(), turn);
        }
        let taken = next.laid().len();
        // The last message fills what is left to the byte.
        if taken + 24 > left {
            next = message_of_size(dice, world, left);
        }
        left -= next.laid().len();
        messages.push(next);
    }
    messages
}

/// New ids up to the turn, then the same ids from the last to the first.
pub fn there_and_back(number: usize, turn: usize) -> u32 {
    if number < turn {
        number as u32
    } else {
        (2 * turn - 1).saturating_sub(number) as u32
    }
}

pub fn style(dice: &mut Dice) -> Style {
    dice.pick(&[Style::Mixed, Style::Mixed, Style::OnePackageEach, Style::ManyIds, Style::FewLarge])
}
