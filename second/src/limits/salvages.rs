//! Salvage at and beside each limit.

use super::Limits;
use crate::blocks::{nested, slow, with_holes, BadBlock, BLOCK_PLACES, FILLS};
use crate::damage::{with_faults, FAULTS};
use crate::generate::*;
use crate::paper::{m_with, m_with_options, message_m};
use crate::refusal::{MOST_BYTES, ROOM};
use crate::salvage::salvage;
use crate::salvaging::{bad_block, salvaging};
use crate::side_by_side;

impl Limits<'_> {
    /// With rooms at and beside the bytes needed, and every claim.
    fn salvage(&mut self, input: &[u8]) {
        let needed = match salvage(input, &mut []) {
            Err(refusal) if refusal.number == ROOM => refusal.place,
            _ => 64,
        };
        for room in [0, needed - 1, needed, needed + 1] {
            self.next("salvage");
            side_by_side::salvage(self.judge, &mut self.dice, input, room);
        }
        self.next("what is salvaged, and what is skipped");
        salvaging(self.judge, &mut self.dice, input);
    }
}

pub fn salvages(limits: &mut Limits) {
    around_messages(limits);
    holes(limits);
    faults(limits);
    sizes(limits);
    for _ in 0..100 {
        let input = nested(&mut limits.dice);
        limits.salvage(&input);
    }
    // Bad blocks of every length up to 300 bytes, at every kind of place.
    for length in 1..=300 {
        let place = BLOCK_PLACES[length % BLOCK_PLACES.len()];
        for fill in FILLS {
            let block = BadBlock::new(&mut limits.dice, place, fill, length);
            limits.next("a bad block");
            bad_block(limits.judge, &mut limits.dice, &block);
        }
    }
}

/// Bytes before, behind and between two messages, and messages that are cut.
fn around_messages(limits: &mut Limits) {
    let m = message_m();
    for count in 0..=9 {
        let (start, end) = (&m[..56 - count], &m[count..]);
        for byte in [0xEE, 0x10] {
            let junk = vec![byte; count];
            limits.salvage(&junk);
            limits.salvage(&[&junk[..], &m].concat());
            limits.salvage(&[&m[..], &junk].concat());
            limits.salvage(&[&m[..], &junk, &m].concat());
            limits.salvage(&[&junk[..], &m, &junk, &m, &junk].concat());
        }
        limits.salvage(start);
        limits.salvage(&[&m[..], start].concat());
        limits.salvage(&[start, &m].concat());
        limits.salvage(&[end, &m].concat());
        limits.salvage(&[&m[..], end, &m].concat());
    }
}

fn holes(limits: &mut Limits) {
    for holes in [1, 2, 62, 63, 64, 65, 66, 80] {
        for _ in 0..4 {
            let input = with_holes(&mut limits.dice, holes);
            limits.salvage(&input);
            // Bytes at the end are one more stretch, or run on with the last.
            limits.salvage(&[&input[..], &[0xEE]].concat());
        }
    }
    // Many more stretches than a report has, and too long an input with them.
    let mut many = [&message_m()[..], &[0; 4]].concat().repeat(1_092);
    limits.salvage(&many);
    many.resize(MOST_BYTES + 1, 0);
    limits.salvage(&many);
}

/// Each fault, with good messages around.
fn faults(limits: &mut Limits) {
    for fault in FAULTS {
        for _ in 0..3 {
            let world = World::new(&mut limits.dice);
            let mut some = [(); 3].map(|()| message(&mut limits.dice, &world, 2));
            let input = with_faults(&mut limits.dice, &mut some, &[(1, fault)]);
            limits.salvage(&input);
        }
    }
    let m = message_m();
    for count in [1, 2, 3] {
        let counted = m_with_options(&[0x87, 6, 0, 0, 0, count, 0, 0]);
        limits.salvage(&[&m[..], &counted, &m].concat());
    }
    limits.salvage(&[m_with(3, &[0x90]), m.clone()].concat());
    // A length that reaches over the next message, but not over the input.
    limits.salvage(&[m_with(15, &[0x70]), m.clone()].concat());
    limits.salvage(&[m_with(15, &[0x74]), m].concat());
}

fn sizes(limits: &mut Limits) {
    for size in [65_531, 65_532, 65_533, 65_535, 65_536, 65_537, 65_540] {
        for byte in [0, 0xFF, 0x10] {
            limits.salvage(&vec![byte; size]);
        }
        let mut one = message_m();
        one.resize(size, 0xEE);
        limits.salvage(&one);
    }
    for words in [0, 1, 7, 10, 100, 101, 102, 103, 104, 105] {
        limits.salvage(&slow(words));
    }
    limits.next("salvage");
    let slow = slow(MOST_BYTES / 4);
    side_by_side::salvage(limits.judge, &mut limits.dice, &slow, 0);
    let world = World::new(&mut limits.dice);
    for style in [Style::Mixed, Style::OnePackageEach, Style::FewLarge] {
        let messages = messages_of_size(&mut limits.dice, &world, MOST_BYTES, style);
        let mut input = lay_all(&messages).0;
        limits.salvage(&input);
        input[0] = 0x20;
        limits.salvage(&input);
        let last = input.len() - 4;
        input[last..].fill(0xFF);
        limits.salvage(&input);
    }
}
