//! Cutting and joining at and beside each limit.

use super::Limits;
use crate::damage::{with_faults, FAULTS};
use crate::fragmenting::{cutting, joining};
use crate::fragments::cut;
use crate::generate::*;
use crate::paper::{m_with, m_with_options, message_m};
use crate::pieces::*;
use crate::refusal::{MOST_BYTES, ROOM};
use crate::side_by_side;

impl Limits<'_> {
    fn cut(&mut self, message: &[u8], size: usize, room: usize) {
        self.next("cut");
        side_by_side::cut(self.judge, &mut self.dice, message, size, room);
    }

    fn join(&mut self, input: &[u8], room: usize) {
        self.next("join");
        side_by_side::join(self.judge, &mut self.dice, input, room);
    }

    fn cutting(&mut self, message: &[u8], size: usize) {
        self.next("what is cut, and joined again");
        cutting(self.judge, &mut self.dice, message, size);
    }

    fn joining(&mut self, input: &[u8]) {
        self.next("what is cut, and joined again");
        joining(self.judge, &mut self.dice, input);
    }
}

pub fn fragments(limits: &mut Limits) {
    sizes(limits);
    offsets(limits);
    cut_faults(limits);
    lengths(limits);
    whole_messages(limits);
    broken(limits);
    orders(limits);
    join_lengths(limits);
}

/// Every size around M's payload of 32 bytes.
fn sizes(limits: &mut Limits) {
    let m = message_m();
    for size in (0..=40).chain([usize::MAX, usize::MAX - 3, 65_536]) {
        for room in [0, 55, 56, 300] {
            limits.cut(&m, size, room);
            limits.cut(&m_with(3, &[0x90]), size, room);
        }
        limits.cutting(&m, size);
    }
    // Numbers go on modulo 2^32.
    for sequence in [0, u32::MAX - 8, u32::MAX - 1, u32::MAX] {
        for size in [4, 12, 28] {
            limits.cutting(&m_with(8, &sequence.to_be_bytes()), size);
        }
    }
    limits.cut(&[], 3, 0);
    limits.cut(&[], 4, 0);
}

/// An offset is refused even where nothing is cut, behind a bad size; one that is to be
/// added has to fit into 60 option bytes.
fn offsets(limits: &mut Limits) {
    let option_runs: [&[u8]; 6] = [
        &[0x86, 6, 0, 0, 0, 0, 0, 0],
        &[1, 2, 0x86, 6, 0, 0, 0, 0],
        &[0x80, 8, 0x86, 6, 0, 0, 0, 0],
        &[0, 0x86, 6, 0, 0, 0, 0, 0],
        &[0x87, 6, 0, 0, 0, 2, 0, 0xEE],
        &[0x87, 6, 0, 0, 0, 1, 0, 0xEE],
    ];
    for options in option_runs {
        for size in [0, 4, 6, 8, 28, 32, 36] {
            for room in [0, 400] {
                limits.cut(&m_with_options(options), size, room);
            }
            limits.cutting(&m_with_options(options), size);
        }
    }
    for run in 48..=60_usize {
        let mut options = vec![7; run];
        options.resize(run.next_multiple_of(4), 0);
        let message = m_with_options(&options);
        for size in [2, 4, 28, 32] {
            for room in [0, 400, 600] {
                limits.cut(&message, size, room);
            }
            limits.cutting(&message, size);
        }
    }
}

fn cut_faults(limits: &mut Limits) {
    for fault in FAULTS {
        let world = World::new(&mut limits.dice);
        let mut some = [(); 2].map(|()| message(&mut limits.dice, &world, 2));
        let input = with_faults(&mut limits.dice, &mut some, &[(0, fault)]);
        for size in [4, 6, 1_000] {
            limits.cut(&input, size, 2_000);
        }
        limits.joining(&input);
        let mut one = [message(&mut limits.dice, &world, 2)];
        let input = with_faults(&mut limits.dice, &mut one, &[(0, fault)]);
        limits.joining(&input);
    }
}

/// Messages of the least and the greatest length, and what follows them.
fn lengths(limits: &mut Limits) {
    let world = World::new(&mut limits.dice);
    for length in [24, 28, 36, 65_532, 65_536] {
        let mut input = message_of_size(&mut limits.dice, &world, length).laid();
        for size in [4, 32, 1_400, 32_756, 65_508, 65_512] {
            let room = match cut(&input, size, &mut []) {
                Err(refusal) if refusal.number == ROOM => refusal.place,
                _ => 64,
            };
            for room in [room - 1, room, room + 1] {
                limits.cut(&input, size, room);
            }
            // Many fragments take long to read one by one.
            if size > 4 || length < 1_000 {
                limits.cutting(&input, size);
            }
        }
        // What follows counts for LARGE alone.
        input.resize(MOST_BYTES, 0xEE);
        limits.cut(&input, 1_400, 70_000);
        input.push(0xEE);
        limits.cut(&input, 3, 70_000);
    }
}

/// One whole message: 9 and on at place 0, and nothing may stand behind it.
fn whole_messages(limits: &mut Limits) {
    let m = message_m();
    for room in [0, 55, 56, 57] {
        for length in [0, 1, 23, 24, 40, 55, 56] {
            limits.join(&m[..length], room);
        }
        for behind in [&[0xEE; 1][..], &m, &m[..24], &m_with(3, &[0x90]), &m_with(3, &[0xB0])] {
            limits.join(&[&m[..], behind].concat(), room);
        }
        for length in [0, 11, 12, 16, 17, 33] {
            limits.join(&m_with(29, &[length]), room);
        }
    }
    for flags in 0..=255 {
        limits.joining(&m_with(3, &[flags]));
    }
    for options in [[0x86, 6, 0, 0, 0, 9, 0, 0], [0x87, 6, 0, 0, 0, 1, 0, 0]] {
        limits.joining(&m_with_options(&options));
    }
}

/// Each way to go wrong, some times over.
fn broken(limits: &mut Limits) {
    for way in 0..FRAGMENT_FAULTS {
        for _ in 0..12 {
            let world = World::new(&mut limits.dice);
            let one = message_to_split(&mut limits.dice, &world);
            let parts = split(&mut limits.dice, &world, &one);
            limits.joining(&lay_fragments(&parts).0);
            let input = bad_header(&mut limits.dice, &parts);
            limits.joining(&input);
            let input = broken_fragments(&mut limits.dice, parts, way);
            limits.joining(&input);
        }
    }
}

/// Every stretch of the fragments of M, some orders of them, and the last one cut off.
fn orders(limits: &mut Limits) {
    let mut fragments = vec![0; 400];
    let done = cut(&message_m(), 8, &mut fragments).expect("M can be cut");
    fragments.truncate(done.bytes);
    let length = fragments.len() / 4;
    let part = |index: usize| &fragments[length * index..length * (index + 1)];
    for from in 0..4 {
        for to in from..=4 {
            limits.joining(&fragments[length * from..length * to]);
        }
        for second in 0..4 {
            for third in 0..4 {
                limits.joining(&[part(from), part(second), part(third), part(3)].concat());
            }
        }
    }
    for count in 0..length {
        limits.joining(&fragments[..3 * length + count]);
    }
    for room in [0, 55, 56, 57, 400] {
        limits.join(&fragments, room);
    }
    // Each bit of the fragments' headers and options alone.
    for bit in 0..8 * fragments.len() {
        if bit / 8 % length < 32 {
            let mut changed = fragments.clone();
            changed[bit / 8] ^= 0x80 >> (bit % 8);
            limits.join(&changed, 400);
        }
    }
}

/// Fragments up to 65,536 bytes together, and one word more.
fn join_lengths(limits: &mut Limits) {
    let world = World::new(&mut limits.dice);
    for length in [65_440, 65_472, 65_496, 65_500, 65_536] {
        let mut one = message_of_size(&mut limits.dice, &world, length);
        one.sequence = u32::MAX;
        // A second fragment takes 32 bytes more, and each offset 8.
        let mut fragments = vec![0; 70_000];
        let done = cut(&one.laid(), 40_000, &mut fragments).expect("it can be cut");
        fragments.truncate(done.bytes);
        for room in [0, length - 1, length, 70_000] {
            limits.join(&fragments, room);
        }
        limits.joining(&fragments);
    }
    for length in [65_536, 65_537] {
        limits.join(&vec![0; length], 10);
    }
}
