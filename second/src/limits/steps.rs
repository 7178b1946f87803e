//! Steps by quota at and beside each limit, and runs over some megabytes.

use super::Limits;
use crate::damage::{with_faults, FAULTS};
use crate::generate::*;
use crate::orders::*;
use crate::paper::{m_with, message_m, row_r};
use crate::refusal::MOST_BYTES;
use crate::runs::{any_state, state_of, words_of, Run};
use crate::sheet::Row;
use crate::side_by_side::{self, Step};
use crate::stepping::{equal_and_other, run};
use crate::steps::Running;

impl Limits<'_> {
    fn step(&mut self, state: &[Running], input: &[u8], sheet: &[u8], quota: usize, room: usize) {
        self.next("step");
        let (words, buffer) = (words_of(&mut self.dice, state), self.dice.bytes(room));
        let step = Step { input, sheet, quota, state: &words };
        side_by_side::step(self.judge, &mut self.dice, step, &buffer);
    }
}

pub fn steps(limits: &mut Limits) {
    let all = pack_sheet(&[everything()]);
    let bad_row = pack_row(&everything(), 2);
    let m = message_m();
    let broken = [m.clone(), m_with(29, &[11])].concat();
    let large = vec![0; MOST_BYTES + 1];
    let mut twice = state_of(1_000, 64);
    twice[63].message_id = 1_000;
    let full = state_of(1_000, 64);
    let mut with_m = state_of(0, 8);
    with_m[7].next = u32::MAX;
    // IDS, ROW, LARGE, the messages, IDS, ROOM.
    for state in [&Vec::new(), &state_of(5, 2), &with_m, &full, &state_of(1_000, 65), &twice] {
        for sheet in [&bad_row, &vec![0; 33], &all, &row_r(), &Vec::new()] {
            for input in [&large, &broken, &m, &[m.clone(), m.clone()].concat(), &Vec::new()] {
                for quota in [0, 1, 2, 3, usize::MAX] {
                    for room in [0, 55, 56, 112] {
                        limits.step(state, input, sheet, quota, room);
                    }
                }
            }
        }
    }
    quotas(limits);
    faults(limits);
    new_ids(limits);
    sizes(limits);
    for _ in 0..20 {
        limits.next("steps in turn, and the copy");
        equal_and_other(limits.judge, &mut limits.dice);
    }
    for size in [200_000, 1_000_000, 4_000_000] {
        let whole = Run::new(&mut limits.dice, size);
        limits.next("a long run of steps");
        run(limits.judge, &mut limits.dice, &whole);
    }
}

/// Junk, a cut message or too many bytes behind the messages of the quota.
fn quotas(limits: &mut Limits) {
    let (m, all) = (message_m(), pack_sheet(&[everything()]));
    let three = [m.clone(), m.clone(), m.clone()].concat();
    for behind in [&[0xEE; 1][..], &[0xEE; 23], &[0xEE; 40], &m[..40], &[0; 65_368], &[0; 65_369]] {
        let input = [&three[..], behind].concat();
        for quota in 0..=5 {
            for state in [&Vec::new(), &state_of(7, 1)] {
                limits.step(state, &input, &all, quota, 200);
            }
        }
    }
}

/// Each fault within the quota and behind it.
fn faults(limits: &mut Limits) {
    let all = pack_sheet(&[everything()]);
    for first in FAULTS {
        for second in FAULTS {
            let world = World::new(&mut limits.dice);
            let mut some: Vec<_> = (0..4).map(|_| message(&mut limits.dice, &world, 1)).collect();
            let input = with_faults(&mut limits.dice, &mut some, &[(1, first), (2, second)]);
            for quota in 1..=3 {
                limits.step(&[], &input, &all, quota, input.len());
            }
        }
    }
}

/// The 65th id among the delivered ones, after and before a fault.
fn new_ids(limits: &mut Limits) {
    let world = World::new(&mut limits.dice);
    let row = pack_sheet(&[Row { package_first: 1, package_last: 1, ..everything() }]);
    for known in [0, 1, 62, 63, 64] {
        let state = state_of(0, known);
        for messages in [62, 63, 64, 65, 66] {
            for withheld in [0, 1, 5] {
                let mut some = Vec::new();
                for number in 0..messages {
                    let mut one = message_of_size(&mut limits.dice, &world, 36);
                    (one.message_id, one.seconds) = (number as u32, 100);
                    one.packages[0].id = u32::from(number >= withheld);
                    some.push(one);
                }
                let mut input = lay_all(&some).0;
                for quota in [64, 65, 100] {
                    for room in [0, input.len()] {
                        limits.step(&state, &input, &row, quota, room);
                    }
                }
                // A bad message behind the one with the 65th id comes first.
                input.push(0);
                limits.step(&state, &input, &row, 100, 0);
            }
        }
        // Ids that are looked up and not delivered take no place.
        limits.step(&state_of(1_000, 64), &message_m(), &[], 9, 0);
    }
}

fn sizes(limits: &mut Limits) {
    let world = World::new(&mut limits.dice);
    let all = pack_sheet(&[everything()]);
    for style in [Style::Mixed, Style::OnePackageEach, Style::ManyIds, Style::FewLarge] {
        for size in [65_532, 65_536, 65_540] {
            let input = lay_all(&messages_of_size(&mut limits.dice, &world, size, style)).0;
            let state = any_state(&mut limits.dice, &world.message_ids);
            for quota in [0, 1, 64, 1_820, 1_821, 5_000] {
                limits.step(&state, &input, &all, quota, input.len());
            }
        }
    }
}
