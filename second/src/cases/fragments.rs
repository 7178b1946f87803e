//! Messages to be cut, and fragments to be joined.

use super::{first_message, needed};
use crate::damage::change_blindly;
use crate::dice::Dice;
use crate::fragments::{cut, join};
use crate::generate::{message, package_count, World};
use crate::judge::Judge;
use crate::lent::room_for;
use crate::pieces::*;
use crate::{fragmenting, side_by_side};

/// An input of which the first message is to be cut.
fn input_to_cut(dice: &mut Dice) -> Vec<u8> {
    let world = World::new(dice);
    match dice.below(6) {
        0 | 1 => first_message(dice),
        2 => {
            let packages = package_count(dice);
            message(dice, &world, packages).laid()
        }
        _ => {
            let mut input = message_to_cut(dice, &world).laid();
            if dice.chance(1, 4) {
                // What follows the first message does not count.
                input.extend(dice.some_bytes(1, 60));
            }
            input
        }
    }
}

/// An input to be joined: fragments, or one whole message.
fn input_to_join(dice: &mut Dice) -> Vec<u8> {
    let world = World::new(dice);
    let message = message_to_split(dice, &world);
    let parts = split(dice, &world, &message);
    match dice.below(12) {
        0 => first_message(dice),
        1 => {
            // One whole message and nothing behind it.
            let mut input = message.laid();
            if dice.chance(1, 3) {
                change_blindly(dice, &mut input);
            }
            input
        }
        2 => {
            let size = 4 * dice.within(1, 20);
            let mut fragments = vec![0; 80_000];
            let done = cut(&message.laid(), size, &mut fragments);
            fragments.truncate(done.map_or(0, |done| done.bytes));
            fragments
        }
        3..=5 => lay_fragments(&parts).0,
        6 => bad_header(dice, &parts),
        _ => {
            let way = dice.below(FRAGMENT_FAULTS);
            broken_fragments(dice, parts, way)
        }
    }
}

pub fn fragments(judge: &mut Judge, dice: &mut Dice) {
    judge.kind("fragments");
    let (input, size) = (input_to_cut(dice), any_size(dice));
    let room = needed(cut(&input, size, &mut []).map(|done| done.bytes));
    let room = room_for(dice, room);
    side_by_side::cut(judge, dice, &input, size, room);
    let input = input_to_join(dice);
    let room = needed(join(&input, &mut []));
    let room = room_for(dice, room);
    side_by_side::join(judge, dice, &input, room);
}

pub fn fragmenting(judge: &mut Judge, dice: &mut Dice) {
    judge.kind("what is cut, and joined again");
    let world = World::new(dice);
    let message = message_to_cut(dice, &world).laid();
    let words = dice.within(1, 40);
    let size = dice.pick(&[4, 8, 12, 16, 4 * words, 4 * words, 65_536]);
    fragmenting::cutting(judge, dice, &message, size);
    let input = input_to_join(dice);
    fragmenting::joining(judge, dice, &input);
}
