//! Inputs with something to salvage.

use super::{any_recording, needed};
use crate::blocks::{bad_blocks, nested, with_holes, BadBlock};
use crate::blocks::{BLOCK_PLACES, FILLS, LONGEST_BLOCK};
use crate::damage::damaged;
use crate::dice::Dice;
use crate::generate::{messages, World};
use crate::judge::Judge;
use crate::lent::room_for;
use crate::{salvaging, side_by_side};

/// An input with something to salvage.
fn broken_input(dice: &mut Dice) -> Vec<u8> {
    match dice.below(8) {
        0 => any_recording(dice).0,
        1 => {
            let world = World::new(dice);
            let messages = messages(dice, &world);
            damaged(dice, messages)
        }
        2 | 3 => nested(dice),
        4 => {
            let holes = dice.pick(&[3, 60, 63, 64, 65, 66, 70]);
            with_holes(dice, holes)
        }
        _ => bad_blocks(dice),
    }
}

pub fn salvage(judge: &mut Judge, dice: &mut Dice) {
    judge.kind("salvage");
    let input = broken_input(dice);
    let room = needed(crate::salvage::salvage(&input, &mut []).map(|salvaged| salvaged.bytes));
    let room = room_for(dice, room);
    side_by_side::salvage(judge, dice, &input, room);
}

pub fn salvaging(judge: &mut Judge, dice: &mut Dice) {
    judge.kind("what is salvaged, and what is skipped");
    let input = broken_input(dice);
    salvaging::salvaging(judge, dice, &input);
}

pub fn bad_block(judge: &mut Judge, dice: &mut Dice) {
    judge.kind("a bad block");
    let (place, fill) = (dice.pick(&BLOCK_PLACES), dice.pick(&FILLS));
    let length = dice.within(1, LONGEST_BLOCK);
    let block = BadBlock::new(dice, place, fill, length);
    salvaging::bad_block(judge, dice, &block);
}
