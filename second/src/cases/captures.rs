//! Captures to be read, and recordings to be written as captures.

use super::needed;
use crate::capture::{read_capture, write_capture};
use crate::dice::Dice;
use crate::judge::Judge;
use crate::lent::room_for;
use crate::packets::{any_file, any_port, mixed_file, recording_to_write};
use crate::{capturing, side_by_side};

pub fn capture(judge: &mut Judge, dice: &mut Dice) {
    judge.kind("captures");
    let port = any_port(dice);
    let file = any_file(dice, port);
    let room = needed(read_capture(&file, port, &mut []).map(|told| told.bytes));
    let room = room_for(dice, room);
    side_by_side::read_capture(judge, dice, &file, port, room);
    let recording = recording_to_write(dice);
    let room = needed(write_capture(&recording, port, &mut []).map(|told| told.bytes));
    let room = room_for(dice, room);
    side_by_side::write_capture(judge, dice, &recording, port, room);
}

pub fn capturing(judge: &mut Judge, dice: &mut Dice) {
    judge.kind("what is captured, and read again");
    let port = any_port(dice);
    let file = mixed_file(dice, port);
    capturing::reading(judge, dice, &file, port);
    let damaged = any_file(dice, port);
    capturing::both_orders(judge, dice, &damaged, port);
    let recording = recording_to_write(dice);
    capturing::written_and_read(judge, dice, &recording, port);
}
