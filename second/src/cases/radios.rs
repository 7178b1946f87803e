//! RF network messages to be read, stepped over, put together and written.

use super::needed;
use crate::dice::Dice;
use crate::judge::Judge;
use crate::lent::room_for;
use crate::radio::{write_run, RADIO_HEADER_BYTES};
use crate::tlvs::{any_bytes, any_run, any_shown, good_message, short};
use crate::{radio_trips, side_by_side};

/// Messages of more TLVs are put together one by one too slowly.
const MOST_PUT: usize = 60;

pub fn radio(judge: &mut Judge, dice: &mut Dice) {
    judge.kind("radio messages");
    let bytes = any_bytes(dice);
    side_by_side::read_radio(judge, dice, &bytes);
    let (inside, far) = (dice.below(bytes.len() + 1), dice.throw() as usize);
    let choices = [0, 9, RADIO_HEADER_BYTES, inside, bytes.len(), bytes.len() + 1, usize::MAX, far];
    let at = dice.pick(&choices);
    side_by_side::radio_tlv(judge, dice, &bytes, at);
    side_by_side::radio_walk(judge, dice, &bytes, RADIO_HEADER_BYTES);
    let run = any_run(dice);
    let header = (short(dice), short(dice), dice.edge());
    let room = needed(write_run(header, &run, &mut []));
    let room = room_for(dice, room);
    side_by_side::write_radio(judge, dice, header, &run, room);
    let shown = any_shown(dice);
    let spread = dice.below(60);
    let at = dice.pick(&[0, spread, spread, 65_500 + spread, usize::MAX, usize::MAX - spread, far]);
    let room = dice.pick(&[0, spread, 60, at.saturating_add(27).min(70_000)]);
    let buffer = dice.bytes(room);
    side_by_side::put_radio_tlv(judge, dice, &shown, at, &buffer);
}

pub fn radio_trips(judge: &mut Judge, dice: &mut Dice) {
    judge.kind("radio messages, read and written again");
    let mut message = good_message(dice);
    message.tlvs.truncate(MOST_PUT);
    radio_trips::radio_trips(judge, dice, &message);
    let bytes = any_bytes(dice);
    radio_trips::refused_at(judge, dice, &bytes);
}
