//! One function for each export: it calls the export and the second program
//! on the same input and has the judge compare them. It returns what the
//! export gave.

use crate::answers::{self, Answer};
use crate::dice::Dice;
use crate::drafts::OwnDraft;
use crate::exports;
use crate::judge::Judge;
use crate::lent::Lent;
use crate::lines::Handed;
use crate::measuring;
use crate::radio::MOST_FIELDS;
use crate::render::Draft;

// The exports' places in the judge's table.
const HEADER: usize = 0;
const PACKAGE: usize = 1;
const CHECK: usize = 2;
const WRITE: usize = 3;
const CLEAN: usize = 4;
const SHEET: usize = 5;
const COPY_MEASURE: usize = 6;
const COPY_WRITE: usize = 7;
const PURGE: usize = 8;
const RANDOMIZE: usize = 9;
const OPEN_BURST: usize = 10;
const READ_IDS: usize = 11;
const WRITE_IDS: usize = 12;
const STEP: usize = 13;
const SALVAGE: usize = 14;
const READ_CAPTURE: usize = 15;
const WRITE_CAPTURE: usize = 16;
const CUT: usize = 17;
const JOIN: usize = 18;
const READ_RADIO: usize = 19;
const RADIO_TLV: usize = 20;
const PUT_RADIO_TLV: usize = 21;
const WRITE_RADIO: usize = 22;
const LINK_ROW: usize = 23;

pub fn header(judge: &mut Judge, dice: &mut Dice, bytes: &[u8]) -> Answer<10> {
    let mut input = Lent::new(dice, bytes);
    let given = exports::header(input.lend());
    let expected = answers::header(bytes);
    judge.settle(HEADER, &[], expected, given, &[("input", &input)]);
    given.answer
}

pub fn package(judge: &mut Judge, dice: &mut Dice, run: &[u8], at: usize) -> Answer<9> {
    let mut input = Lent::new(dice, run);
    let given = exports::package(input.lend(), at);
    let expected = answers::package(run, at);
    judge.settle(PACKAGE, &[("at", at as u64)], expected, given, &[("run", &input)]);
    given.answer
}

pub fn check(judge: &mut Judge, dice: &mut Dice, recording: &[u8]) -> Answer<3> {
    let mut input = Lent::new(dice, recording);
    let given = exports::check(input.lend());
    let expected = answers::check(recording);
    judge.settle(CHECK, &[], expected, given, &[("recording", &input)]);
    given.answer
}

pub fn write(
    judge: &mut Judge,
    dice: &mut Dice,
    draft: &OwnDraft,
    room: usize,
) -> (Answer<2>, Vec<u8>) {
    let draft: Draft = draft.borrowed();
    let mut options = Lent::new(dice, draft.options);
    let mut packages = Lent::new(dice, draft.packages);
    let mut out = Lent::buffer(dice, room);
    let given = exports::write(&draft, options.lend(), packages.lend(), out.lend());
    let expected = answers::write(&draft, out.expected());
    let buffers = [("options", &options), ("packages", &packages), ("out", &out)];
    let numbers = [
        ("flags", draft.flags.into()),
        ("message id", draft.message_id.into()),
        ("sequence number", draft.sequence.into()),
        ("seconds", draft.seconds.into()),
        ("nanoseconds", draft.nanoseconds.into()),
    ];
    judge.settle(WRITE, &numbers, expected, given, &buffers);
    (given.answer, out.content().to_vec())
}

pub fn clean(
    judge: &mut Judge,
    dice: &mut Dice,
    bytes: &[u8],
    room: usize,
) -> (Answer<2>, Vec<u8>) {
    let mut input = Lent::new(dice, bytes);
    let mut out = Lent::buffer(dice, room);
    let given = exports::clean(input.lend(), out.lend());
    let expected = answers::clean(bytes, out.expected());
    let buffers = [("input", &input), ("out", &out)];
    judge.settle(CLEAN, &[], expected, given, &buffers);
    (given.answer, out.content().to_vec())
}

pub fn sheet(judge: &mut Judge, dice: &mut Dice, sheet: &[u8]) -> Answer<290> {
    let mut input = Lent::new(dice, sheet);
    let given = exports::sheet(input.lend());
    let expected = answers::sheet(sheet);
    judge.settle(SHEET, &[], expected, given, &[("sheet", &input)]);
    given.answer
}

pub fn copy_measure(
    judge: &mut Judge,
    dice: &mut Dice,
    recording: &[u8],
    sheet: &[u8],
) -> Answer<4> {
    let mut input = Lent::new(dice, recording);
    let mut order = Lent::new(dice, sheet);
    let given = exports::copy_measure(input.lend(), order.lend());
    let expected = answers::copy_measure(recording, sheet);
    let buffers = [("recording", &input), ("sheet", &order)];
    judge.settle(COPY_MEASURE, &[], expected, given, &buffers);
    given.answer
}

/// The copy, written into a buffer with these bytes.
pub fn copy_write(
    judge: &mut Judge,
    dice: &mut Dice,
    recording: &[u8],
    sheet: &[u8],
    buffer: &[u8],
) -> (Answer<4>, Vec<u8>) {
    let mut input = Lent::new(dice, recording);
    let mut order = Lent::new(dice, sheet);
    let mut out = Lent::new(dice, buffer);
    let given = exports::copy_write(input.lend(), order.lend(), out.lend());
    let expected = answers::copy_write(recording, sheet, out.expected());
    let buffers = [("recording", &input), ("sheet", &order), ("out", &out)];
    judge.settle(COPY_WRITE, &[], expected, given, &buffers);
    (given.answer, out.content().to_vec())
}

/// The copy, measured and then written into a buffer of so many bytes. What
/// comes back is what writing gave.
pub fn copy(
    judge: &mut Judge,
    dice: &mut Dice,
    recording: &[u8],
    sheet: &[u8],
    room: usize,
) -> (Answer<4>, Vec<u8>) {
    let buffer = dice.bytes(room);
    let measured = copy_measure(judge, dice, recording, sheet);
    let written = copy_write(judge, dice, recording, sheet, &buffer);
    measuring::agree(judge, measured, written.0, room);
    written
}

/// The purge of the recording that fills the buffer. What comes back are the
/// answer and the whole buffer.
pub fn purge(
    judge: &mut Judge,
    dice: &mut Dice,
    recording: &[u8],
    sheet: &[u8],
) -> (Answer<2>, Vec<u8>) {
    let mut buffer = Lent::new(dice, recording);
    let mut order = Lent::new(dice, sheet);
    let given = exports::purge(buffer.lend(), order.lend());
    let expected = answers::purge(buffer.expected(), sheet);
    let buffers = [("buffer", &buffer), ("sheet", &order)];
    judge.settle(PURGE, &[], expected, given, &buffers);
    (given.answer, buffer.content().to_vec())
}

pub fn randomize(judge: &mut Judge, dice: &mut Dice, bytes: &[u8]) -> (Answer<1>, Vec<u8>) {
    let mut buffer = Lent::new(dice, bytes);
    let given = exports::randomize(buffer.lend());
    let expected = answers::randomize(buffer.expected());
    judge.settle(RANDOMIZE, &[], expected, given, &[("buffer", &buffer)]);
    (given.answer, buffer.content().to_vec())
}

pub fn open_burst(judge: &mut Judge, dice: &mut Dice, bytes: &[u8]) -> (Answer<2>, Vec<u8>) {
    let mut buffer = Lent::new(dice, bytes);
    let given = exports::open_burst(buffer.lend());
    let expected = answers::open_burst(buffer.expected());
    judge.settle(OPEN_BURST, &[], expected, given, &[("burst", &buffer)]);
    (given.answer, buffer.content().to_vec())
}

pub fn read_ids(judge: &mut Judge, dice: &mut Dice, line: &[u8]) -> Answer<66> {
    let mut input = Lent::new(dice, line);
    let given = exports::read_ids(input.lend());
    let expected = answers::read_ids(line);
    judge.settle(READ_IDS, &[], expected, given, &[("line", &input)]);
    given.answer
}

pub fn write_ids(
    judge: &mut Judge,
    dice: &mut Dice,
    handed: &Handed,
    room: usize,
) -> (Answer<2>, Vec<u8>) {
    let mut ends = Lent::new(dice, &handed.words());
    let mut out = Lent::buffer(dice, room);
    let given = exports::write_ids(ends.lend(), handed.count, out.lend());
    let expected = answers::write_ids(&handed.ranges, handed.count, out.expected());
    let buffers = [("ends", &ends), ("out", &out)];
    judge.settle(WRITE_IDS, &[("count", handed.count as u64)], expected, given, &buffers);
    (given.answer, out.content().to_vec())
}

/// What a step gets: input, sheet, quota, and the state as the bytes of its words.
#[derive(Clone, Copy, Debug)]
pub struct Step<'a> {
    pub input: &'a [u8],
    pub sheet: &'a [u8],
    pub quota: usize,
    pub state: &'a [u8],
}

/// One step into a buffer with these bytes. What comes back are the answer, the
/// whole buffer and the state.
pub fn step(
    judge: &mut Judge,
    dice: &mut Dice,
    step: Step,
    buffer: &[u8],
) -> (Answer<6>, Vec<u8>, Vec<u8>) {
    let mut input = Lent::new(dice, step.input);
    let mut sheet = Lent::new(dice, step.sheet);
    let mut state = Lent::new(dice, step.state);
    let mut out = Lent::new(dice, buffer);
    let given = exports::step(input.lend(), sheet.lend(), step.quota, state.lend(), out.lend());
    let expected =
        answers::step(step.input, step.sheet, step.quota, state.expected(), out.expected());
    let buffers = [("input", &input), ("sheet", &sheet), ("state", &state), ("out", &out)];
    judge.settle(STEP, &[("quota", step.quota as u64)], expected, given, &buffers);
    (given.answer, out.content().to_vec(), state.content().to_vec())
}

/// The salvage of an input into a buffer of so many bytes.
pub fn salvage(
    judge: &mut Judge,
    dice: &mut Dice,
    input: &[u8],
    room: usize,
) -> (Answer<132>, Vec<u8>) {
    let mut lent = Lent::new(dice, input);
    let mut out = Lent::buffer(dice, room);
    let given = exports::salvage(lent.lend(), out.lend());
    let expected = answers::salvage(input, out.expected());
    judge.settle(SALVAGE, &[], expected, given, &[("input", &lent), ("out", &out)]);
    (given.answer, out.content().to_vec())
}

/// Reads a capture into a buffer of so many bytes.
pub fn read_capture(
    judge: &mut Judge,
    dice: &mut Dice,
    file: &[u8],
    port: u16,
    room: usize,
) -> (Answer<6>, Vec<u8>) {
    let mut input = Lent::new(dice, file);
    let mut out = Lent::buffer(dice, room);
    let given = exports::read_capture(input.lend(), port, out.lend());
    let expected = answers::read_capture(file, port, out.expected());
    let buffers = [("file", &input), ("out", &out)];
    judge.settle(READ_CAPTURE, &[("port", port.into())], expected, given, &buffers);
    (given.answer, out.content().to_vec())
}

/// Writes a recording as a capture into a buffer of so many bytes.
pub fn write_capture(
    judge: &mut Judge,
    dice: &mut Dice,
    recording: &[u8],
    port: u16,
    room: usize,
) -> (Answer<3>, Vec<u8>) {
    let mut input = Lent::new(dice, recording);
    let mut out = Lent::buffer(dice, room);
    let given = exports::write_capture(input.lend(), port, out.lend());
    let expected = answers::write_capture(recording, port, out.expected());
    let buffers = [("recording", &input), ("out", &out)];
    judge.settle(WRITE_CAPTURE, &[("port", port.into())], expected, given, &buffers);
    (given.answer, out.content().to_vec())
}

/// Cuts a message into a buffer of so many bytes.
pub fn cut(
    judge: &mut Judge,
    dice: &mut Dice,
    message: &[u8],
    size: usize,
    room: usize,
) -> (Answer<3>, Vec<u8>) {
    let mut input = Lent::new(dice, message);
    let mut out = Lent::buffer(dice, room);
    let given = exports::cut(input.lend(), size, out.lend());
    let expected = answers::cut(message, size, out.expected());
    let buffers = [("message", &input), ("out", &out)];
    judge.settle(CUT, &[("size", size as u64)], expected, given, &buffers);
    (given.answer, out.content().to_vec())
}

/// Joins fragments into a buffer of so many bytes.
pub fn join(
    judge: &mut Judge,
    dice: &mut Dice,
    fragments: &[u8],
    room: usize,
) -> (Answer<2>, Vec<u8>) {
    let mut input = Lent::new(dice, fragments);
    let mut out = Lent::buffer(dice, room);
    let given = exports::join(input.lend(), out.lend());
    let expected = answers::join(fragments, out.expected());
    let buffers = [("fragments", &input), ("out", &out)];
    judge.settle(JOIN, &[], expected, given, &buffers);
    (given.answer, out.content().to_vec())
}

pub fn read_radio(judge: &mut Judge, dice: &mut Dice, bytes: &[u8]) -> Answer<5> {
    let mut input = Lent::new(dice, bytes);
    let given = exports::read_radio(input.lend());
    let expected = answers::read_radio(bytes);
    judge.settle(READ_RADIO, &[], expected, given, &[("message", &input)]);
    given.answer
}

/// One step over the TLVs of a message.
pub fn radio_tlv(judge: &mut Judge, dice: &mut Dice, message: &[u8], at: usize) -> Answer<14> {
    let mut input = Lent::new(dice, message);
    let given = exports::radio_tlv(input.lend(), at);
    let expected = answers::radio_tlv(message, at);
    judge.settle(RADIO_TLV, &[("at", at as u64)], expected, given, &[("message", &input)]);
    given.answer
}

/// Steps over the TLVs of a message from this place on, following the places that the
/// export gives. What comes back are the types and fields of the TLVs shown, and where
/// the last step was.
pub fn radio_walk(
    judge: &mut Judge,
    dice: &mut Dice,
    message: &[u8],
    start: usize,
) -> (Vec<Shown>, usize) {
    let mut input = Lent::new(dice, message);
    let (mut shown, mut at) = (Vec::new(), start);
    // A message has no more TLVs than this, so a walk that hangs is caught.
    for _ in 0..=message.len() / 4 {
        let given = exports::radio_tlv(input.lend(), at);
        let expected = answers::radio_tlv(message, at);
        let message_part = [("message", &input)];
        let buffers = if expected == given.answer { &[][..] } else { &message_part };
        judge.settle(RADIO_TLV, &[("at", at as u64)], expected, given, buffers);
        let [_, kind, next, fields @ ..] = given.answer.values;
        if given.answer.number != 0 || kind == 0 {
            break;
        }
        shown.push((kind as u32, fields));
        at = next as usize;
    }
    judge.untouched("message", &input);
    (shown, at)
}

/// The type of a TLV and the fields that are told of it, zero behind the last.
pub type Shown = (u32, [u64; MOST_FIELDS]);

/// Puts a TLV at this place of a buffer with these bytes.
pub fn put_radio_tlv(
    judge: &mut Judge,
    dice: &mut Dice,
    (kind, fields): &Shown,
    at: usize,
    buffer: &[u8],
) -> (Answer<2>, Vec<u8>) {
    let mut out = Lent::new(dice, buffer);
    let given = exports::put_radio_tlv(*kind, fields, out.lend(), at);
    let expected = answers::put_radio_tlv(*kind, fields, out.expected(), at);
    let mut numbers = vec![("at", at as u64), ("type", (*kind).into())];
    numbers.extend(fields.map(|field| ("field", field)));
    judge.settle(PUT_RADIO_TLV, &numbers, expected, given, &[("out", &out)]);
    (given.answer, out.content().to_vec())
}

/// Writes a message with this destination, source and sequence number from a run of TLVs
/// into a buffer of so many bytes.
pub fn write_radio(
    judge: &mut Judge,
    dice: &mut Dice,
    header: (u16, u16, u32),
    run: &[u8],
    room: usize,
) -> (Answer<2>, Vec<u8>) {
    let mut input = Lent::new(dice, run);
    let mut out = Lent::buffer(dice, room);
    let given = exports::write_radio(header, input.lend(), out.lend());
    let expected = answers::write_radio(header, run, out.expected());
    let numbers = [
        ("destination", header.0.into()),
        ("source", header.1.into()),
        ("sequence number", header.2.into()),
    ];
    judge.settle(WRITE_RADIO, &numbers, expected, given, &[("run", &input), ("out", &out)]);
    (given.answer, out.content().to_vec())
}

/// The row of a link metric. What comes back are its doubles, and what the readings are.
pub fn link_row(
    judge: &mut Judge,
    frequency: u16,
    rssi: i8,
    cinr: i8,
    errors: u8,
) -> ([f64; 4], [u64; 3]) {
    let given = exports::link_row(frequency, rssi, cinr, errors);
    let expected = answers::link_row(frequency, rssi, cinr, errors);
    let numbers = [
        ("frequency", frequency.into()),
        ("RSSI as its byte", (rssi as u8).into()),
        ("CINR as its byte", (cinr as u8).into()),
        ("error rate", errors.into()),
    ];
    judge.settle(LINK_ROW, &numbers, expected, given, &[]);
    let [megahertz, rssi, cinr, rate, kinds @ ..] = given.answer.values;
    ([megahertz, rssi, cinr, rate].map(f64::from_bits), kinds)
}

/// Walks over the packages of a run from this place on, following the places
/// that the export gives, and returns the values of the steps that showed one.
pub fn walk(judge: &mut Judge, dice: &mut Dice, run: &[u8], start: usize) -> Vec<[u64; 9]> {
    let mut input = Lent::new(dice, run);
    let mut shown = Vec::new();
    let mut at = start;
    // A run has no more packages than this, so a walk that hangs is caught.
    for _ in 0..=run.len() / 12 + 1 {
        let given = exports::package(input.lend(), at);
        let expected = answers::package(run, at);
        // The run is looked at again only where something differs, and last.
        let run_part = [("run", &input)];
        let told = if expected == given.answer { &[][..] } else { &run_part };
        judge.settle(PACKAGE, &[("at", at as u64)], expected, given, told);
        let values = given.answer.values;
        if given.answer.number != 0 || values[1] == 0 {
            break;
        }
        shown.push(values);
        at = values[8] as usize;
    }
    judge.untouched("run", &input);
    shown
}
