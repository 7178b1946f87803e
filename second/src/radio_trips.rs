//! RF network messages, asked of the exports directly: what was written is read again,
//! what is read is written clean, and each double is the exact quotient.

use crate::answers::Answer;
use crate::dice::Dice;
use crate::judge::{dump, Judge};
use crate::radio::{RadioMessage, RADIO_HEADER_BYTES};
use crate::refusal::RADIO;
use crate::side_by_side::{self, Shown};
use crate::tlvs::{lay, lay_dirty, lay_tlv, refit};

fn told(what: &str, bytes: &[u8]) -> String {
    format!("  {what}\n{}", dump(bytes, 0))
}

/// The run that the export puts together from TLVs that were shown.
fn put_together(judge: &mut Judge, dice: &mut Dice, shown: &[Shown], length: usize) -> Vec<u8> {
    let (mut run, mut at) = (dice.bytes(length), 0);
    for one in shown {
        let (answer, out) = side_by_side::put_radio_tlv(judge, dice, one, at, &run);
        run = out;
        at += answer.values[1] as usize;
    }
    run
}

/// The message that the export writes with a header that was read and this run.
fn write(judge: &mut Judge, dice: &mut Dice, read: Answer<5>, run: &[u8]) -> Vec<u8> {
    let [_, destination, source, sequence, _] = read.values;
    let header = (destination as u16, source as u16, sequence as u32);
    let room = RADIO_HEADER_BYTES + run.len();
    let (answer, mut out) = side_by_side::write_radio(judge, dice, header, run, room);
    out.truncate(answer.values[1] as usize);
    out
}

/// Tries every claim on a good message, which is laid with dirt in its reserved bits.
pub fn radio_trips(judge: &mut Judge, dice: &mut Dice, message: &RadioMessage) {
    let dirty = lay_dirty(dice, message);
    let zeros: Vec<Vec<u8>> = message.tlvs.iter().map(|tlv| lay_tlv(tlv, 0)).collect();
    let clean = lay(message, &zeros);
    let read = side_by_side::read_radio(judge, dice, &dirty);
    let walk = side_by_side::radio_walk(judge, dice, &dirty, RADIO_HEADER_BYTES);
    let (shown, end) = &walk;
    let counted = read.number == 0 && *end == dirty.len() && shown.len() as u64 == read.values[4];
    judge.claim(counted, || told("the steps are not as many as the TLVs", &dirty));
    judge.trial("as many steps as TLVs", shown.len() > 1);
    // What is read is written again, from the numbers shown and from the dirty run.
    let run = &dirty[RADIO_HEADER_BYTES..];
    let put = put_together(judge, dice, shown, run.len());
    let from_shown = write(judge, dice, read, &put);
    let from_run = write(judge, dice, read, run);
    judge.claim(from_shown == clean && from_run == clean, || {
        told("what is read is not written with reserved bits zero", &dirty)
    });
    judge.trial("what is read is written with reserved bits zero", dirty != clean);
    // What is written is read again, and written again is the same.
    let again = side_by_side::read_radio(judge, dice, &from_run);
    let same = side_by_side::radio_walk(judge, dice, &from_run, RADIO_HEADER_BYTES) == walk;
    let twice = write(judge, dice, read, from_run.get(RADIO_HEADER_BYTES..).unwrap_or_default());
    judge.claim(again == read && same && twice == clean, || {
        told("what is written is read as another message", &dirty)
    });
    judge.trial("what is written is read again", message.tlvs.len() > 1);
}

/// A refusal stands at the header, or at the first TLV that is bad: the message up to
/// there is good, if it has a TLV, and the step there is refused.
pub fn refused_at(judge: &mut Judge, dice: &mut Dice, bytes: &[u8]) {
    let answer = side_by_side::read_radio(judge, dice, bytes);
    let place = answer.values[0] as usize;
    if answer.number != RADIO || place < RADIO_HEADER_BYTES {
        return;
    }
    let mut before = bytes.get(..place).unwrap_or_default().to_vec();
    refit(&mut before);
    let read = side_by_side::read_radio(judge, dice, &before);
    let step = side_by_side::radio_tlv(judge, dice, bytes, place);
    let good = (read.number == 0 || place == RADIO_HEADER_BYTES)
        && (step.number, step.values[0]) == (RADIO, place as u64);
    judge.claim(good, || told("a refusal is not at the first bad TLV", bytes));
    judge.trial("a refusal stands at the first bad TLV", place > RADIO_HEADER_BYTES);
}

/// Every field of a link metric: doubles times 4, 1 and 256 are the fields, a reading is
/// missing exactly at -128 or 0, and doubles grow with their fields, so no two are equal.
/// None of these products rounds.
pub fn every_row(judge: &mut Judge) {
    let mut last = -1.0;
    for frequency in 0..=u16::MAX {
        let (row, _) = side_by_side::link_row(judge, frequency, 0, 0, 0);
        let good = row[0] * 4.0 == f64::from(frequency) && row[0] > last;
        judge.claim(good, || format!("  frequency {frequency} is not {}\n", row[0]));
        last = row[0];
    }
    for field in i8::MIN..=i8::MAX {
        let other = field.wrapping_add(77);
        let (row, kinds) = side_by_side::link_row(judge, 9_000, field, other, field as u8);
        let level = |field: i8, double: f64, kind: u64| match field {
            i8::MIN => (double.to_bits(), kind) == (0, 0),
            _ => double == f64::from(field) && kind == 1,
        };
        let rate = match field as u8 {
            0 => (row[3].to_bits(), kinds[2]) == (0, 0),
            errors => row[3] * 256.0 == f64::from(errors) && kinds[2] == 2,
        };
        let good = level(field, row[1], kinds[0]) && level(other, row[2], kinds[1]) && rate;
        judge.claim(good, || format!("  the readings of {field} are {row:?}, {kinds:?}\n"));
    }
    judge.trial("each double is the exact quotient", true);
}
