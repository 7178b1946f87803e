//! RF network messages, good, dirty and damaged, and records to be written.

use crate::damage::change_blindly;
use crate::dice::Dice;
use crate::radio::*;
use crate::refusal::MOST_BYTES;

/// Sub-seconds, often at a limit.
fn subseconds(dice: &mut Dice) -> u32 {
    let spread = dice.below(1_000_000) as u32;
    dice.pick(&[0, 1, 65_535, 65_536, 524_288, 999_998, 999_999, spread, spread])
}

pub fn short(dice: &mut Dice) -> u16 {
    let spread = dice.word() as u16;
    dice.pick(&[0, 1, 3, 4, 255, 256, 0x7FFF, 0x8000, 0xFFFF, spread, spread])
}

fn small(dice: &mut Dice) -> u8 {
    let spread = dice.byte();
    dice.pick(&[0, 1, 127, 128, 129, 255, spread, spread])
}

fn seconds(dice: &mut Dice) -> u8 {
    let spread = dice.below(64) as u8;
    dice.pick(&[0, 63, spread])
}

/// A good TLV of any type.
pub fn good_tlv(dice: &mut Dice) -> Tlv {
    match dice.below(4) {
        0 => Tlv::TxOp(TxOp {
            frequency: short(dice),
            id: short(dice),
            timeout: small(dice),
            start: subseconds(dice),
            stop: subseconds(dice),
        }),
        1 => Tlv::Heartbeat { timeout: short(dice) },
        2 => Tlv::LinkMetric(LinkMetric {
            seconds: seconds(dice),
            microseconds: subseconds(dice),
            frequency: short(dice),
            rssi: small(dice) as i8,
            cinr: small(dice) as i8,
            error_rate: small(dice),
        }),
        _ => Tlv::TeQueues(TeQueues {
            seconds: seconds(dice),
            subseconds: subseconds(dice),
            mslpid: dice.edge(),
            levels: std::array::from_fn(|_| short(dice)),
        }),
    }
}

fn message_of(dice: &mut Dice, tlvs: Vec<Tlv>) -> RadioMessage {
    RadioMessage { destination: short(dice), source: short(dice), sequence: dice.edge(), tlvs }
}

/// A good message with some TLVs, seldom with very many.
pub fn good_message(dice: &mut Dice) -> RadioMessage {
    let count = match dice.below(40) {
        0 => dice.within(1_000, 2_400),
        1..=8 => dice.within(5, 40),
        _ => dice.within(1, 4),
    };
    let tlvs = (0..count).map(|_| good_tlv(dice)).collect();
    message_of(dice, tlvs)
}

/// A message's record, mostly good; some have bad TLVs, none at all, or too many.
pub fn any_message(dice: &mut Dice) -> RadioMessage {
    let mut message = good_message(dice);
    match dice.below(12) {
        0 => message.tlvs.clear(),
        1..=3 => {
            for _ in 0..dice.within(1, 3) {
                let at = dice.below(message.tlvs.len());
                make_bad(dice, &mut message.tlvs[at]);
            }
        }
        4 if dice.chance(1, 4) => {
            let many = dice.within(16_379, 16_390);
            message.tlvs.resize(many, Tlv::Heartbeat { timeout: 7 });
        }
        _ => {}
    }
    message
}

/// Gives a TLV's record a number that may not stand there, if it can have one.
fn make_bad(dice: &mut Dice, tlv: &mut Tlv) {
    let spread = dice.within(1_000_000, u32::MAX as usize) as u32;
    let late = dice.pick(&[1_000_000, 1_000_001, 1_048_575, 1_048_576, u32::MAX, spread]);
    let above = dice.pick(&[64, 65, 127, 128, 255]);
    let either = dice.chance(1, 2);
    match tlv {
        Tlv::TxOp(txop) if either => txop.start = late,
        Tlv::TxOp(txop) => txop.stop = late,
        Tlv::Heartbeat { .. } => {}
        Tlv::LinkMetric(metric) if either => metric.microseconds = late,
        Tlv::LinkMetric(metric) => metric.seconds = above,
        Tlv::TeQueues(queues) if either => queues.subseconds = late,
        Tlv::TeQueues(queues) => queues.seconds = above,
    }
}

/// A TLV's bytes, with these bits where the reserved ones are.
pub fn lay_tlv(tlv: &Tlv, dirt: u8) -> Vec<u8> {
    let mut body = Vec::new();
    match *tlv {
        Tlv::TxOp(TxOp { frequency, id, timeout, start, stop }) => {
            body.extend(frequency.to_be_bytes());
            body.push(0x80);
            body.extend(id.to_be_bytes());
            body.push(timeout);
            let both = u64::from(start) << 20 | u64::from(stop);
            body.extend(&both.to_be_bytes()[3..]);
        }
        Tlv::Heartbeat { timeout } => body.extend(timeout.to_be_bytes()),
        Tlv::LinkMetric(metric) => {
            let time = u32::from(metric.seconds) << 20 | metric.microseconds;
            body.extend((u32::from(dirt & 63) << 26 | time).to_be_bytes());
            body.extend(metric.frequency.to_be_bytes());
            body.extend(metric.rssi.to_be_bytes());
            body.extend(metric.cinr.to_be_bytes());
            body.push(metric.error_rate);
        }
        Tlv::TeQueues(queues) => {
            body.push(dirt & 0xC0 | queues.seconds);
            let sub = u32::from(dirt & 15) << 20 | queues.subseconds;
            body.extend(&sub.to_be_bytes()[1..]);
            body.extend(queues.mslpid.to_be_bytes());
            body.push(0);
            body.extend(queues.levels.iter().flat_map(|level| level.to_be_bytes()));
        }
    }
    let mut bytes = vec![tlv.kind(), 2 + body.len() as u8];
    bytes.extend(body);
    bytes
}

/// A message's bytes, TLV by TLV, with a length to suit.
pub fn lay(message: &RadioMessage, tlvs: &[Vec<u8>]) -> Vec<u8> {
    let payload = tlvs.concat();
    let mut bytes = ((8 + payload.len()) as u16).to_be_bytes().to_vec();
    bytes.extend(message.destination.to_be_bytes());
    bytes.extend(message.source.to_be_bytes());
    bytes.extend(message.sequence.to_be_bytes());
    bytes.extend(payload);
    bytes
}

/// A good message's bytes with dirt in its reserved bits.
pub fn lay_dirty(dice: &mut Dice, message: &RadioMessage) -> Vec<u8> {
    let dirty = dice.chance(4, 5);
    let mut tlvs = Vec::new();
    for tlv in &message.tlvs {
        let dirt = if dirty { dice.byte() } else { 0 };
        tlvs.push(lay_tlv(tlv, dirt));
    }
    lay(message, &tlvs)
}

/// Bytes of a message: good and dirty, with aimed faults, or blindly changed.
pub fn any_bytes(dice: &mut Dice) -> Vec<u8> {
    let message = good_message(dice);
    match dice.below(10) {
        0..=3 => lay_dirty(dice, &message),
        4..=6 => {
            let mut tlvs = Vec::new();
            for tlv in &message.tlvs {
                tlvs.push(lay_tlv(tlv, dice.byte()));
            }
            for _ in 0..dice.pick(&[1, 1, 2, 3]) {
                let at = dice.below(tlvs.len());
                break_tlv(dice, &mut tlvs[at]);
            }
            lay(&message, &tlvs)
        }
        7 => {
            let mut bytes = lay_dirty(dice, &message);
            break_length(dice, &mut bytes);
            bytes
        }
        8 => {
            let mut bytes = lay_dirty(dice, &message);
            change_blindly(dice, &mut bytes);
            if dice.chance(1, 2) {
                refit(&mut bytes);
            }
            bytes
        }
        _ => {
            // The last TLV is cut, and the length says so.
            let mut bytes = lay_dirty(dice, &message);
            let gone = dice.within(1, 27);
            bytes.truncate(bytes.len().saturating_sub(gone));
            refit(&mut bytes);
            bytes
        }
    }
}

/// A run of TLVs to be written: what stands behind a message's header, good or bad, and
/// seldom nothing or too much.
pub fn any_run(dice: &mut Dice) -> Vec<u8> {
    match dice.below(30) {
        0 => Vec::new(),
        1 => {
            let size = MOST_BYTES - RADIO_HEADER_BYTES - 2 + dice.below(5);
            tlvs_of_size(size).iter().flat_map(|tlv| lay_tlv(tlv, 0xFF)).collect()
        }
        _ => any_bytes(dice).get(RADIO_HEADER_BYTES..).unwrap_or_default().to_vec(),
    }
}

/// A type and fields to be put, good or bad, with anything behind the type's own fields.
pub fn any_shown(dice: &mut Dice) -> (u32, [u64; MOST_FIELDS]) {
    let mut tlv = good_tlv(dice);
    if dice.chance(1, 4) {
        make_bad(dice, &mut tlv);
    }
    let (mut kind, told) = (u32::from(tlv.kind()), tlv.told());
    let mut fields = std::array::from_fn(|_| dice.pick(&[0, 1, u64::MAX, 0x1_0000_0000]));
    fields[..told.len()].copy_from_slice(&told);
    match dice.below(8) {
        0 => kind = dice.pick(&[0, 2, 3, 4, 7, 9, 11, 257, 0x0100_0006, u32::MAX]),
        1 | 2 => {
            // A field above its width, by one bit or by all.
            let at = dice.below(told.len());
            let width = handed_widths(kind).map_or(64, |widths| widths[at]);
            fields[at] = dice.pick(&[1 << width, fields[at] | 1 << width, 1 << 63, u64::MAX]);
        }
        _ => {}
    }
    (kind, fields)
}

/// Sets the length field to suit the bytes.
pub fn refit(bytes: &mut [u8]) {
    if bytes.len() >= 2 {
        let rest = (bytes.len() - 2) as u16;
        bytes[..2].copy_from_slice(&rest.to_be_bytes());
    }
}

fn break_length(dice: &mut Dice, bytes: &mut Vec<u8>) {
    let rest = (bytes.len() - 2) as u16;
    let length = match dice.below(6) {
        0 => rest.wrapping_add(2),
        1 => rest.wrapping_sub(2),
        2 => rest.wrapping_add(1),
        3 => rest.wrapping_sub(1),
        4 => dice.pick(&[0, 8, 10, 65_535]),
        _ => {
            // The message is whole, but the input goes on or stops.
            if dice.chance(1, 2) {
                bytes.extend(dice.some_bytes(1, 12));
            } else {
                bytes.truncate(dice.below(bytes.len()));
            }
            return;
        }
    };
    bytes[..2].copy_from_slice(&length.to_be_bytes());
}

/// Breaks one rule in a TLV's bytes.
pub fn break_tlv(dice: &mut Dice, tlv: &mut Vec<u8>) {
    let late = dice.pick(&[1_000_000_u32, 1_000_001, 1_048_575, 1_040_000]);
    match dice.below(6) {
        0 => tlv[0] = dice.pick(&[0, 2, 3, 4, 7, 8, 9, 11, 0x81, 255]),
        1 => tlv[0] = dice.pick(&[TXOP, HEARTBEAT, LINK_METRIC, TE_QUEUES]),
        2 => tlv[1] = dice.pick(&[0, 1, 2, 4, 9, 11, 13, 25, 27, 255]),
        3 => {
            // The bytes are more or fewer than the length says.
            if dice.chance(1, 2) {
                tlv.pop();
            } else {
                tlv.push(dice.byte());
            }
        }
        _ => break_number(dice, tlv, late),
    }
}

/// Puts a number that may not stand there into a TLV that can have one.
fn break_number(dice: &mut Dice, tlv: &mut [u8], late: u32) {
    match (tlv[0], tlv.len()) {
        (TXOP, 13) => match dice.below(3) {
            0 => tlv[4] = dice.pick(&[0, 1, 0x7F, 0x81, 0xC0, 0xFF]),
            1 => {
                tlv[8..10].copy_from_slice(&((late >> 4) as u16).to_be_bytes());
                tlv[10] = tlv[10] & 15 | (late << 4) as u8;
            }
            _ => {
                tlv[10] = tlv[10] & 0xF0 | (late >> 16) as u8;
                tlv[11..13].copy_from_slice(&(late as u16).to_be_bytes());
            }
        },
        (LINK_METRIC, 11) => {
            tlv[3] = tlv[3] & 0xF0 | (late >> 16) as u8;
            tlv[4..6].copy_from_slice(&(late as u16).to_be_bytes());
        }
        (TE_QUEUES, 27) => {
            if dice.chance(1, 2) {
                tlv[10] = dice.pick(&[1, 2, 128, 255]);
            } else {
                tlv[3] = tlv[3] & 0xF0 | (late >> 16) as u8;
                tlv[4..6].copy_from_slice(&(late as u16).to_be_bytes());
            }
        }
        _ => {}
    }
}

/// One good TLV of each type.
pub fn one_of_each() -> [Tlv; 4] {
    [
        Tlv::TxOp(TxOp { frequency: 0x1234, id: 0x5678, timeout: 0x9A, start: 1, stop: 999_999 }),
        Tlv::Heartbeat { timeout: 0xFFFF },
        Tlv::LinkMetric(LinkMetric {
            seconds: 63,
            microseconds: 999_999,
            frequency: 0xFEDC,
            rssi: -127,
            cinr: 127,
            error_rate: 255,
        }),
        Tlv::TeQueues(TeQueues {
            seconds: 63,
            subseconds: 999_999,
            mslpid: 0x8765_4321,
            levels: [0, 1, 2, 3, 0x100, 0x7FFF, 0x8000, 0xFFFF],
        }),
    ]
}

/// A header, and no TLV yet.
pub fn plain() -> RadioMessage {
    RadioMessage { destination: 0x1122, source: 0x3344, sequence: 0x5566_7788, tlvs: Vec::new() }
}

/// Good TLVs of together so many bytes, which are at least 40.
pub fn tlvs_of_size(size: usize) -> Vec<Tlv> {
    let [txop, heartbeat, metric, queues] = one_of_each();
    // 13, 22 and 11 are 1, 2 and 3 more than a multiple of 4.
    let mut tlvs = match size % 4 {
        0 => vec![],
        1 => vec![txop],
        2 => vec![metric, metric],
        _ => vec![queues],
    };
    let odd: usize = tlvs.iter().map(Tlv::length).sum();
    tlvs.resize(tlvs.len() + (size - odd) / 4, heartbeat);
    tlvs
}

/// Records with a number that is just too great, or far too great.
pub fn bad_tlvs() -> Vec<Tlv> {
    let [txop, _, metric, queues] = one_of_each();
    let (Tlv::TxOp(txop), Tlv::LinkMetric(metric), Tlv::TeQueues(queues)) = (txop, metric, queues)
    else {
        unreachable!("the four TLVs stand in this order")
    };
    let mut bad = Vec::new();
    for late in [1_000_000, 1_048_575, 1_048_576, u32::MAX] {
        bad.push(Tlv::TxOp(TxOp { start: late, ..txop }));
        bad.push(Tlv::TxOp(TxOp { stop: late, ..txop }));
        bad.push(Tlv::LinkMetric(LinkMetric { microseconds: late, ..metric }));
        bad.push(Tlv::TeQueues(TeQueues { subseconds: late, ..queues }));
    }
    for seconds in [64, 128, 255] {
        bad.push(Tlv::LinkMetric(LinkMetric { seconds, ..metric }));
        bad.push(Tlv::TeQueues(TeQueues { seconds, ..queues }));
    }
    bad
}
