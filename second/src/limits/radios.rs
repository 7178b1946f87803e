//! RF network messages at and beside each limit.

use super::Limits;
use crate::radio::*;
use crate::radio_trips::{every_row, radio_trips, refused_at};
use crate::refusal::MOST_BYTES;
use crate::side_by_side::{self, Shown};
use crate::tlvs::*;

const HEADER: (u16, u16, u32) = (0x1122, 0x3344, 0x5566_7788);

impl Limits<'_> {
    /// A message, read and stepped over.
    fn radio(&mut self, bytes: &[u8]) {
        self.next("read_radio, radio_tlv");
        side_by_side::radio_walk(self.judge, &mut self.dice, bytes, RADIO_HEADER_BYTES);
        refused_at(self.judge, &mut self.dice, bytes);
    }

    fn write_radio(&mut self, run: &[u8], room: usize) {
        self.next("write_radio");
        side_by_side::write_radio(self.judge, &mut self.dice, HEADER, run, room);
    }

    fn put_radio_tlv(&mut self, shown: &Shown, at: usize, room: usize) {
        self.next("put_radio_tlv");
        let buffer = self.dice.bytes(room);
        side_by_side::put_radio_tlv(self.judge, &mut self.dice, shown, at, &buffer);
    }

    /// TLVs, read and written again.
    fn radio_trips(&mut self, tlvs: &[Tlv]) {
        self.next("radio messages, read and written again");
        let message = RadioMessage { tlvs: tlvs.to_vec(), ..plain() };
        radio_trips(self.judge, &mut self.dice, &message);
    }
}

pub fn radios(limits: &mut Limits) {
    limits.next("link_row");
    every_row(limits.judge);
    bits(limits);
    numbers(limits);
    lengths(limits);
    writing(limits);
    putting(limits);
    rooms(limits);
}

/// Each bit of each TLV alone, each type with each length, each pair of TLVs, and
/// messages cut at every length.
fn bits(limits: &mut Limits) {
    for first in one_of_each() {
        limits.radio_trips(&[first]);
        let bytes = lay(&plain(), &[lay_tlv(&first, 0xA5)]);
        for bit in 0..8 * bytes.len() {
            let mut changed = bytes.clone();
            changed[bit / 8] ^= 0x80 >> (bit % 8);
            limits.radio(&changed);
        }
        for byte in 0..=255 {
            let mut changed = bytes.clone();
            changed[10] = byte;
            limits.radio(&changed);
            changed[10] = bytes[10];
            changed[11] = byte;
            limits.radio(&changed);
            changed.resize(10 + usize::from(byte), 0);
            refit(&mut changed);
            limits.radio(&changed);
        }
        for second in one_of_each() {
            limits.radio_trips(&[first, second]);
            let bytes = lay(&plain(), &[first, second].map(|tlv| lay_tlv(&tlv, 0xFF)));
            for length in 0..=bytes.len() {
                let mut cut = bytes[..length].to_vec();
                limits.radio(&cut);
                refit(&mut cut);
                limits.radio(&cut);
            }
        }
    }
}

/// A TLV alone, and between a good one and a bad one.
fn among(limits: &mut Limits, tlv: Vec<u8>) {
    limits.radio(&lay(&plain(), std::slice::from_ref(&tlv)));
    let heartbeat = vec![HEARTBEAT, 4, 0xFF, 0xFF];
    limits.radio(&lay(&plain(), &[heartbeat, tlv, vec![0; 4]]));
}

/// Sub-seconds, seconds, the TxOp byte and the TE version around their limits.
fn numbers(limits: &mut Limits) {
    let [txop, _, metric, queues] = one_of_each().map(|tlv| lay_tlv(&tlv, 0xFF));
    for sub in [0, 1, 999_999, 1_000_000, 1_000_001, 1_048_575] {
        for other in [0, 999_999, 1_000_000] {
            for both in [sub << 20 | other, other << 20 | sub] {
                let mut tlv = txop.clone();
                tlv[8..].copy_from_slice(&u64::to_be_bytes(both)[3..]);
                among(limits, tlv);
            }
        }
        for second in [0, 1, 62, 63] {
            for dirt in [0, 63] {
                let mut tlv = metric.clone();
                let time = (dirt << 26 | second << 20 | sub) as u32;
                tlv[2..6].copy_from_slice(&time.to_be_bytes());
                among(limits, tlv);
                let mut tlv = queues.clone();
                tlv[2] = (dirt << 6 | second) as u8;
                let time = (dirt << 20 | sub) as u32;
                tlv[3..6].copy_from_slice(&time.to_be_bytes()[1..]);
                among(limits, tlv);
            }
        }
    }
    for byte in 0..=255 {
        let (mut of_txop, mut of_queues) = (txop.clone(), queues.clone());
        (of_txop[4], of_queues[10]) = (byte, byte);
        among(limits, of_txop);
        among(limits, of_queues);
    }
    // A later bad TLV does not count.
    for _ in 0..50 {
        let mut broken = [(); 4].map(|()| lay_tlv(&good_tlv(&mut limits.dice), 0));
        for at in [3, 1] {
            break_tlv(&mut limits.dice, &mut broken[at]);
            limits.radio(&lay(&plain(), &broken));
        }
    }
}

/// Every length field for a small message, and no TLV at all.
fn lengths(limits: &mut Limits) {
    let small = lay(&plain(), &[vec![HEARTBEAT, 4, 0, 0]]);
    for length in (0..=40).chain([256 + 12, 12 << 8, 65_535]) {
        let mut bytes = small.clone();
        bytes[..2].copy_from_slice(&u16::to_be_bytes(length));
        limits.radio(&bytes);
    }
    for length in 0..=24 {
        // Zero bytes with a length to suit: an empty payload, then type 0.
        let mut zeros = vec![0; length];
        limits.radio(&zeros);
        refit(&mut zeros);
        limits.radio(&zeros);
    }
    for length in [MOST_BYTES, MOST_BYTES + 1, MOST_BYTES + 2, 100_000] {
        limits.radio(&vec![0xFF; length]);
    }
    for at in [0, 9, 10, 11, 13, 14, 15, 65_536, usize::MAX] {
        for length in [13, 14] {
            limits.next("read_radio, radio_tlv");
            side_by_side::radio_tlv(limits.judge, &mut limits.dice, &small[..length], at);
        }
        limits.next("read_radio, radio_tlv");
        let large = vec![HEARTBEAT; MOST_BYTES + 1];
        side_by_side::radio_tlv(limits.judge, &mut limits.dice, &large, at);
    }
}

/// Messages of the greatest lengths, and the order LARGE, RADIO, ROOM.
fn writing(limits: &mut Limits) {
    for total in 65_530..=65_540 {
        let tlvs = tlvs_of_size(total - RADIO_HEADER_BYTES);
        let mut bytes = lay_dirty(&mut limits.dice, &RadioMessage { tlvs, ..plain() });
        let mut run = bytes.split_off(RADIO_HEADER_BYTES);
        for room in [0, total - 1, total, total + 1] {
            limits.write_radio(&run, room);
        }
        // The length field, right, and wrong by one or two.
        for wrong in [0, 1, 2, u16::MAX, u16::MAX - 1] {
            let length = ((total - 2) as u16).wrapping_add(wrong);
            let header = [&length.to_be_bytes()[..], &bytes[2..]].concat();
            limits.next("read_radio, radio_tlv");
            let message = [&header[..], &run].concat();
            side_by_side::read_radio(limits.judge, &mut limits.dice, &message);
        }
        run[0] = 2;
        limits.write_radio(&run, 0);
    }
    for room in [0, 10, 100] {
        limits.write_radio(&[], room);
    }
    for first in one_of_each() {
        for second in one_of_each() {
            let run = [first, second].map(|tlv| lay_tlv(&tlv, 0xFF)).concat();
            let needed = RADIO_HEADER_BYTES + run.len();
            for room in [0, needed / 2, needed - 1, needed, needed + 1, needed + 40] {
                limits.write_radio(&run, room);
            }
            // A run that is cut, or bad, and RADIO before ROOM.
            for length in 0..run.len() {
                limits.write_radio(&run[..length], 0);
            }
            for at in [0, 1, first.length(), first.length() + 1] {
                let mut bad = run.clone();
                bad[at] ^= 0x40;
                limits.write_radio(&bad, 0);
                limits.write_radio(&bad, 200);
            }
        }
    }
}

/// The fields of a TLV, with these numbers behind its own.
fn shown(tlv: &Tlv, behind: u64) -> Shown {
    let told = tlv.told();
    let mut fields = [behind; MOST_FIELDS];
    fields[..told.len()].copy_from_slice(&told);
    (tlv.kind().into(), fields)
}

/// Numbers that may not stand in a TLV, and fields above their widths.
fn putting(limits: &mut Limits) {
    for bad in bad_tlvs() {
        for (at, room) in [(0, 0), (0, 40), (30, 40), (65_520, 0), (65_536, 0), (usize::MAX, 0)] {
            limits.put_radio_tlv(&shown(&bad, 0), at, room);
        }
    }
    for tlv in one_of_each() {
        let (kind, fields) = shown(&tlv, u64::MAX);
        let widths = handed_widths(kind).unwrap_or_default();
        for (index, &width) in widths.iter().enumerate() {
            for bit in 0..64 {
                let mut changed = fields;
                changed[index] ^= 1 << bit;
                limits.put_radio_tlv(&(kind, changed), 5, 40);
            }
            let mut least = fields;
            least[index] = 1 << width;
            for at in [0, 65_536, usize::MAX] {
                limits.put_radio_tlv(&(kind, least), at, 0);
            }
        }
        for kind in (0..=300).chain([0x0100_0001, 0x8000_0005, u32::MAX]) {
            limits.put_radio_tlv(&(kind, fields), 3, 40);
        }
    }
}

/// Each TLV at and beside the end of its buffer, and of all that a message may have.
fn rooms(limits: &mut Limits) {
    for tlv in one_of_each() {
        let (shown, length) = (shown(&tlv, 7), tlv.length());
        for at in [0, 1, 10, 40] {
            for room in [0, at, at + length - 1, at + length, at + length + 1, 100] {
                limits.put_radio_tlv(&shown, at, room);
            }
        }
        let last = MOST_BYTES - length;
        for at in [last - 1, last, last + 1, MOST_BYTES, usize::MAX - length, usize::MAX] {
            for room in [0, MOST_BYTES - 1, MOST_BYTES, MOST_BYTES + 9] {
                limits.put_radio_tlv(&shown, at, room);
            }
        }
    }
}
