//! Captures at and beside each limit.

use super::Limits;
use crate::capture::*;
use crate::capturing::{both_orders, written_and_read};
use crate::damage::{with_faults, FAULTS};
use crate::generate::*;
use crate::packets::*;
use crate::paper::{m_with, m_with_options, message_m};
use crate::refusal::MOST_BYTES;
use crate::side_by_side;

const PORT: u16 = 0x1234;

impl Limits<'_> {
    fn read_capture(&mut self, file: &[u8], port: u16, room: usize) {
        self.next("read_capture");
        side_by_side::read_capture(self.judge, &mut self.dice, file, port, room);
    }

    fn write_capture(&mut self, recording: &[u8], port: u16, room: usize) {
        self.next("write_capture");
        side_by_side::write_capture(self.judge, &mut self.dice, recording, port, room);
    }

    /// A packet with M, without IP options and with nothing behind the datagram.
    fn packet_of_m(&mut self) -> DirtyPacket {
        plain_packet(&mut self.dice, PORT, message_m())
    }

    fn file(&mut self, packets: &[DirtyPacket]) -> Vec<u8> {
        file_of(&mut self.dice, packets.to_vec()).laid()
    }

    /// A file with this packet alone, and with room for its message.
    fn packet(&mut self, packet: &DirtyPacket) {
        let file = self.file(std::slice::from_ref(packet));
        self.read_capture(&file, PORT, file.len());
    }
}

pub fn captures(limits: &mut Limits) {
    files(limits);
    packets(limits);
    lengths(limits);
    data(limits);
    rooms(limits);
    writing(limits);
    faults(limits);
    great_messages(limits);
}

/// The file header's fields, and a small file cut at every length.
fn files(limits: &mut Limits) {
    for order in [Order::Big, Order::Little] {
        let packets = vec![limits.packet_of_m(), limits.packet_of_m()];
        let good = DirtyFile { order, ..file_of(&mut limits.dice, packets) };
        let bytes = good.laid();
        let mut some: Vec<Vec<u8>> = (0..=bytes.len()).map(|to| bytes[..to].to_vec()).collect();
        // Each bit of the file header and of the first record's alone.
        for bit in 0..8 * (FILE_HEADER_BYTES + RECORD_HEADER_BYTES) {
            let mut changed = bytes.clone();
            changed[bit / 8] ^= 0x80 >> (bit % 8);
            some.push(changed);
        }
        for (version, link_type) in [((2, 3), 1), ((2, 5), 1), ((4, 2), 1), ((2, 4), 0)] {
            some.push(DirtyFile { version, link_type, ..good.clone() }.laid());
        }
        some.push(DirtyFile { magic: 0xA1B2_3C4D, ..good.clone() }.laid());
        for length in [MOST_BYTES - 1, MOST_BYTES, MOST_BYTES + 1, MOST_BYTES + 16] {
            for _ in 0..3 {
                some.push(filled_to(&mut limits.dice, good.clone(), length));
            }
        }
        for file in some {
            limits.next("read_capture");
            both_orders(limits.judge, &mut limits.dice, &file, PORT);
        }
    }
    for length in [MOST_BYTES, MOST_BYTES + 1, 100_000] {
        limits.read_capture(&vec![0; length], PORT, 64);
    }
}

/// A packet captured to every length, and each bit of its headers alone.
fn packets(limits: &mut Limits) {
    for words in [0, 1, 10] {
        let mut packet = limits.packet_of_m();
        packet.ip_options = limits.dice.bytes(4 * words);
        packet.header_words = 5 + words as u8;
        refit(&mut packet);
        let length = packet.frame().len();
        for captured in 0..=length {
            for original in [captured, captured + 1, captured.saturating_sub(1), length] {
                let (captured, original) = (Some(captured), Some(original as u32));
                limits.packet(&DirtyPacket { captured, original, ..packet.clone() });
            }
        }
        let headers = ETHERNET_BYTES + packet.ip_header() + UDP_BYTES;
        let bytes = limits.file(std::slice::from_ref(&packet));
        for bit in 8 * 40..8 * (40 + headers) {
            let mut changed = bytes.clone();
            changed[bit / 8] ^= 0x80 >> (bit % 8);
            limits.read_capture(&changed, PORT, 60);
        }
        for header_words in 0..16 {
            let mut changed = DirtyPacket { header_words, ..packet.clone() };
            limits.packet(&changed);
            put_port_into_header(&mut changed);
            limits.packet(&changed);
        }
    }
    for port in [0, 1, 0x1200, 0x0034, 0x3412, 65_535] {
        let packet = DirtyPacket { to: port, ..limits.packet_of_m() };
        limits.packet(&packet);
        let file = limits.file(&[packet]);
        limits.read_capture(&file, port, 60);
    }
}

/// Every sort of IP and UDP length.
fn lengths(limits: &mut Limits) {
    for behind in [0, 1, 4] {
        let mut packet = limits.packet_of_m();
        packet.behind = vec![0x5A; behind];
        for total in (0..=100).chain([256, 65_535]) {
            for udp_length in [7, 8, 60, 63, 64, 65, 66, 68, 69] {
                limits.packet(&DirtyPacket { total, udp_length, ..packet.clone() });
            }
        }
    }
}

/// Data that is a message only nearly, each fault of one, and great messages.
fn data(limits: &mut Limits) {
    let m = message_m();
    let mut sorts = vec![Vec::new(), m.repeat(2), m_with(0, &[0x20]), m_with(29, &[11])];
    sorts.extend([23, 24, 40, 55].map(|length| m[..length].to_vec()));
    sorts.extend([1, 2, 3, 4].map(|behind| [m.clone(), vec![0; behind]].concat()));
    sorts.extend([0, 0x80, 0x90, 0xA0, 0xB0, 0xCF].map(|flags| m_with(3, &[flags])));
    sorts.extend([1, 2, 3].map(|count| m_with_options(&[0x87, 6, 0, 0, 0, count, 0, 0])));
    sorts.push(m_with(1, &[0xF0, 0xFF]));
    let world = World::new(&mut limits.dice);
    for fault in FAULTS {
        let mut one = [message(&mut limits.dice, &world, 2)];
        sorts.push(with_faults(&mut limits.dice, &mut one, &[(0, fault)]));
    }
    // The longest datagram that a file has room for, and of 65,504 bytes.
    for size in [65_452, 65_456, 65_496, 65_504] {
        sorts.push(message_of_size(&mut limits.dice, &world, size).laid());
    }
    for data in sorts {
        let packet = plain_packet(&mut limits.dice, PORT, data);
        limits.packet(&packet);
    }
}

fn rooms(limits: &mut Limits) {
    let packets = [(); 3].map(|()| limits.packet_of_m());
    for count in 0..=3 {
        let file = limits.file(&packets[..count]);
        let needed = 56 * count;
        for room in [0, needed / 2, needed.saturating_sub(1), needed, needed + 1, 70_000] {
            limits.read_capture(&file, PORT, room);
        }
        // A record that is cut comes before ROOM.
        limits.read_capture(&[&file[..], &[0; 15]].concat(), PORT, 0);
        let recording = message_m().repeat(count);
        let needed = 24 + 114 * count;
        for room in [0, needed / 2, needed - 1, needed, needed + 1, 70_000] {
            limits.write_capture(&recording, PORT, room);
        }
    }
}

fn writing(limits: &mut Limits) {
    let m = message_m();
    for port in [0, 1, 255, 256, 65_535] {
        limits.write_capture(&m, port, 138);
    }
    // Microseconds are rounded down.
    for nanoseconds in [0, 1, 999, 1_000, 1_999, 2_000, 999_998_999, 999_999_000, 999_999_999] {
        limits.write_capture(&m_with(20, &u32::to_be_bytes(nanoseconds)), PORT, 138);
    }
    for length in 0..=m.len() {
        limits.write_capture(&m[..length], PORT, 150);
    }
    // The shortest messages there are: the file is much longer than they.
    let many = [&[0x10][..], &[0; 14], &[24], &[0; 8]].concat().repeat(2_730);
    for room in [65_520, 223_883, 223_884, 223_885] {
        limits.write_capture(&many, PORT, room);
    }
    for length in [MOST_BYTES + 1, 100_000] {
        limits.write_capture(&vec![0; length], PORT, 0);
    }
    // Files at and just above the greatest length that is read again.
    for messages in 1..=3 {
        for size in (MOST_BYTES - 8..=MOST_BYTES + 8).step_by(4) {
            let last = size - 24 - 58 * messages - 24 * (messages - 1);
            let world = World::new(&mut limits.dice);
            let mut recording = many[..24 * (messages - 1)].to_vec();
            message_of_size(&mut limits.dice, &world, last / 4 * 4).lay(&mut recording);
            limits.next("what is captured, and read again");
            written_and_read(limits.judge, &mut limits.dice, &recording, PORT);
        }
    }
}

/// Each fault of a message, alone and with each other fault.
fn faults(limits: &mut Limits) {
    let world = World::new(&mut limits.dice);
    for first in FAULTS {
        for second in FAULTS {
            let mut three = [(); 3].map(|()| message(&mut limits.dice, &world, 2));
            let faults = [(1, first), (2, second)];
            let recording = with_faults(&mut limits.dice, &mut three, &faults);
            limits.write_capture(&recording, PORT, 0);
        }
    }
}

/// Messages at and above the 65,507 bytes of one datagram, alone and beside a
/// small one, with dirt that the clean form does not have.
fn great_messages(limits: &mut Limits) {
    let world = World::new(&mut limits.dice);
    for size in (65_496..=65_536).step_by(4) {
        let great = message_of_size(&mut limits.dice, &world, size).laid();
        for room in [0, 24 + 57 + size, 24 + 58 + size, 70_000] {
            limits.write_capture(&great, PORT, room);
        }
        for small in [24, 28, 32] {
            let small = message_of_size(&mut limits.dice, &world, small).laid();
            limits.write_capture(&[&small[..], &great].concat(), PORT, 70_000);
            limits.write_capture(&[&great[..], &small].concat(), PORT, 70_000);
        }
        // A bad message behind the great one comes first.
        limits.write_capture(&[&great[..], &[0; 24]].concat(), PORT, 70_000);
        // Option words that hold nothing: only the clean form has to fit.
        for words in [1, 8, 15] {
            let mut dirty = message_of_size(&mut limits.dice, &world, size - 4 * words);
            dirty.behind_options = vec![0; 4 * words];
            limits.write_capture(&dirty.laid(), PORT, 70_000);
        }
    }
}
