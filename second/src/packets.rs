//! Captures and recordings to be captured, good, dirty and damaged.

use crate::capture::*;
use crate::damage::{any_fault, change_blindly, damaged, with_faults};
use crate::dice::Dice;
use crate::generate::*;
use crate::refusal::MOST_BYTES;

pub fn any_port(dice: &mut Dice) -> u16 {
    let spread = dice.word() as u16;
    dice.pick(&[0, 1, 255, 256, 0x0800, 5_555, 55_555, 65_535, spread])
}

/// A packet with all its fields, right or wrong, and all that does not count.
#[derive(Clone, Debug)]
pub struct DirtyPacket {
    pub seconds: u32,
    pub microseconds: u32,
    pub stations: [u8; 12],
    pub kind: u16,
    pub version: u8,
    /// What the IP header says of its own length.
    pub header_words: u8,
    pub service: u8,
    pub total: u16,
    pub identification: u16,
    /// The three flags and the offset of a fragment.
    pub fragment: u16,
    pub hops: u8,
    pub protocol: u8,
    pub ip_sum: u16,
    pub addresses: [u8; 8],
    pub ip_options: Vec<u8>,
    pub from: u16,
    pub to: u16,
    pub udp_length: u16,
    pub udp_sum: u16,
    pub data: Vec<u8>,
    /// Bytes behind the datagram, in the IP packet or behind it.
    pub behind: Vec<u8>,
    /// So many bytes are captured, if not all.
    pub captured: Option<usize>,
    /// The original length, if it is not that of all the bytes.
    pub original: Option<u32>,
}

impl DirtyPacket {
    /// All bytes of the packet, captured or not.
    pub fn frame(&self) -> Vec<u8> {
        let mut frame = self.stations.to_vec();
        frame.extend(self.kind.to_be_bytes());
        frame.push(self.version << 4 | self.header_words);
        frame.push(self.service);
        for number in [self.total, self.identification, self.fragment] {
            frame.extend(number.to_be_bytes());
        }
        frame.extend([self.hops, self.protocol]);
        frame.extend(self.ip_sum.to_be_bytes());
        frame.extend(self.addresses);
        frame.extend(&self.ip_options);
        for number in [self.from, self.to, self.udp_length, self.udp_sum] {
            frame.extend(number.to_be_bytes());
        }
        frame.extend(&self.data);
        frame.extend(&self.behind);
        frame
    }

    /// The first byte behind what has to be seen of a packet for us.
    fn seen(&self) -> usize {
        ETHERNET_BYTES + IP_BYTES + self.ip_options.len() + 4
    }

    pub fn ip_header(&self) -> usize {
        IP_BYTES + self.ip_options.len()
    }
}

/// A file with its header's fields, right or wrong.
#[derive(Clone, Debug)]
pub struct DirtyFile {
    pub order: Order,
    pub magic: u32,
    pub version: (u16, u16),
    pub zone: u32,
    pub accuracy: u32,
    pub snap: u32,
    pub link_type: u32,
    pub packets: Vec<DirtyPacket>,
}

impl DirtyFile {
    /// The file's bytes, and where each record starts.
    pub fn lay(&self) -> (Vec<u8>, Vec<usize>) {
        let mut file = Vec::new();
        let mut places = Vec::new();
        self.number(&mut file, self.magic);
        self.short(&mut file, self.version.0);
        self.short(&mut file, self.version.1);
        for number in [self.zone, self.accuracy, self.snap, self.link_type] {
            self.number(&mut file, number);
        }
        for packet in &self.packets {
            places.push(file.len());
            let mut frame = packet.frame();
            let original = packet.original.unwrap_or(frame.len() as u32);
            frame.truncate(packet.captured.unwrap_or(frame.len()));
            let numbers = [packet.seconds, packet.microseconds, frame.len() as u32, original];
            for number in numbers {
                self.number(&mut file, number);
            }
            file.extend(frame);
        }
        (file, places)
    }

    pub fn laid(&self) -> Vec<u8> {
        self.lay().0
    }

    fn number(&self, file: &mut Vec<u8>, number: u32) {
        match self.order {
            Order::Big => file.extend(number.to_be_bytes()),
            Order::Little => file.extend(number.to_le_bytes()),
        }
    }

    fn short(&self, file: &mut Vec<u8>, number: u16) {
        match self.order {
            Order::Big => file.extend(number.to_be_bytes()),
            Order::Little => file.extend(number.to_le_bytes()),
        }
    }
}

/// A good file of these packets; what does not count is anything.
pub fn file_of(dice: &mut Dice, packets: Vec<DirtyPacket>) -> DirtyFile {
    DirtyFile {
        order: dice.pick(&[Order::Big, Order::Little]),
        magic: MAGIC,
        version: (2, 4),
        zone: dice.edge(),
        accuracy: dice.edge(),
        snap: dice.edge(),
        link_type: 1,
        packets,
    }
}

/// A good packet to this port with this data; what does not count is anything.
pub fn packet_with(dice: &mut Dice, port: u16, data: Vec<u8>) -> DirtyPacket {
    let words = dice.pick(&[0, 0, 0, 1, 5, 10]);
    let header = IP_BYTES + 4 * words;
    let behind = dice.pick(&[0, 0, 1, 4, 18]);
    // Some of what is behind the datagram may still be in the IP packet.
    let inside = dice.below(behind + 1);
    let udp = UDP_BYTES + data.len();
    let stations = dice.bytes(12);
    let addresses = dice.bytes(8);
    DirtyPacket {
        seconds: dice.edge(),
        microseconds: dice.edge(),
        stations: stations.try_into().unwrap(),
        kind: TYPE_IPV4,
        version: 4,
        header_words: (header / 4) as u8,
        service: dice.byte(),
        total: (header + udp + inside) as u16,
        identification: dice.word() as u16,
        // Neither the reserved flag nor "don't fragment" makes a fragment.
        fragment: dice.pick(&[0, 0x4000, 0x8000, 0xC000]),
        hops: dice.byte(),
        protocol: PROTOCOL_UDP,
        ip_sum: dice.word() as u16,
        addresses: addresses.try_into().unwrap(),
        ip_options: dice.bytes(4 * words),
        from: dice.word() as u16,
        to: port,
        udp_length: udp as u16,
        udp_sum: dice.word() as u16,
        data,
        behind: dice.bytes(behind),
        captured: None,
        original: None,
    }
}

fn some_message(dice: &mut Dice) -> DirtyMessage {
    let world = World::new(dice);
    let packages = package_count(dice);
    message(dice, &world, packages)
}

/// A good packet with a good message.
pub fn good_packet(dice: &mut Dice, port: u16) -> DirtyPacket {
    let data = some_message(dice).laid();
    packet_with(dice, port, data)
}

/// A packet with one fault, or with several so that their order shows.
pub fn bad_packet(dice: &mut Dice, port: u16) -> DirtyPacket {
    let mut packet = good_packet(dice, port);
    for _ in 0..dice.pick(&[1, 1, 1, 2, 3]) {
        match dice.below(3) {
            0 => hide(dice, &mut packet),
            1 => shorten(dice, &mut packet),
            _ => spoil(dice, &mut packet),
        }
    }
    packet
}

/// Makes a packet one that is not seen to be for us.
pub fn hide(dice: &mut Dice, packet: &mut DirtyPacket) {
    match dice.below(8) {
        0 => packet.kind = dice.pick(&[0x0806, 0x8100, 0x86DD, 0x0008, 0x0801, 0x0900, 0]),
        1 => packet.version = dice.pick(&[0, 3, 5, 6, 12, 15]),
        2 => {
            // A port would be seen where so short an IP header ends.
            packet.header_words = dice.below(5) as u8;
            put_port_into_header(packet);
        }
        3 => packet.protocol = dice.pick(&[0, 1, 6, 16, 18, 49, 255]),
        4 => packet.fragment |= dice.pick(&[0x2000, 0x2001, 1, 0x00FF, 0x0100, 0x1000, 0x1FFF]),
        5 => packet.to ^= 1 << dice.below(16),
        6 => {
            // Cut before the port is seen to its end.
            let most = packet.seen() - 1;
            let spread = dice.below(most + 1);
            packet.captured = Some(dice.pick(&[most, most, most - 1, 33, 34, 13, 14, 0, spread]));
        }
        _ => {
            // The IP header is said to reach to the packet's end or over it.
            packet.header_words = 15;
            packet.data.truncate(dice.below(8));
            packet.behind.clear();
        }
    }
}

/// Puts the port's number into the IP header wherever a header of fewer than
/// five words would show it, but not where it would make a fragment.
pub fn put_port_into_header(packet: &mut DirtyPacket) {
    let port = packet.to.to_be_bytes();
    packet.ip_sum = packet.to;
    packet.addresses[2..4].copy_from_slice(&port);
    packet.addresses[6..8].copy_from_slice(&port);
    if packet.header_words == 0 {
        packet.total = packet.to;
    }
}

/// Makes the captured length another than the original one.
pub fn shorten(dice: &mut Dice, packet: &mut DirtyPacket) {
    let length = packet.frame().len();
    match dice.below(3) {
        0 => {
            let seen = packet.seen().min(length - 1);
            let spread = dice.within(seen, length - 1);
            packet.captured = Some(dice.pick(&[seen, seen, length - 1, spread]));
        }
        1 => packet.original = Some(length as u32 + dice.pick(&[1, 2, 65_536])),
        _ => {
            // More was captured than there was.
            let less = length as u32 - 1;
            packet.original = Some(dice.pick(&[0, less, less, u32::MAX, length as u32 | 1 << 16]));
        }
    }
}

/// Makes lengths that do not fit, or data that is not one good message.
pub fn spoil(dice: &mut Dice, packet: &mut DirtyPacket) {
    let header = packet.ip_header() as u16;
    let udp = UDP_BYTES as u16 + packet.data.len() as u16;
    let captured = header + udp + packet.behind.len() as u16;
    match dice.below(10) {
        0 => packet.total = dice.pick(&[0, header - 1, header, header + 7, header + udp - 1]),
        1 => packet.total = dice.pick(&[captured + 1, captured + 2, 65_535]),
        2 => packet.udp_length = dice.pick(&[0, 1, 7]),
        3 => {
            let inside = packet.total.saturating_sub(header);
            packet.udp_length = dice.pick(&[inside.saturating_add(1), 65_535]);
        }
        4 => packet.udp_length = dice.pick(&[8, udp - 1, udp - 4]),
        5 => {
            let data = dice.pick(&[0, 4, 23]);
            packet.data.truncate(data);
            refit(packet);
        }
        6 => {
            let behind = dice.pick(&[1, 4, 24]);
            packet.data.extend(vec![0; behind]);
            refit(packet);
        }
        7 => {
            // Two good messages in one datagram.
            packet.data.extend(some_message(dice).laid());
            refit(packet);
        }
        _ => {
            let mut one = [some_message(dice)];
            let fault = any_fault(dice);
            packet.data = with_faults(dice, &mut one, &[(0, fault)]);
            refit(packet);
        }
    }
}

/// Sets both lengths to suit the data, with nothing behind it.
pub fn refit(packet: &mut DirtyPacket) {
    packet.behind.clear();
    packet.udp_length = (UDP_BYTES + packet.data.len()) as u16;
    packet.total = packet.ip_header() as u16 + packet.udp_length;
}

/// A plain packet: no IP options and nothing behind the datagram.
pub fn plain_packet(dice: &mut Dice, port: u16, data: Vec<u8>) -> DirtyPacket {
    let mut packet = packet_with(dice, port, data);
    packet.ip_options.clear();
    packet.header_words = 5;
    packet.fragment = 0;
    refit(&mut packet);
    packet
}

/// A file of good and bad packets; its header and its records are good.
pub fn mixed_file(dice: &mut Dice, port: u16) -> DirtyFile {
    let count = match dice.below(12) {
        0 => 0,
        1..=8 => dice.within(1, 5),
        _ => dice.within(1, 30),
    };
    let mut packets = Vec::new();
    for _ in 0..count {
        packets.push(if dice.chance(2, 5) {
            good_packet(dice, port)
        } else {
            bad_packet(dice, port)
        });
    }
    file_of(dice, packets)
}

/// A file: good or with mixed packets, damaged, or of the greatest length.
pub fn any_file(dice: &mut Dice, port: u16) -> Vec<u8> {
    let mut file = mixed_file(dice, port);
    match dice.below(12) {
        0..=6 => file.laid(),
        7 => {
            break_file_header(dice, &mut file);
            file.laid()
        }
        8 | 9 => break_records(dice, &file),
        10 => {
            let mut bytes = file.laid();
            for _ in 0..dice.within(1, 4) {
                change_blindly(dice, &mut bytes);
            }
            bytes
        }
        _ => {
            let goal = MOST_BYTES - 2 + dice.below(5);
            filled_to(dice, file, goal)
        }
    }
}

pub fn break_file_header(dice: &mut Dice, file: &mut DirtyFile) {
    match dice.below(5) {
        0 => file.magic = dice.pick(&[0xA1B2_3C4D, 0xA1B2_C3D5, 0xC3D4_A1B2, 0x0A0D_0D0A, 0]),
        1 => file.magic ^= 1 << dice.below(32),
        2 => file.version.0 = dice.pick(&[0, 1, 3, 4, 0x0200]),
        3 => file.version.1 = dice.pick(&[0, 2, 3, 5, 0x0400]),
        _ => {
            let bit = 1 << dice.below(32);
            file.link_type = dice.pick(&[0, 2, 101, 113, 0x0100_0000, 1 | bit]);
        }
    }
}

/// A file whose end cuts a record: bytes are gone, or a captured length is
/// too great.
fn break_records(dice: &mut Dice, file: &DirtyFile) -> Vec<u8> {
    let (mut bytes, places) = file.lay();
    if places.is_empty() || dice.chance(1, 4) {
        bytes.extend(dice.some_bytes(1, 15));
        return bytes;
    }
    let at = dice.pick(&places);
    let left = (bytes.len() - at - RECORD_HEADER_BYTES) as u32;
    match dice.below(3) {
        0 => {
            let last = places[places.len() - 1];
            let kept = dice.below(bytes.len() - last);
            bytes.truncate(last + kept);
        }
        _ => {
            let wrapping = (at as u32 + 16).wrapping_neg();
            let spread = dice.word();
            let great =
                dice.pick(&[left, left + 1, left + 1, u32::MAX, 0x8000_0000, wrapping, spread]);
            let four = match file.order {
                Order::Big => great.to_be_bytes(),
                Order::Little => great.to_le_bytes(),
            };
            bytes[at + 8..at + 12].copy_from_slice(&four);
        }
    }
    bytes
}

/// The file filled to so many bytes with one packet that is not for us, or
/// with bytes that are no record.
pub fn filled_to(dice: &mut Dice, mut file: DirtyFile, goal: usize) -> Vec<u8> {
    let length = file.laid().len();
    let mut filling = packet_with(dice, 0, Vec::new());
    filling.kind = 0x0806;
    let least = RECORD_HEADER_BYTES + filling.frame().len();
    if length + least <= goal && dice.chance(4, 5) {
        filling.behind.extend(vec![0x5A; goal - length - least]);
        file.packets.push(filling);
        return file.laid();
    }
    let mut bytes = file.laid();
    bytes.resize(goal, 0);
    bytes
}

/// The same file in the other byte order: its header and those of its records, as far
/// as they reach.
pub fn twin(file: &[u8]) -> Vec<u8> {
    let mut twin = file.to_vec();
    let order = if file.starts_with(&MAGIC.to_be_bytes()) { Order::Big } else { Order::Little };
    let Some(header) = twin.get_mut(..FILE_HEADER_BYTES) else {
        return twin;
    };
    for (from, to) in [(0, 4), (4, 6), (6, 8), (8, 12), (12, 16), (16, 20), (20, 24)] {
        header[from..to].reverse();
    }
    let mut place = FILE_HEADER_BYTES;
    while let Some(header) = twin.get_mut(place..place.saturating_add(RECORD_HEADER_BYTES)) {
        place = place.saturating_add(RECORD_HEADER_BYTES + order.number(header, 8) as usize);
        header.chunks_mut(4).for_each(<[u8]>::reverse);
    }
    twin
}

/// A recording to be written: good, damaged, or of the greatest length.
pub fn recording_to_write(dice: &mut Dice) -> Vec<u8> {
    let world = World::new(dice);
    match dice.below(16) {
        0..=8 => lay_all(&messages(dice, &world)).0,
        9..=12 => {
            let messages = messages(dice, &world);
            damaged(dice, messages)
        }
        13 => {
            let (size, style) = (4 * dice.within(6, 16_385), style(dice));
            lay_all(&messages_of_size(dice, &world, size, style)).0
        }
        14 => greatest(dice, &world),
        _ => {
            let mut bytes = greatest(dice, &world);
            change_blindly(dice, &mut bytes);
            bytes
        }
    }
}

/// A message of about the greatest length of a datagram, with a small one in
/// front of it, behind it or neither.
fn greatest(dice: &mut Dice, world: &World) -> Vec<u8> {
    let size = 65_496 + 4 * dice.below(11);
    let mut messages = vec![message_of_size(dice, world, size)];
    let few = 24 + 4 * dice.below(3);
    let small = message_of_size(dice, world, few);
    match dice.below(3) {
        0 => messages.insert(0, small),
        1 => messages.push(small),
        _ => {}
    }
    lay_all(&messages).0
}
