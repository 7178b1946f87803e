//! Captures from the switch: a classic pcap file is read into a recording, and
//! a recording is written as such a file.
//!
//! The file is first cut into its packets; then each packet is judged by
//! itself.

use crate::parse::{passed_at, read_recording, Message};
use crate::refusal::*;
use crate::render::{render_behind, rendered_length};

pub const MAGIC: u32 = 0xA1B2_C3D4;
pub const FILE_HEADER_BYTES: usize = 24;
pub const RECORD_HEADER_BYTES: usize = 16;
pub const ETHERNET_BYTES: usize = 14;
/// An IP header without options.
pub const IP_BYTES: usize = 20;
pub const UDP_BYTES: usize = 8;
/// One datagram carries at most so many bytes.
pub const MOST_DATA: usize = 65_507;
pub const SNAP_LENGTH: u32 = 65_549;
pub const TYPE_IPV4: u16 = 0x0800;
pub const PROTOCOL_UDP: u8 = 17;

#[derive(Clone, Copy, Debug, PartialEq, Eq)]
pub enum Order {
    Big,
    Little,
}

impl Order {
    pub fn number(self, bytes: &[u8], at: usize) -> u32 {
        let four = [bytes[at], bytes[at + 1], bytes[at + 2], bytes[at + 3]];
        match self {
            Order::Big => u32::from_be_bytes(four),
            Order::Little => u32::from_le_bytes(four),
        }
    }

    fn short(self, bytes: &[u8], at: usize) -> u16 {
        let two = [bytes[at], bytes[at + 1]];
        match self {
            Order::Big => u16::from_be_bytes(two),
            Order::Little => u16::from_le_bytes(two),
        }
    }
}

/// A packet as the file has it: the bytes captured and how many there were.
#[derive(Clone, Debug)]
struct Packet<'a> {
    bytes: &'a [u8],
    original: u32,
}

/// Under what a packet is counted; a kept one brings its message.
#[derive(Clone, Debug, PartialEq, Eq)]
enum Verdict<'a> {
    NotForUs,
    CutShort,
    Bad,
    Kept(&'a [u8]),
}

/// What reading a capture reports.
#[derive(Clone, Copy, Debug, Default, PartialEq, Eq)]
pub struct Captured {
    pub bytes: usize,
    pub kept: usize,
    pub not_for_us: usize,
    pub cut_short: usize,
    pub bad: usize,
}

impl Captured {
    pub fn packets(&self) -> usize {
        self.kept + self.not_for_us + self.cut_short + self.bad
    }
}

/// What writing a capture reports.
#[derive(Clone, Copy, Debug, PartialEq, Eq)]
pub struct Written {
    pub bytes: usize,
    pub messages: usize,
}

/// Reads a capture into a recording: LARGE, CAPTURE, ROOM.
pub fn read_capture(file: &[u8], port: u16, buffer: &mut [u8]) -> Result<Captured, Refusal> {
    ask_not_large(file.len())?;
    let packets = packets_of(file)?;
    let mut told = Captured::default();
    let mut messages = Vec::new();
    for packet in &packets {
        match judge(packet, port) {
            Verdict::NotForUs => told.not_for_us += 1,
            Verdict::CutShort => told.cut_short += 1,
            Verdict::Bad => told.bad += 1,
            Verdict::Kept(message) => {
                told.kept += 1;
                told.bytes += message.len();
                messages.push(message);
            }
        }
    }
    ask(told.bytes <= buffer.len(), ROOM, told.bytes)?;
    let mut at = 0;
    for message in messages {
        buffer[at..at + message.len()].copy_from_slice(message);
        at += message.len();
    }
    Ok(told)
}

/// The byte order of a good file header: magic, version 2.4, link type 1.
pub fn order_of(file: &[u8]) -> Option<Order> {
    if file.len() < FILE_HEADER_BYTES {
        return None;
    }
    let order =
        [Order::Big, Order::Little].into_iter().find(|order| order.number(file, 0) == MAGIC)?;
    let version = (order.short(file, 4), order.short(file, 6));
    let link_type = order.number(file, 20);
    (version == (2, 4) && link_type == 1).then_some(order)
}

/// All packets of a file, or CAPTURE at its header or at a record that its
/// end cuts.
fn packets_of(file: &[u8]) -> Result<Vec<Packet<'_>>, Refusal> {
    let Some(order) = order_of(file) else {
        return refuse(CAPTURE, 0);
    };
    let mut packets = Vec::new();
    let mut place = FILE_HEADER_BYTES;
    while place < file.len() {
        let record = &file[place..];
        ask(record.len() >= RECORD_HEADER_BYTES, CAPTURE, place)?;
        let (header, behind) = record.split_at(RECORD_HEADER_BYTES);
        let captured = order.number(header, 8) as usize;
        ask(captured <= behind.len(), CAPTURE, place)?;
        packets.push(Packet { bytes: &behind[..captured], original: order.number(header, 12) });
        place += RECORD_HEADER_BYTES + captured;
    }
    Ok(packets)
}

/// The first that applies: not seen to be for us, cut short, bad message.
fn judge<'a>(packet: &Packet<'a>, port: u16) -> Verdict<'a> {
    let Some((ip, header)) = for_us(packet.bytes, port) else {
        return Verdict::NotForUs;
    };
    if packet.bytes.len() as u64 != u64::from(packet.original) {
        return Verdict::CutShort;
    }
    match data_of(ip, header) {
        Some(data) if is_one_message(data) => Verdict::Kept(data),
        _ => Verdict::Bad,
    }
}

fn short_at(bytes: &[u8], at: usize) -> Option<u16> {
    Some(u16::from_be_bytes([*bytes.get(at)?, *bytes.get(at + 1)?]))
}

/// The bytes behind the Ethernet header and the length of the IP header, if
/// these bytes show an IPv4 UDP datagram to this port, not a fragment.
fn for_us(frame: &[u8], port: u16) -> Option<(&[u8], usize)> {
    let is_ipv4 = short_at(frame, 12)? == TYPE_IPV4;
    let ip = frame.get(ETHERNET_BYTES..)?;
    let seen = ip.get(..IP_BYTES)?;
    let (version, words) = (seen[0] >> 4, usize::from(seen[0] & 15));
    // The flag for more fragments, and the offset of this one.
    let fragment = short_at(seen, 6)? & 0x3FFF;
    let header = 4 * words;
    let is_udp = is_ipv4 && version == 4 && header >= IP_BYTES && seen[9] == PROTOCOL_UDP;
    let to = short_at(ip, header + 2)?;
    (is_udp && fragment == 0 && to == port).then_some((ip, header))
}

/// The data of a datagram whose lengths fit one into the other: IP header and
/// UDP header into the IP packet, that into what was captured, and the UDP
/// datagram into the IP packet.
fn data_of(ip: &[u8], header: usize) -> Option<&[u8]> {
    let total = usize::from(short_at(ip, 2)?);
    let datagram = ip.get(..total)?.get(header..)?;
    if datagram.len() < UDP_BYTES {
        return None;
    }
    let length = usize::from(short_at(datagram, 4)?);
    datagram.get(UDP_BYTES..length)
}

/// Is the data one whole message that passes every check, to the last byte?
fn is_one_message(data: &[u8]) -> bool {
    passed_at(data, 0).is_ok_and(|passed| passed.end == data.len())
}

/// Writes a recording as a capture: LARGE, the message checks, LARGE for a
/// clean message that no datagram can carry, ROOM.
pub fn write_capture(recording: &[u8], port: u16, buffer: &mut [u8]) -> Result<Written, Refusal> {
    let messages = read_recording(recording)?;
    let mut place = 0;
    for placed in &messages {
        ask(rendered_length(&placed.message) <= MOST_DATA, LARGE, place)?;
        place = placed.end;
    }
    let mut file = file_header();
    for placed in &messages {
        put_record(&placed.message, port, &mut file);
    }
    ask(file.len() <= buffer.len(), ROOM, file.len())?;
    buffer[..file.len()].copy_from_slice(&file);
    Ok(Written { bytes: file.len(), messages: messages.len() })
}

/// The file header, big-endian; zone and accuracy are zero.
pub fn file_header() -> Vec<u8> {
    let mut header = MAGIC.to_be_bytes().to_vec();
    header.extend([0, 2, 0, 4]);
    header.extend([0; 8]);
    header.extend(SNAP_LENGTH.to_be_bytes());
    header.extend(1_u32.to_be_bytes());
    header
}

/// Puts the record of one message behind the file: time, both lengths, and the packet.
fn put_record(message: &Message, port: u16, file: &mut Vec<u8>) {
    let datagram = UDP_BYTES + rendered_length(message);
    let length = (ETHERNET_BYTES + IP_BYTES + datagram) as u32;
    for number in [message.seconds, message.nanoseconds / 1_000, length, length] {
        file.extend(number.to_be_bytes());
    }
    put_packet(message, datagram, port, file);
}

/// Puts the packet that carries a message's clean form behind the file. Its datagram has
/// so many bytes.
fn put_packet(message: &Message, datagram: usize, port: u16, file: &mut Vec<u8>) {
    file.extend([0; 12]);
    file.extend(TYPE_IPV4.to_be_bytes());
    file.extend(ip_header(IP_BYTES + datagram));
    file.extend([0, 0]);
    file.extend(port.to_be_bytes());
    file.extend((datagram as u16).to_be_bytes());
    file.extend([0, 0]);
    render_behind(message, file);
}

/// An IP header for a packet of so many bytes, zero in all free fields.
pub fn ip_header(total: usize) -> [u8; IP_BYTES] {
    let mut header = [0; IP_BYTES];
    header[0] = 0x45;
    header[2..4].copy_from_slice(&(total as u16).to_be_bytes());
    header[9] = PROTOCOL_UDP;
    let sum = !ones_sum(&header);
    header[10..12].copy_from_slice(&sum.to_be_bytes());
    header
}

/// The sum of 16-bit numbers in which a carry comes back in at the low end.
pub fn ones_sum(header: &[u8]) -> u16 {
    let mut sum = 0_u16;
    for pair in header.chunks(2) {
        let (added, carry) = sum.overflowing_add(u16::from_be_bytes([pair[0], pair[1]]));
        sum = added + u16::from(carry);
    }
    sum
}
