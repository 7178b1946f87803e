//! Captures: packets are judged where they lie, and a file is written message by message.

use super::parse::{front_at, passed_at, Front};
use super::render::{clean_length, put, put_clean};
use crate::capture::{
    file_header, ip_header, order_of, Captured, Order, Written, ETHERNET_BYTES, FILE_HEADER_BYTES,
    IP_BYTES, MOST_DATA, PROTOCOL_UDP, RECORD_HEADER_BYTES, TYPE_IPV4, UDP_BYTES,
};
use crate::parse::HEADER_BYTES;
use crate::refusal::*;

/// What stands before a message in its record: the record's header and the packet's.
const RECORD_FRONT_BYTES: usize = RECORD_HEADER_BYTES + ETHERNET_BYTES + IP_BYTES + UDP_BYTES;

/// A record with a message has at least so many bytes.
const LEAST_RECORD_BYTES: usize = RECORD_FRONT_BYTES + HEADER_BYTES;

/// Reads a capture into a recording: LARGE, CAPTURE, ROOM.
pub fn read_capture(file: &[u8], port: u16, buffer: &mut [u8]) -> Result<Captured, Refusal> {
    ask_not_large(file.len())?;
    match order_of(file) {
        Some(Order::Big) => read_records(file, port, buffer, u32::from_be_bytes),
        Some(Order::Little) => read_records(file, port, buffer, u32::from_le_bytes),
        None => refuse(CAPTURE, 0),
    }
}

/// Reads the records of a file whose numbers are in this byte order.
#[inline(always)]
fn read_records(
    file: &[u8],
    port: u16,
    buffer: &mut [u8],
    number: impl Fn([u8; 4]) -> u32,
) -> Result<Captured, Refusal> {
    let mut told = Captured::default();
    let mut messages = Vec::with_capacity(file.len() / LEAST_RECORD_BYTES);
    let mut left = &file[FILE_HEADER_BYTES..];
    while !left.is_empty() {
        let place = file.len() - left.len();
        let Some((header, behind)) = left.split_first_chunk::<RECORD_HEADER_BYTES>() else {
            return refuse(CAPTURE, place);
        };
        let field = |at| number([header[at], header[at + 1], header[at + 2], header[at + 3]]);
        let (captured, original) = (field(8), field(12));
        let Some((bytes, behind)) = behind.split_at_checked(captured as usize) else {
            return refuse(CAPTURE, place);
        };
        left = behind;
        messages.extend(count(bytes, captured == original, port, &mut told));
    }
    ask(told.bytes <= buffer.len(), ROOM, told.bytes)?;
    let mut left = buffer;
    for message in messages {
        let (place, behind) = left.split_at_mut(message.len());
        place.copy_from_slice(message);
        left = behind;
    }
    Ok(told)
}

/// Counts a packet, and gives its message if it is kept. The first that applies: not seen
/// to be for us, cut short, bad message.
#[inline(always)]
fn count<'a>(packet: &'a [u8], whole: bool, port: u16, told: &mut Captured) -> Option<&'a [u8]> {
    let Some((ip, header)) = for_us(packet, port) else {
        told.not_for_us += 1;
        return None;
    };
    if !whole {
        told.cut_short += 1;
        return None;
    }
    let message = data_of(ip, header).filter(|data| is_one_message(data));
    match message {
        None => told.bad += 1,
        Some(message) => (told.kept, told.bytes) = (told.kept + 1, told.bytes + message.len()),
    }
    message
}

/// The bytes behind the Ethernet header and the length of the IP header, if
/// these bytes show an IPv4 UDP datagram to this port, not a fragment.
#[inline(always)]
fn for_us(frame: &[u8], port: u16) -> Option<(&[u8], usize)> {
    let seen = frame.first_chunk::<{ ETHERNET_BYTES + IP_BYTES }>()?;
    let (ethernet, ip) = seen.split_at(ETHERNET_BYTES);
    let header = 4 * usize::from(ip[0] & 15);
    // The flag for more fragments, and the offset of this one.
    let fragment = short_at(ip, 6) & 0x3FFF;
    let is_udp = short_at(ethernet, 12) == TYPE_IPV4
        && ip[0] >> 4 == 4
        && header >= IP_BYTES
        && ip[9] == PROTOCOL_UDP;
    let ip = &frame[ETHERNET_BYTES..];
    let to = ip.get(header + 2..header + 4)?;
    (is_udp && fragment == 0 && short_at(to, 0) == port).then_some((ip, header))
}

/// The data of a datagram whose lengths fit one into the other: IP header and
/// UDP header into the IP packet, that into what was captured, and the UDP
/// datagram into the IP packet.
#[inline(always)]
fn data_of(ip: &[u8], header: usize) -> Option<&[u8]> {
    let total = usize::from(short_at(ip, 2));
    let datagram = ip.get(header..total)?;
    let udp = datagram.first_chunk::<UDP_BYTES>()?;
    datagram.get(UDP_BYTES..usize::from(short_at(udp, 4)))
}

#[inline(always)]
fn short_at(bytes: &[u8], at: usize) -> u16 {
    u16::from_be_bytes([bytes[at], bytes[at + 1]])
}

/// Is the data one whole message that passes every check, to the last byte?
#[inline(always)]
fn is_one_message(data: &[u8]) -> bool {
    passed_at(data, 0).is_ok_and(|passed| passed.front.end == data.len())
}

/// Writes a recording as a capture: LARGE, the message checks, LARGE for a
/// clean message that no datagram can carry, ROOM.
pub fn write_capture(recording: &[u8], port: u16, buffer: &mut [u8]) -> Result<Written, Refusal> {
    ask_not_large(recording.len())?;
    let mut file = Vec::with_capacity(FILE_HEADER_BYTES + 3 * recording.len());
    file.extend_from_slice(&file_header());
    let (mut messages, mut place, mut too_long) = (0, 0, None);
    while place < recording.len() {
        let front = front_at(recording, place)?;
        if clean_length(&front) > MOST_DATA {
            too_long.get_or_insert(place);
        }
        file.extend_from_slice(&record_front(&front, port));
        put_clean(&front, place, &mut file)?;
        messages += 1;
        place = front.end;
    }
    if let Some(place) = too_long {
        return refuse(LARGE, place);
    }
    Ok(Written { bytes: put(&file, buffer)?, messages })
}

/// What stands before a message's clean form in its record: time, both lengths, and the
/// packet's headers, of which the free fields are zero.
#[inline(always)]
fn record_front(front: &Front, port: u16) -> [u8; RECORD_FRONT_BYTES] {
    let datagram = UDP_BYTES + clean_length(front);
    let packet = (ETHERNET_BYTES + IP_BYTES + datagram) as u32;
    let mut bytes = [0; RECORD_FRONT_BYTES];
    bytes[..4].copy_from_slice(&front.seconds.to_be_bytes());
    bytes[4..8].copy_from_slice(&(front.nanoseconds / 1_000).to_be_bytes());
    bytes[8..12].copy_from_slice(&packet.to_be_bytes());
    bytes[12..16].copy_from_slice(&packet.to_be_bytes());
    bytes[28..30].copy_from_slice(&TYPE_IPV4.to_be_bytes());
    bytes[30..50].copy_from_slice(&ip_header(IP_BYTES + datagram));
    bytes[52..54].copy_from_slice(&port.to_be_bytes());
    bytes[54..56].copy_from_slice(&(datagram as u16).to_be_bytes());
    bytes
}
