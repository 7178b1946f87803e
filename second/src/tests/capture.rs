//! Captures: the request's words, and what holds for any file and recording.

use crate::both::{check, clean, read_capture, write_capture};
use crate::capture::*;
use crate::dice::Dice;
use crate::generate::*;
use crate::packets::*;
use crate::paper::{from_hex, m_with, message_m};
use crate::parse::read_recording;
use crate::refusal::*;

const BIG: &str = "A1B2C3D4 0002 0004 00000000 00000000 0001000D 00000001";
const LITTLE: &str = "D4C3B2A1 0200 0400 00000000 00000000 0D000100 01000000";
/// To port 5555 hex: Ethernet, IP and UDP headers for the 56 bytes of M.
const HEADERS: &str = "000000000000 000000000000 0800 \
    4500 0054 0000 0000 0011 BA9A 00000000 00000000 0000 5555 0040 0000";
const PORT: u16 = 0x5555;

fn counts(kept: usize, not_for_us: usize, cut_short: usize, bad: usize) -> [usize; 4] {
    [kept, not_for_us, cut_short, bad]
}

/// The four counts of a file.
fn counted(file: &[u8]) -> [usize; 4] {
    let mut buffer = vec![0; MOST_BYTES];
    let told = read_capture(file, PORT, &mut buffer).unwrap();
    counts(told.kept, told.not_for_us, told.cut_short, told.bad)
}

/// A big-endian file of this one packet, with its own length as the original.
fn file_with(packet: &[u8]) -> Vec<u8> {
    file_with_original(packet, packet.len() as u32)
}

fn file_with_original(packet: &[u8], original: u32) -> Vec<u8> {
    let mut file = from_hex(BIG);
    file.extend([0; 8]);
    file.extend((packet.len() as u32).to_be_bytes());
    file.extend(original.to_be_bytes());
    file.extend(packet);
    file
}

/// The packet of M with this byte at this place, counted alone.
fn with_byte(at: usize, byte: u8) -> [usize; 4] {
    let mut packet = packet_of_m();
    packet[at] = byte;
    counted(&file_with(&packet))
}

fn packet_of_m() -> Vec<u8> {
    [from_hex(HEADERS), message_m()].concat()
}

/// A packet with this data, both lengths set to suit.
fn packet_of(data: &[u8]) -> Vec<u8> {
    let mut packet = from_hex(HEADERS);
    packet[16..18].copy_from_slice(&(28 + data.len() as u16).to_be_bytes());
    packet[38..40].copy_from_slice(&(8 + data.len() as u16).to_be_bytes());
    packet.extend(data);
    packet
}

const KEPT: [usize; 4] = [1, 0, 0, 0];
const NOT_FOR_US: [usize; 4] = [0, 1, 0, 0];
const CUT_SHORT: [usize; 4] = [0, 0, 1, 0];
const BAD: [usize; 4] = [0, 0, 0, 1];

#[test]
fn m_is_taken_out_of_a_capture_unchanged() {
    let mut buffer = vec![0xEE; 60];
    let told = read_capture(&file_with(&packet_of_m()), PORT, &mut buffer);
    let one = Captured { bytes: 56, kept: 1, not_for_us: 0, cut_short: 0, bad: 0 };
    assert_eq!(told, Ok(one));
    assert_eq!(buffer[..56], message_m());
    assert_eq!(buffer[56..], [0xEE; 4]);
}

#[test]
fn both_byte_orders_are_read() {
    let packet = packet_of_m();
    let mut little = from_hex(LITTLE);
    little.extend(from_hex("00000000 00000000 62000000 62000000"));
    little.extend(&packet);
    assert_eq!(packet.len(), 0x62);
    assert_eq!(counted(&little), KEPT);
    assert_eq!(counted(&from_hex(LITTLE)), counts(0, 0, 0, 0));
    assert_eq!(counted(&from_hex(BIG)), counts(0, 0, 0, 0));
}

#[test]
fn a_bad_file_header_is_refused_at_0() {
    let refused = refuse(CAPTURE, 0);
    let read = |file: &[u8]| read_capture(file, PORT, &mut []);
    assert_eq!(read(&[]), refused);
    assert_eq!(read(&from_hex(BIG)[..23]), refused);
    let others = [
        "A1B2C3D5 0002 0004 00000000 00000000 0001000D 00000001",
        // The magic number of a file with nanoseconds, in both orders.
        "A1B23C4D 0002 0004 00000000 00000000 0001000D 00000001",
        "4D3CB2A1 0200 0400 00000000 00000000 0D000100 01000000",
        "A1B2C3D4 0002 0003 00000000 00000000 0001000D 00000001",
        "A1B2C3D4 0001 0004 00000000 00000000 0001000D 00000001",
        "A1B2C3D4 0004 0002 00000000 00000000 0001000D 00000001",
        "A1B2C3D4 0200 0400 00000000 00000000 0001000D 00000001",
        "A1B2C3D4 0002 0004 00000000 00000000 0001000D 00000000",
        "A1B2C3D4 0002 0004 00000000 00000000 0001000D 00000071",
        "A1B2C3D4 0002 0004 00000000 00000000 0001000D 10000001",
        "A1B2C3D4 0002 0004 00000000 00000000 0001000D 01000000",
        "D4C3B2A1 0002 0004 00000000 00000000 0001000D 00000001",
    ];
    for other in others {
        assert_eq!(read(&from_hex(other)), refused, "{other}");
    }
    // Zone, accuracy and snap length are not looked at.
    assert!(read(&from_hex("A1B2C3D4 0002 0004 12345678 87654321 00000000 00000001")).is_ok());
}

#[test]
fn a_record_that_the_end_cuts_is_refused_at_its_first_byte() {
    let one = file_with(&packet_of_m());
    let two = [one.clone(), one[24..].to_vec()].concat();
    let second = one.len();
    for length in second + 1..two.len() {
        let read = read_capture(&two[..length], PORT, &mut []);
        assert_eq!(read, refuse(CAPTURE, second), "{length}");
    }
    for length in 25..second {
        assert_eq!(read_capture(&one[..length], PORT, &mut []), refuse(CAPTURE, 24));
    }
    let mut great = two.clone();
    great[24 + 8..24 + 12].fill(0xFF);
    assert_eq!(read_capture(&great, PORT, &mut []), refuse(CAPTURE, 24));
}

#[test]
fn a_file_above_65_536_bytes_is_large() {
    let mut file = file_with(&packet_of_m());
    file.resize(65_537, 0);
    assert_eq!(read_capture(&file, PORT, &mut []), refuse(LARGE, 65_536));
    assert_eq!(read_capture(&vec![0; 65_537], PORT, &mut []), refuse(LARGE, 65_536));
    assert_eq!(read_capture(&vec![0; 65_536], PORT, &mut []), refuse(CAPTURE, 0));
    // Empty records fill a file of the greatest length but for 8 bytes.
    file.truncate(24);
    file.resize(65_528, 0);
    assert_eq!(counted(&file), counts(0, 4_094, 0, 0));
    file.resize(65_536, 0);
    assert_eq!(read_capture(&file, PORT, &mut []), refuse(CAPTURE, 65_528));
}

#[test]
fn packets_that_are_not_seen_to_be_for_us() {
    assert_eq!(with_byte(13, 0x06), NOT_FOR_US);
    assert_eq!(with_byte(12, 0x81), NOT_FOR_US);
    assert_eq!(with_byte(14, 0x65), NOT_FOR_US);
    assert_eq!(with_byte(14, 0x55), NOT_FOR_US);
    assert_eq!(with_byte(14, 0x44), NOT_FOR_US);
    assert_eq!(with_byte(14, 0x40), NOT_FOR_US);
    assert_eq!(with_byte(23, 6), NOT_FOR_US);
    assert_eq!(with_byte(36, 0x54), NOT_FOR_US);
    assert_eq!(with_byte(37, 0x54), NOT_FOR_US);
    // More fragments, and offsets from 1 to 8,191.
    for flags in [0x20, 0x01, 0x1F, 0x10, 0x60, 0xFF] {
        assert_eq!(with_byte(20, flags), NOT_FOR_US);
    }
    assert_eq!(with_byte(21, 1), NOT_FOR_US);
    // With fewer than five words there is no place to look for a port, though
    // its number may stand where the IP header would end.
    for (words, at) in [(0, 2), (1, 6), (2, 10), (3, 14), (4, 18)] {
        let mut short = packet_of_m();
        short[14] = 0x40 + words;
        short[14 + at..14 + at + 2].copy_from_slice(&PORT.to_be_bytes());
        assert_eq!(counted(&file_with(&short)), NOT_FOR_US);
    }
    // The source port is not the one that counts.
    let packet = packet_of_m();
    let mut swapped = packet.clone();
    swapped[34..38].copy_from_slice(&packet[36..38].repeat(2));
    assert_eq!(counted(&file_with(&swapped)), KEPT);
    swapped[36] = 0;
    assert_eq!(counted(&file_with(&swapped)), NOT_FOR_US);
}

#[test]
fn what_does_not_count_in_a_packet() {
    let packet = packet_of_m();
    // Stations, service, identification, hops, sums, addresses, source port.
    for at in (0..12).chain([15, 18, 19, 22, 24, 25]).chain(26..34).chain([34, 35, 40, 41]) {
        assert_eq!(with_byte(at, packet[at] ^ 0xFF), KEPT, "{at}");
    }
    // The reserved flag and "don't fragment".
    for flags in [0x40, 0x80, 0xC0] {
        assert_eq!(with_byte(20, flags), KEPT);
    }
}

#[test]
fn packets_that_are_cut_short() {
    let packet = packet_of_m();
    for captured in 0..packet.len() {
        let file = file_with_original(&packet[..captured], packet.len() as u32);
        // The port is seen from 38 bytes on.
        let expected = if captured < 38 { NOT_FOR_US } else { CUT_SHORT };
        assert_eq!(counted(&file), expected, "{captured}");
    }
    for original in [0, 97, 99, 98 + 65_536, u32::MAX] {
        assert_eq!(counted(&file_with_original(&packet, original)), CUT_SHORT);
    }
    // The first that applies: one not for us is not counted as cut short, and
    // one cut short is not counted as bad.
    let mut other = packet.clone();
    other[36] = 0;
    assert_eq!(counted(&file_with_original(&other, 0)), NOT_FOR_US);
    let mut bad = packet.clone();
    bad[42] = 0;
    assert_eq!(counted(&file_with_original(&bad, 0)), CUT_SHORT);
    assert_eq!(counted(&file_with(&bad)), BAD);
}

#[test]
fn ip_options_move_the_port() {
    for words in 1..=10 {
        let mut packet = packet_of_m();
        packet.splice(34..34, vec![0xFF; 4 * words]);
        packet[14] = 0x45 + words as u8;
        packet[17] += 4 * words as u8;
        assert_eq!(counted(&file_with(&packet)), KEPT);
        let bytes = packet.len() as u32;
        let seen = 38 + 4 * words;
        assert_eq!(counted(&file_with_original(&packet[..seen], bytes)), CUT_SHORT);
        assert_eq!(counted(&file_with_original(&packet[..seen - 1], bytes)), NOT_FOR_US);
        // The same bytes without the words' count show another port.
        packet[14] = 0x45;
        assert_eq!(counted(&file_with(&packet)), NOT_FOR_US);
    }
}

#[test]
fn lengths_that_do_not_fit_are_bad() {
    // The IP packet: 84 bytes of 84.
    assert_eq!(with_byte(17, 84), KEPT);
    assert_eq!(with_byte(17, 85), BAD);
    assert_eq!(with_byte(16, 1), BAD);
    for total in [0, 19, 20, 27, 28, 83] {
        assert_eq!(with_byte(17, total), BAD);
    }
    // The datagram: 64 bytes of 64.
    for length in [0, 7, 8, 60, 63, 65] {
        assert_eq!(with_byte(39, length), BAD);
    }
    // A port that is seen behind the end of the IP packet.
    let mut behind = packet_of_m();
    behind[17] = 22;
    assert_eq!(counted(&file_with(&behind)), BAD);
}

#[test]
fn bytes_behind_the_datagram_are_fine() {
    let mut packet = packet_of_m();
    packet.extend([1, 2, 3]);
    assert_eq!(counted(&file_with(&packet)), KEPT);
    packet[17] += 3;
    assert_eq!(counted(&file_with(&packet)), KEPT);
    packet[39] += 1;
    assert_eq!(counted(&file_with(&packet)), BAD);
}

#[test]
fn data_has_to_be_exactly_one_good_message() {
    let m = message_m();
    let counted_data = |data: &[u8]| counted(&file_with(&packet_of(data)));
    assert_eq!(counted_data(&m), KEPT);
    assert_eq!(counted_data(&m[..55]), BAD);
    assert_eq!(counted_data(&[]), BAD);
    assert_eq!(counted_data(&[m.clone(), vec![0]].concat()), BAD);
    assert_eq!(counted_data(&[m.clone(), m.clone()].concat()), BAD);
    assert_eq!(counted_data(&m_with(0, &[0x20])), BAD);
    assert_eq!(counted_data(&m_with(3, &[0x90])), BAD);
    assert_eq!(counted_data(&m_with(29, &[11])), BAD);
    // Dirt is no fault.
    assert_eq!(counted_data(&m_with(1, &[0xF0, 0xFF])), KEPT);
}

#[test]
fn a_buffer_too_short_for_the_messages() {
    let one = file_with(&packet_of_m());
    let two = [one.clone(), one[24..].to_vec()].concat();
    let mut buffer = vec![0xEE; 112];
    assert_eq!(read_capture(&two, PORT, &mut buffer[..111]), refuse(ROOM, 112));
    assert_eq!(buffer, vec![0xEE; 112]);
    let told = read_capture(&two, PORT, &mut buffer).unwrap();
    assert_eq!((told.bytes, told.kept), (112, 2));
    assert_eq!(buffer, [message_m(), message_m()].concat());
    // CAPTURE comes before ROOM; packets that are not kept need no room.
    let cut = [&two[..], &[0; 9]].concat();
    assert_eq!(read_capture(&cut, PORT, &mut []), refuse(CAPTURE, two.len()));
    assert!(read_capture(&two, PORT + 1, &mut []).is_ok());
}

/// M, written to port 5555 hex.
#[test]
fn m_is_written_as_a_capture() {
    let mut m = message_m();
    m[20..24].copy_from_slice(&1_999_u32.to_be_bytes());
    let mut cleaned = vec![0; 56];
    assert_eq!(clean(&m, &mut cleaned), Ok(56));
    let mut expected = from_hex(BIG);
    expected.extend(from_hex("00000064 00000001 00000062 00000062"));
    expected.extend(from_hex(HEADERS));
    expected.extend(cleaned);
    let mut buffer = vec![0xEE; 140];
    let told = write_capture(&m, PORT, &mut buffer);
    assert_eq!(told, Ok(Written { bytes: 138, messages: 1 }));
    assert_eq!(buffer[..138], expected);
    assert_eq!(buffer[138..], [0xEE; 2]);
}

#[test]
fn an_empty_recording_is_a_file_header() {
    let mut buffer = vec![0; 24];
    assert_eq!(write_capture(&[], 1, &mut buffer), Ok(Written { bytes: 24, messages: 0 }));
    assert_eq!(buffer, from_hex(BIG));
    assert_eq!(write_capture(&[], 1, &mut buffer[..23]), refuse(ROOM, 24));
}

#[test]
fn microseconds_are_rounded_down() {
    for (nanoseconds, microseconds) in
        [(0, 0), (999, 0), (1_000, 1), (1_999, 1), (999_999_999, 999_999)]
    {
        let m = m_with(20, &u32::to_be_bytes(nanoseconds));
        let mut buffer = vec![0; 138];
        assert!(write_capture(&m, PORT, &mut buffer).is_ok());
        assert_eq!(buffer[28..32], u32::to_be_bytes(microseconds));
    }
}

#[test]
fn refusals_in_writing_and_their_order() {
    let m = message_m();
    let write = |recording: &[u8]| write_capture(recording, PORT, &mut []);
    assert_eq!(write(&m), refuse(ROOM, 138));
    assert_eq!(write(&m.repeat(2)), refuse(ROOM, 252));
    assert_eq!(write(&m[..23]), refuse(SHORT, 0));
    assert_eq!(write(&[m.clone(), m_with(0, &[0x20])].concat()), refuse(VERSION, 56));
    assert_eq!(write(&[m.clone(), m_with(29, &[11])].concat()), refuse(PACKAGE, 80));
    assert_eq!(write(&vec![0; 65_537]), refuse(LARGE, 65_536));
    assert_eq!(write(&vec![0; 65_536]), refuse(VERSION, 0));
}

/// A message of this size with so many option words that hold nothing.
fn great(size: usize, words: usize) -> Vec<u8> {
    let dice = &mut Dice::new(6, size as u64);
    let world = World::new(dice);
    let mut message = message_of_size(dice, &world, size - 4 * words);
    message.behind_options = vec![0; 4 * words];
    message.laid()
}

#[test]
fn a_clean_message_above_one_datagram_is_large_at_its_place() {
    let write = |recording: &[u8]| write_capture(recording, PORT, &mut []);
    let (fits, above) = (great(65_504, 0), great(65_508, 0));
    assert_eq!(write(&fits), refuse(ROOM, 24 + 58 + 65_504));
    assert_eq!(write(&above), refuse(LARGE, 0));
    assert_eq!(write(&great(65_536, 0)), refuse(LARGE, 0));
    let small = great(24, 0);
    assert_eq!(write(&[small.clone(), above.clone()].concat()), refuse(LARGE, 24));
    assert_eq!(write(&[great(28, 1), above.clone()].concat()), refuse(LARGE, 28));
    // Message checks come first, wherever the bad message is.
    assert_eq!(write(&[&above[..], &[0; 24]].concat()), refuse(VERSION, 65_508));
    assert_eq!(write(&[&above[..], &[0; 29]].concat()), refuse(LARGE, 65_536));
    // Only the clean form has to fit into a datagram.
    assert_eq!(write(&great(65_508, 1)), refuse(ROOM, 24 + 58 + 65_504));
    assert_eq!(write(&great(65_536, 8)), refuse(ROOM, 24 + 58 + 65_504));
    assert_eq!(write(&great(65_536, 7)), refuse(LARGE, 0));
}

#[test]
fn the_ip_checksum_of_a_known_header() {
    let header = from_hex("4500 0073 0000 4000 4011 B861 C0A80001 C0A800C7");
    assert_eq!(ones_sum(&header), 0xFFFF);
    let zero = from_hex("4500 0073 0000 4000 4011 0000 C0A80001 C0A800C7");
    assert_eq!(!ones_sum(&zero), 0xB861);
}

/// The recording's clean messages, one behind the other.
fn cleaned(recording: &[u8]) -> Vec<u8> {
    let mut place = 0;
    let mut all = Vec::new();
    for placed in read_recording(recording).unwrap() {
        let mut one = vec![0; placed.end - place];
        let length = clean(&recording[place..], &mut one).unwrap();
        all.extend(&one[..length]);
        place = placed.end;
    }
    all
}

/// What was written is read again as the clean messages, to the given port
/// only, and its packets are as they should be.
#[test]
fn written_is_read_again() {
    let (mut again, mut refused) = (0, 0);
    for case in 0..1_000 {
        let dice = &mut Dice::new(7, case);
        let (recording, port) = (recording_to_write(dice), any_port(dice));
        let mut file = vec![0; 300_000];
        let Ok(told) = write_capture(&recording, port, &mut file) else {
            refused += 1;
            continue;
        };
        file.truncate(told.bytes);
        let messages = read_recording(&recording).unwrap();
        assert_eq!(messages.len(), told.messages);
        let clean_forms = cleaned(&recording);
        assert_eq!(told.bytes, 24 + 58 * told.messages + clean_forms.len());
        let mut at = 24;
        for placed in &messages {
            let times = [placed.message.seconds, placed.message.nanoseconds / 1_000];
            assert_eq!(file[at..at + 8], times.map(u32::to_be_bytes).concat());
            assert_eq!(file[at + 8..at + 12], file[at + 12..at + 16]);
            assert_eq!(ones_sum(&file[at + 30..at + 50]), 0xFFFF);
            at += 16 + u32::from_be_bytes(file[at + 8..at + 12].try_into().unwrap()) as usize;
        }
        assert_eq!(at, file.len());
        let mut buffer = vec![0; MOST_BYTES];
        let read = read_capture(&file, port, &mut buffer);
        if file.len() > MOST_BYTES {
            assert_eq!(read, refuse(LARGE, MOST_BYTES));
            continue;
        }
        again += 1;
        assert_eq!(buffer[..clean_forms.len()], clean_forms);
        let kept = Captured { bytes: clean_forms.len(), kept: told.messages, ..Default::default() };
        assert_eq!(read, Ok(kept));
        let other = read_capture(&file, port ^ 0x0100, &mut buffer);
        assert_eq!(other, Ok(Captured { not_for_us: told.messages, ..Default::default() }));
    }
    assert!(again > 400 && refused > 100, "{again} {refused}");
}

/// The counts add up to the packets, both byte orders agree, and what was
/// kept passes as a recording of so many messages.
#[test]
fn the_counts_add_up_and_both_orders_agree() {
    let mut sums = [0; 4];
    for case in 0..1_000 {
        let dice = &mut Dice::new(8, case);
        let port = any_port(dice);
        let mut file = mixed_file(dice, port);
        let mut buffer = vec![0; MOST_BYTES];
        let told = read_capture(&file.laid(), port, &mut buffer).unwrap();
        assert_eq!(told.packets(), file.packets.len());
        let recording = buffer[..told.bytes].to_vec();
        assert_eq!(check(&recording).unwrap().0, told.kept);
        file.order = match file.order {
            Order::Big => Order::Little,
            Order::Little => Order::Big,
        };
        assert_eq!(read_capture(&file.laid(), port, &mut buffer), Ok(told));
        assert_eq!(buffer[..told.bytes], recording);
        let found = counts(told.kept, told.not_for_us, told.cut_short, told.bad);
        for (sum, count) in sums.iter_mut().zip(found) {
            *sum += count;
        }
    }
    assert!(sums.iter().all(|&sum| sum > 250), "{sums:?}");
}

/// A good packet is kept; one with an aimed fault is counted where it belongs.
#[test]
fn aimed_faults_are_counted_where_they_belong() {
    for case in 0..1_000 {
        let dice = &mut Dice::new(9, case);
        let good = good_packet(dice, PORT);
        let mut short = good.clone();
        let mut bad = good.clone();
        shorten(dice, &mut short);
        spoil(dice, &mut bad);
        let data = good.data.clone();
        let packets = vec![good, short, bad.clone()];
        let file = file_of(dice, packets).laid();
        let mut buffer = vec![0; MOST_BYTES];
        let told = read_capture(&file, PORT, &mut buffer).unwrap();
        // A fault of a message may leave the message good, if only seldom.
        let spoiled_kept = told.kept == 2 && bad.data != data;
        assert!(told.kept == 1 && told.bad == 1 || spoiled_kept, "{case}: {told:?}");
        assert_eq!((told.not_for_us, told.cut_short), (0, 1), "{case}: {told:?}");
        assert_eq!(buffer[..data.len()], data);
    }
}
