//! RF network messages: the words of the request and of Chapter 24, and what
//! holds for any message.

use crate::both::{read_radio, write_run};
use crate::dice::Dice;
use crate::paper::from_hex;
use crate::radio::*;
use crate::refusal::*;
use crate::tlvs::*;

/// To 1122 from 3344, number 55667788: header, then these bytes.
fn message(payload: &str) -> Vec<u8> {
    let payload = from_hex(payload);
    let mut bytes = from_hex("0000 1122 3344 55667788");
    bytes.extend(payload);
    refit(&mut bytes);
    bytes
}

/// The TLVs of a message with this payload.
fn tlvs(payload: &str) -> Result<Vec<Tlv>, Refusal> {
    read_radio(&message(payload)).map(|message| message.tlvs)
}

fn radio<T>(place: usize) -> Result<T, Refusal> {
    refuse(RADIO, place)
}

const TXOP_BYTES: &str = "01 0D 2328 80 ABCD FE 00001 F423F";
const HEARTBEAT_BYTES: &str = "05 04 FFFF";
const METRIC_BYTES: &str = "06 0B 03FF423F 2328 81 7F FF";
const QUEUES_BYTES: &str = "0A 1B 3F 0F423F 87654321 00 0000 0001 0002 0003 0100 7FFF 8000 FFFF";

fn txop() -> TxOp {
    TxOp { frequency: 9_000, id: 0xABCD, timeout: 0xFE, start: 1, stop: 999_999 }
}

fn metric() -> LinkMetric {
    LinkMetric {
        seconds: 63,
        microseconds: 999_999,
        frequency: 9_000,
        rssi: -127,
        cinr: 127,
        error_rate: 255,
    }
}

fn queues() -> TeQueues {
    TeQueues {
        seconds: 63,
        subseconds: 999_999,
        mslpid: 0x8765_4321,
        levels: [0, 1, 2, 3, 0x100, 0x7FFF, 0x8000, 0xFFFF],
    }
}

#[test]
fn the_header_is_read() {
    let read = read_radio(&message(HEARTBEAT_BYTES)).unwrap();
    let tlvs = vec![Tlv::Heartbeat { timeout: 65_535 }];
    let expected =
        RadioMessage { destination: 0x1122, source: 0x3344, sequence: 0x5566_7788, tlvs };
    assert_eq!(read, expected);
    assert_eq!(message(HEARTBEAT_BYTES)[..2], [0, 12]);
}

#[test]
fn each_type_has_its_length_and_its_fields() {
    assert_eq!(tlvs(TXOP_BYTES), Ok(vec![Tlv::TxOp(txop())]));
    assert_eq!(tlvs(METRIC_BYTES), Ok(vec![Tlv::LinkMetric(metric())]));
    assert_eq!(tlvs(QUEUES_BYTES), Ok(vec![Tlv::TeQueues(queues())]));
    let all = [TXOP_BYTES, QUEUES_BYTES, HEARTBEAT_BYTES, METRIC_BYTES, HEARTBEAT_BYTES].concat();
    let read = tlvs(&all).unwrap();
    let lengths: Vec<usize> = read.iter().map(Tlv::length).collect();
    assert_eq!(lengths, [13, 27, 4, 11, 4]);
}

#[test]
fn the_length_ends_the_input() {
    let good = message(HEARTBEAT_BYTES);
    for length in 0..=20 {
        let mut bytes = good.clone();
        bytes[1] = length;
        assert_eq!(read_radio(&bytes).is_ok(), length == 12);
        if length != 12 {
            assert_eq!(read_radio(&bytes), radio(0));
        }
    }
    for length in 0..good.len() {
        assert_eq!(read_radio(&good[..length]), radio(0));
    }
    assert_eq!(read_radio(&[&good[..], &[5, 4, 0, 0]].concat()), radio(0));
}

#[test]
fn an_empty_payload_is_bad() {
    assert_eq!(tlvs(""), radio(0));
    for length in 0..10 {
        let mut zeros = vec![0; length];
        refit(&mut zeros);
        assert_eq!(read_radio(&zeros), radio(0));
    }
}

#[test]
fn other_types_and_lengths_are_bad() {
    for kind in (0..=255).filter(|kind| ![1, 5, 6, 10].contains(kind)) {
        assert_eq!(tlvs(&format!("{kind:02X} 04 0000")), radio(10));
        assert_eq!(tlvs(&format!("{HEARTBEAT_BYTES} {kind:02X} 04 0000")), radio(14));
    }
    for (bytes, good) in
        [(TXOP_BYTES, 13), (HEARTBEAT_BYTES, 4), (METRIC_BYTES, 11), (QUEUES_BYTES, 27)]
    {
        for length in 0..=255 {
            let mut changed = message(&format!("{bytes} {bytes}"));
            changed[10 + good + 1] = length;
            let read = read_radio(&changed);
            if usize::from(length) == good {
                assert!(read.is_ok());
            } else {
                assert_eq!(read, radio(10 + good));
            }
        }
    }
}

#[test]
fn a_tlv_that_the_input_cuts_is_bad_at_its_first_byte() {
    for bytes in [TXOP_BYTES, HEARTBEAT_BYTES, METRIC_BYTES, QUEUES_BYTES] {
        let whole = message(&format!("{HEARTBEAT_BYTES} {bytes}"));
        for length in 15..whole.len() {
            let mut cut = whole[..length].to_vec();
            refit(&mut cut);
            assert_eq!(read_radio(&cut), radio(14));
        }
    }
}

#[test]
fn the_txop_byte_must_be_80() {
    for byte in 0..=255 {
        let mut bytes = message(TXOP_BYTES);
        bytes[14] = byte;
        let expected = if byte == 0x80 { Ok(vec![Tlv::TxOp(txop())]) } else { radio(10) };
        assert_eq!(read_radio(&bytes).map(|message| message.tlvs), expected);
    }
}

#[test]
fn sub_seconds_go_to_999_999() {
    // 999,999 is F423F and 1,000,000 is F4240.
    assert!(tlvs("01 0D 2328 80 ABCD FE F423F F423F").is_ok());
    assert_eq!(tlvs("01 0D 2328 80 ABCD FE F4240 F423F"), radio(10));
    // The table of Chapter 24 would let a stop of 1,000,000 pass.
    assert_eq!(tlvs("01 0D 2328 80 ABCD FE F423F F4240"), radio(10));
    assert_eq!(tlvs("01 0D 2328 80 ABCD FE FFFFF 00000"), radio(10));
    assert_eq!(tlvs("06 0B 03FF4240 2328 81 7F FF"), radio(10));
    assert_eq!(tlvs("06 0B 000FFFFF 2328 81 7F FF"), radio(10));
    let queues = |sub: &str| {
        tlvs(&format!("0A 1B 3F {sub} 87654321 00 0000 0001 0002 0003 0100 7FFF 8000 FFFF"))
    };
    assert!(queues("0F423F").is_ok());
    assert_eq!(queues("0F4240"), radio(10));
    assert_eq!(queues("0FFFFF"), radio(10));
}

#[test]
fn the_te_version_is_0() {
    for version in 1..=255 {
        let mut bytes = message(QUEUES_BYTES);
        bytes[20] = version;
        assert_eq!(read_radio(&bytes), radio(10));
    }
}

/// Reserved bits are ignored on reading and zero on writing.
#[test]
fn reserved_bits_do_not_count() {
    let dirty = [
        ("06 0B FFFF423F 2328 81 7F FF", METRIC_BYTES),
        ("06 0B 07FF423F 2328 81 7F FF", METRIC_BYTES),
        ("0A 1B FF FF423F 87654321 00 0000 0001 0002 0003 0100 7FFF 8000 FFFF", QUEUES_BYTES),
        ("0A 1B 7F 1F423F 87654321 00 0000 0001 0002 0003 0100 7FFF 8000 FFFF", QUEUES_BYTES),
    ];
    for (dirty, clean) in dirty {
        let read = read_radio(&message(dirty)).unwrap();
        assert_eq!(read, read_radio(&message(clean)).unwrap());
        let mut buffer = vec![0; 60];
        let length = write_radio(&read, &mut buffer).unwrap();
        assert_eq!(buffer[..length], message(clean));
    }
}

#[test]
fn start_may_be_above_stop_and_any_tlvs_may_stand_together() {
    assert!(tlvs("01 0D 0000 80 0000 00 F423F 00000").is_ok());
    assert!(tlvs(&HEARTBEAT_BYTES.repeat(50)).is_ok());
}

#[test]
fn a_long_input_is_large() {
    assert_eq!(read_radio(&vec![0xFF; 65_537]), refuse(LARGE, 65_536));
    assert_eq!(read_radio(&vec![0xFF; 65_536]), radio(0));
    for total in [65_535, 65_536, 65_537, 65_538] {
        let tlvs = tlvs_of_size(total - 10);
        let message = RadioMessage { destination: 1, source: 2, sequence: 3, tlvs };
        let mut buffer = vec![0xEE; total];
        let written = write_radio(&message, &mut buffer);
        if total > 65_536 {
            assert_eq!(written, refuse(LARGE, 65_536));
            assert_eq!(buffer, vec![0xEE; total]);
        } else {
            assert_eq!(written, Ok(total));
            assert_eq!(read_radio(&buffer), Ok(message));
        }
    }
}

fn record(tlvs: &[Tlv]) -> RadioMessage {
    RadioMessage { destination: 0x1122, source: 0x3344, sequence: 0x5566_7788, tlvs: tlvs.to_vec() }
}

#[test]
fn each_type_is_written() {
    let each = [
        (Tlv::TxOp(txop()), TXOP_BYTES),
        (Tlv::Heartbeat { timeout: 65_535 }, HEARTBEAT_BYTES),
        (Tlv::LinkMetric(metric()), METRIC_BYTES),
        (Tlv::TeQueues(queues()), QUEUES_BYTES),
    ];
    for (tlv, bytes) in each {
        let expected = message(bytes);
        let mut buffer = vec![0xEE; 40];
        assert_eq!(write_radio(&record(&[tlv]), &mut buffer), Ok(expected.len()));
        assert_eq!(buffer[..expected.len()], expected);
        assert!(buffer[expected.len()..].iter().all(|&byte| byte == 0xEE));
    }
}

#[test]
fn refusals_in_writing_and_their_order() {
    let heartbeat = Tlv::Heartbeat { timeout: 1 };
    let write = |tlvs: &[Tlv], room: usize| write_radio(&record(tlvs), &mut vec![0; room]);
    assert_eq!(write(&[], 100), radio(0));
    assert_eq!(write(&[heartbeat], 13), refuse(ROOM, 14));
    assert_eq!(write(&[heartbeat], 14), Ok(14));
    let bad = [
        Tlv::TxOp(TxOp { start: 1_000_000, ..txop() }),
        Tlv::TxOp(TxOp { stop: 1_000_000, ..txop() }),
        Tlv::TxOp(TxOp { stop: u32::MAX, ..txop() }),
        Tlv::LinkMetric(LinkMetric { microseconds: 1_000_000, ..metric() }),
        Tlv::LinkMetric(LinkMetric { seconds: 64, ..metric() }),
        Tlv::TeQueues(TeQueues { subseconds: 1_000_000, ..queues() }),
        Tlv::TeQueues(TeQueues { seconds: 64, ..queues() }),
    ];
    for bad in bad {
        assert_eq!(write(&[bad], 0), radio(10));
        assert_eq!(write(&[heartbeat, Tlv::TxOp(txop()), bad, bad], 200), radio(27));
        let mut many = vec![heartbeat; 16_390];
        many[0] = bad;
        assert_eq!(write(&many, 0), refuse(LARGE, 65_536));
    }
}

#[test]
fn the_rows_of_link_metrics() {
    let row = plot_row(&metric());
    let expected = PlotRow {
        megahertz: 2_250.0,
        rssi: Measured::Level(-127.0),
        cinr: Measured::Level(127.0),
        error_rate: Measured::Rate(0.996_093_75),
    };
    assert_eq!(row, expected);
    let missing =
        LinkMetric { frequency: 65_535, rssi: -128, cinr: -128, error_rate: 0, ..metric() };
    let expected = PlotRow {
        megahertz: 16_383.75,
        rssi: Measured::Missing,
        cinr: Measured::Missing,
        error_rate: Measured::Missing,
    };
    assert_eq!(plot_row(&missing), expected);
    let zero = LinkMetric { frequency: 0, rssi: 0, cinr: -1, error_rate: 1, ..metric() };
    let expected = PlotRow {
        megahertz: 0.0,
        rssi: Measured::Level(0.0),
        cinr: Measured::Level(-1.0),
        error_rate: Measured::Rate(0.003_906_25),
    };
    assert_eq!(plot_row(&zero), expected);
    // Zero is the positive one.
    let row = plot_row(&zero);
    assert!(row.megahertz.is_sign_positive());
    assert!(matches!(row.rssi, Measured::Level(level) if level.is_sign_positive()));
}

/// A double as a whole number of quarters or 256ths, by its own bits alone: no
/// step of this rounds.
fn times(double: f64, power: i32) -> Option<i64> {
    let bits = double.to_bits();
    if bits << 1 == 0 {
        return Some(0);
    }
    let exponent = (bits >> 52 & 0x7FF) as i32 - 1_075 + power;
    let mantissa = (bits & ((1 << 52) - 1) | 1 << 52) as i64;
    let whole = exponent < 0 && mantissa.trailing_zeros() as i32 >= -exponent;
    let size = mantissa >> -exponent.min(0);
    whole.then_some(if bits >> 63 == 1 { -size } else { size })
}

/// Every field of 16 and of 8 bits is the exact quotient, times 4 and 256.
#[test]
fn doubles_times_4_and_256_are_the_fields() {
    for frequency in 0..=u16::MAX {
        let row = plot_row(&LinkMetric { frequency, ..metric() });
        assert_eq!(times(row.megahertz, 2), Some(frequency.into()));
        assert_eq!(row.megahertz * 4.0, f64::from(frequency));
    }
    for value in 0..=255_u8 {
        let row = plot_row(&LinkMetric {
            rssi: value as i8,
            cinr: value as i8,
            error_rate: value,
            ..metric()
        });
        match row.error_rate {
            Measured::Missing => assert_eq!(value, 0),
            Measured::Rate(rate) => {
                assert_eq!(times(rate, 8), Some(value.into()));
                assert!(0.0 < rate && rate < 1.0);
            }
            Measured::Level(_) => panic!("an error rate is no level"),
        }
        assert_eq!(row.rssi, row.cinr);
        match row.rssi {
            Measured::Missing => assert_eq!(value, 0x80),
            Measured::Level(level) => {
                let signed = i64::from(value) - if value > 127 { 256 } else { 0 };
                assert_eq!(times(level, 0), Some(signed));
            }
            Measured::Rate(_) => panic!("an RSSI is no rate"),
        }
    }
}

/// What was written is read again as the same record.
#[test]
fn written_is_read_again() {
    let (mut again, mut refused) = (0, 0);
    for case in 0..300 {
        let dice = &mut Dice::new(12, case);
        let message = any_message(dice);
        let mut buffer = vec![0; MOST_BYTES];
        match write_radio(&message, &mut buffer) {
            Ok(length) => {
                again += 1;
                assert_eq!(read_radio(&buffer[..length]), Ok(message));
            }
            Err(_) => refused += 1,
        }
    }
    assert!(again > 150 && refused > 40, "{again} {refused}");
}

/// What is read is written in its clean form: the same bytes with zero in the
/// reserved bits.
#[test]
fn read_is_written_in_clean_form() {
    for case in 0..300 {
        let dice = &mut Dice::new(13, case);
        let message = good_message(dice);
        let dirty = lay_dirty(dice, &message);
        let zeros: Vec<Vec<u8>> = message.tlvs.iter().map(|tlv| lay_tlv(tlv, 0)).collect();
        let clean = lay(&message, &zeros);
        let read = read_radio(&dirty).unwrap();
        assert_eq!(read, message);
        let mut buffer = vec![0; dirty.len()];
        assert_eq!(write_radio(&read, &mut buffer), Ok(dirty.len()));
        assert_eq!(buffer, clean);
        assert_eq!(read_radio(&clean), Ok(message));
    }
}

/// Two inputs with equal records differ in nothing but reserved bits.
#[test]
fn every_other_bit_counts() {
    for case in 0..60 {
        let dice = &mut Dice::new(14, case);
        let mut message = good_message(dice);
        message.tlvs.truncate(3);
        let bytes = lay_dirty(dice, &message);
        for bit in 0..8 * bytes.len() {
            let mut changed = bytes.clone();
            changed[bit / 8] ^= 0x80 >> (bit % 8);
            let same = read_radio(&changed) == Ok(message.clone());
            assert_eq!(same, is_reserved(&message, bit), "bit {bit}");
        }
    }
}

/// Is this bit of the message's bytes a reserved one?
fn is_reserved(message: &RadioMessage, bit: usize) -> bool {
    let mut start = 80;
    for tlv in &message.tlvs {
        let reserved = match tlv {
            Tlv::LinkMetric(_) => [16..22, 0..0],
            Tlv::TeQueues(_) => [16..18, 24..28],
            _ => [0..0, 0..0],
        };
        if bit >= start && reserved.iter().any(|range| range.contains(&(bit - start))) {
            return true;
        }
        start += 8 * tlv.length();
    }
    false
}

#[test]
fn a_step_shows_a_tlv_from_any_place() {
    let bytes = message(&format!("{HEARTBEAT_BYTES} {METRIC_BYTES}"));
    assert_eq!(tlv_step(&bytes, 10), Ok(Some(Tlv::Heartbeat { timeout: 65_535 })));
    assert_eq!(tlv_step(&bytes, 14), Ok(Some(Tlv::LinkMetric(metric()))));
    for end in [25, 26, 65_537, usize::MAX] {
        assert_eq!(tlv_step(&bytes, end), Ok(None));
    }
    for bad in [0, 9, 11, 13, 15, 24] {
        assert_eq!(tlv_step(&bytes, bad), radio(bad));
    }
    assert_eq!(tlv_step(&vec![5; 65_537], usize::MAX), refuse(LARGE, 65_536));
    // The header is not looked at.
    let mut other = bytes.clone();
    other[..10].fill(0xEE);
    assert_eq!(tlv_step(&other, 14), Ok(Some(Tlv::LinkMetric(metric()))));
}

/// The fields of a TLV, with these numbers behind its own.
fn handed(tlv: &Tlv, behind: u64) -> [u64; MOST_FIELDS] {
    let told = tlv.told();
    let mut fields = [behind; MOST_FIELDS];
    fields[..told.len()].copy_from_slice(&told);
    fields
}

#[test]
fn a_tlv_is_put_at_its_place() {
    let each = [
        (Tlv::TxOp(txop()), TXOP_BYTES),
        (Tlv::Heartbeat { timeout: 65_535 }, HEARTBEAT_BYTES),
        (Tlv::LinkMetric(metric()), METRIC_BYTES),
        (Tlv::TeQueues(queues()), QUEUES_BYTES),
    ];
    for (tlv, bytes) in each {
        let (kind, fields) = (tlv.kind().into(), handed(&tlv, u64::MAX));
        assert_eq!(Tlv::of(kind, &fields), Some(tlv));
        let expected = from_hex(bytes);
        let end = 3 + expected.len();
        let mut buffer = vec![0xEE; 40];
        assert_eq!(put_tlv(kind, &fields, &mut buffer, 3), Ok(expected.len()));
        assert_eq!(buffer[3..end], expected);
        assert!(buffer[..3].iter().chain(&buffer[end..]).all(|&byte| byte == 0xEE));
        assert_eq!(put_tlv(kind, &fields, &mut buffer[..end - 1], 3), refuse(ROOM, end));
        assert_eq!(put_tlv(kind, &fields, &mut [], 65_536 - expected.len()), refuse(ROOM, 65_536));
        for at in [65_537 - expected.len(), 65_536, usize::MAX - 1, usize::MAX] {
            assert_eq!(put_tlv(kind, &fields, &mut [], at), refuse(LARGE, 65_536));
        }
    }
}

/// A type or a width comes before LARGE, a number that may not stand there behind it.
#[test]
fn refusals_in_putting_and_their_order() {
    let fields = handed(&Tlv::LinkMetric(metric()), 0);
    for kind in [0, 2, 3, 4, 7, 11, 256 + 6, u32::MAX] {
        assert_eq!(put_tlv(kind, &fields, &mut [0; 40], 7), radio(7));
        assert_eq!(put_tlv(kind, &fields, &mut [], 70_000), radio(70_000));
    }
    for (index, width) in [8, 32, 16, 8, 8, 8].into_iter().enumerate() {
        let mut wide = fields;
        wide[index] = 1 << width;
        assert_eq!(put_tlv(6, &wide, &mut [], 70_000), radio(70_000));
    }
    for (index, number) in [(0, 64), (0, 255), (1, 1_000_000), (1, u32::MAX.into())] {
        let mut late = fields;
        late[index] = number;
        assert_eq!(put_tlv(6, &late, &mut [], 7), radio(7));
        assert_eq!(put_tlv(6, &late, &mut [], 65_526), refuse(LARGE, 65_536));
    }
}

#[test]
fn a_run_is_written_as_a_message() {
    let header = (0x1122, 0x3344, 0x5566_7788);
    let write = |run: &str, room: usize| {
        let mut buffer = vec![0xEE; room];
        write_run(header, &from_hex(run), &mut buffer).map(|bytes| buffer[..bytes].to_vec())
    };
    // Reserved bits of the run are written zero.
    let dirty = format!("{HEARTBEAT_BYTES} 06 0B FFFF423F 2328 81 7F FF");
    let clean = message(&format!("{HEARTBEAT_BYTES} {METRIC_BYTES}"));
    assert_eq!(write(&dirty, 30), Ok(clean));
    assert_eq!(write(&dirty, 24), refuse(ROOM, 25));
    assert_eq!(write("", 30), radio(0));
    assert_eq!(write("02 04 0000", 0), radio(10));
    assert_eq!(write(&format!("{HEARTBEAT_BYTES} 05 04 00"), 0), radio(14));
    assert_eq!(write_run(header, &[2; 65_527], &mut []), refuse(LARGE, 65_536));
    assert_eq!(write_run(header, &[2; 65_526], &mut []), radio(10));
}
