//! Fragments: cutting and joining.

use super::{m_with, m_with_options, refused};
use crate::both::{clean, cut, join};
use crate::dice::Dice;
use crate::fragments::Cut;
use crate::generate::*;
use crate::paper::{from_hex, message_m};
use crate::pieces::*;
use crate::refusal::*;

/// The fragments of a message at this size.
fn cut_of(message: &[u8], size: usize) -> Vec<u8> {
    let mut buffer = vec![0x5A; 2_000];
    let done = cut(message, size, &mut buffer).unwrap();
    assert!(buffer[done.bytes..].iter().all(|&byte| byte == 0x5A));
    buffer.truncate(done.bytes);
    buffer
}

fn joined(input: &[u8]) -> Vec<u8> {
    // What is joined is never longer than its input.
    let mut buffer = vec![0x5A; input.len()];
    let bytes = join(input, &mut buffer).unwrap();
    assert!(buffer[bytes..].iter().all(|&byte| byte == 0x5A));
    buffer.truncate(bytes);
    buffer
}

fn clean_of(message: &[u8]) -> Vec<u8> {
    let mut buffer = vec![0; 65_536];
    let bytes = clean(message, &mut buffer).unwrap();
    buffer.truncate(bytes);
    buffer
}

/// M in three fragments of 12, 12 and 8 payload bytes.
fn three() -> Vec<Vec<u8>> {
    let bytes = cut_of(&message_m(), 12);
    vec![bytes[..44].to_vec(), bytes[44..88].to_vec(), bytes[88..].to_vec()]
}

#[test]
fn m_in_fragments_of_12_bytes() {
    let expected = from_hex(
        "12000090 00000007 00000005 0000002C 00000064 00000000 86060000 00000000 \
         00000001 000D0000 00000000 \
         120000A0 00000007 00000006 0000002C 00000064 00000000 86060000 000C0000 \
         AA000000 00000002 00100000 \
         120000B0 00000007 00000007 00000028 00000064 00000000 86060000 00180000 \
         0000000A DEADBEEF",
    );
    assert_eq!(cut_of(&message_m(), 12), expected);
    let mut buffer = vec![0; 128];
    assert_eq!(cut(&message_m(), 12, &mut buffer), Ok(Cut { bytes: 128, fragments: 3 }));
    assert_eq!(cut(&message_m(), 12, &mut buffer[..127]), refused(ROOM, 128));
    assert_eq!(joined(&expected), clean_of(&message_m()));
}

#[test]
fn a_payload_that_fits_is_not_cut() {
    for size in [32, 36, 1_000, usize::MAX - 3] {
        assert_eq!(cut_of(&message_m(), size), clean_of(&message_m()));
        assert_eq!(cut(&message_m(), size, &mut [0; 56]), Ok(Cut { bytes: 56, fragments: 1 }));
        assert_eq!(cut(&message_m(), size, &mut [0; 55]), refused(ROOM, 56));
    }
    // One with no payload fits any size.
    let mut empty = message_m()[..24].to_vec();
    (empty[3], empty[15]) = (0x4F, 24);
    assert_eq!(cut_of(&empty, 4), empty);
    assert_eq!(joined(&empty), empty);
    // 28 bytes is one word too few: two fragments.
    assert_eq!(cut(&message_m(), 28, &mut [0; 200]), Ok(Cut { bytes: 96, fragments: 2 }));
}

#[test]
fn the_offset_stands_behind_the_original_options() {
    let message = m_with_options("87060000 00020105 00EEEEEE");
    let fragments = cut_of(&message, 16);
    let first = from_hex("14000090 00000007 00000005 00000038 00000064 00000000");
    assert_eq!(fragments[..24], first);
    assert_eq!(fragments[24..40], from_hex("87060000 00020105 86060000 00000000"));
    assert_eq!(fragments[56 + 24..56 + 32], from_hex("86060000 00100000"));
    // Joining gives the options back, without the offset, in the fewest words.
    let whole = joined(&fragments);
    assert_eq!(whole, clean_of(&message));
    assert_eq!(whole[24..32], from_hex("87060000 00020105"));
}

#[test]
fn id_time_and_other_flags_are_the_wholes() {
    let message = m_with(1, "F0FFCF FFFFFFFF FFFFFFFE 00000038 FFFFFFFF 3B9AC9FF");
    let fragments = cut_of(&message, 4);
    assert_eq!(fragments.len(), 8 * 36);
    for (index, fragment) in fragments.chunks(36).enumerate() {
        let part = [0x10, 0x20, 0x30][usize::from(index > 0) + usize::from(index == 7)];
        assert_eq!(fragment[..4], [0x12, 0, 0, 0xCF | part]);
        assert_eq!(fragment[4..8], [0xFF; 4]);
        // Each has the next number, modulo 2^32.
        assert_eq!(fragment[8..12], 0xFFFF_FFFE_u32.wrapping_add(index as u32).to_be_bytes());
        assert_eq!(fragment[12..16], from_hex("00000024"));
        assert_eq!(fragment[16..24], from_hex("FFFFFFFF 3B9AC9FF"));
        assert_eq!(fragment[26..30], (4 * index as u32).to_be_bytes());
    }
    assert_eq!(joined(&fragments), clean_of(&message));
}

#[test]
fn cutting_refuses_in_its_order() {
    let m = message_m();
    let mut none = [];
    assert_eq!(cut(&vec![0; 65_537], 3, &mut none), refused(LARGE, 65_536));
    assert_eq!(cut(&[], 4, &mut none), refused(SHORT, 0));
    for (bad, number, place) in [
        (m[..23].to_vec(), SHORT, 0),
        (m_with(0, "20"), VERSION, 0),
        (m_with(1, "01"), TYPE, 0),
        (m_with(15, "37"), LENGTH, 0),
        (m_with(15, "3C"), CUT, 0),
        (m_with(20, "3B9ACA00"), TIME, 0),
        (m_with_options("87050000 00020000"), OPTION, 24),
        (m_with_options("86060000 00008606 00000000"), OPTION, 30),
        (m_with(3, "90"), FRAGMENT, 0),
        (m_with(3, "00"), STANDARD, 0),
        (m_with(29, "0B"), PACKAGE, 24),
        (m_with_options("87060000 00010000"), COUNT, 0),
    ] {
        // A bad size comes behind the message checks.
        assert_eq!(cut(&bad, 3, &mut none), refused(number, place));
    }
    // A bad size comes before an offset.
    let offset = m_with_options("01028606 00000000");
    for size in [0, 1, 2, 3, 5, 6, 7, usize::MAX] {
        assert_eq!(cut(&m, size, &mut none), refused(LENGTH, 0));
        assert_eq!(cut(&offset, size, &mut none), refused(LENGTH, 0));
    }
    // Any offset, even where nothing is cut.
    assert_eq!(cut(&offset, 4, &mut none), refused(OPTION, 26));
    assert_eq!(cut(&offset, 32, &mut none), refused(OPTION, 26));
    // Behind an option of kind 0x00 it is none.
    let behind = m_with_options("01008606 00000000");
    assert_eq!(cut(&behind, 32, &mut [0; 60]), Ok(Cut { bytes: 60, fragments: 1 }));
}

#[test]
fn one_that_is_to_be_added_must_fit() {
    for run in 50..=60 {
        let mut options = vec![1; run];
        options.resize(run.div_ceil(4) * 4, 0);
        let hex: String = options.iter().map(|byte| format!("{byte:02X}")).collect();
        let message = m_with_options(&hex);
        let answer = cut(&message, 4, &mut [0; 600]);
        if run <= 54 {
            assert_eq!(answer.map(|cut| cut.fragments), Ok(8));
        } else {
            assert_eq!(answer, refused(OPTION, 24));
        }
        // Where none is to be added there is nothing to fit.
        assert_eq!(cut(&message, 32, &mut [0; 600]).map(|cut| cut.fragments), Ok(1));
    }
    // It comes before ROOM, and behind a bad size.
    let full = m_with_options(&"01".repeat(60));
    assert_eq!(cut(&full, 4, &mut []), refused(OPTION, 24));
    assert_eq!(cut(&full, 6, &mut []), refused(LENGTH, 0));
}

#[test]
fn cutting_ignores_what_follows_the_message() {
    let input = [message_m(), vec![0xEE; 9]].concat();
    assert_eq!(cut_of(&input, 12), cut_of(&message_m(), 12));
}

#[test]
fn joining_cleans_one_whole_message() {
    assert_eq!(joined(&message_m()), clean_of(&message_m()));
    // Its offset, if it has one, stays; only fragments lose it.
    let offset = m_with_options("86060000 000900EE");
    assert_eq!(joined(&offset), clean_of(&offset));
    // 9 and on at place 0.
    assert_eq!(join(&m_with(3, "00"), &mut []), refused(STANDARD, 0));
    assert_eq!(join(&m_with(29, "0B"), &mut []), refused(PACKAGE, 0));
    assert_eq!(join(&m_with(29, "11"), &mut []), refused(PACKAGE, 0));
    assert_eq!(join(&m_with_options("87060000 00010000"), &mut []), refused(COUNT, 0));
    assert_eq!(join(&message_m(), &mut [0; 55]), refused(ROOM, 56));
    // Nothing has a place behind it.
    let m = message_m();
    assert_eq!(join(&[&m[..], &m].concat(), &mut []), refused(GAP, 56));
    assert_eq!(join(&[&m[..], &[0; 23]].concat(), &mut []), refused(SHORT, 56));
    assert_eq!(join(&[m_with(3, "00"), m_with(0, "20")].concat(), &mut []), refused(VERSION, 56));
    assert_eq!(join(&[m_with(3, "00"), m].concat(), &mut []), refused(GAP, 56));
}

#[test]
fn nothing_at_all_lacks_its_last() {
    assert_eq!(join(&[], &mut []), refused(GAP, 0));
    let parts = three();
    assert_eq!(join(&parts[0], &mut []), refused(GAP, 44));
    assert_eq!(join(&parts[..2].concat(), &mut []), refused(GAP, 88));
    assert_eq!(
        join(&[&parts[0][..], &parts[1], &parts[2]].concat(), &mut [0; 55]),
        refused(ROOM, 56)
    );
}

#[test]
fn a_fragment_out_of_place_is_a_gap() {
    let parts = three();
    let gap = |order: &[usize], place: usize| {
        let input: Vec<u8> = order.iter().flat_map(|&index| parts[index].clone()).collect();
        assert_eq!(join(&input, &mut []), refused(GAP, place), "{order:?}");
    };
    gap(&[1, 2], 0);
    gap(&[2], 0);
    gap(&[0, 2], 44);
    gap(&[0, 0, 1, 2], 44);
    gap(&[0, 1, 1, 2], 88);
    gap(&[0, 1, 2, 2], 128);
    gap(&[0, 1, 2, 0], 128);
    gap(&[0, 2, 1], 44);
    // A whole message among the fragments, and behind them.
    let with = |at: usize| {
        let mut some = parts.clone();
        some.insert(at, message_m());
        some.concat()
    };
    assert_eq!(join(&with(1), &mut []), refused(GAP, 44));
    assert_eq!(join(&with(3), &mut []), refused(GAP, 128));
    assert_eq!(join(&with(0), &mut []), refused(GAP, 56));
}

#[test]
fn each_thing_that_must_agree() {
    let good = three().concat();
    assert!(join(&good, &mut [0; 56]).is_ok());
    let gap = |at: usize, bits: u8, place: usize| {
        let mut bad = good.clone();
        bad[at] ^= bits;
        assert_eq!(join(&bad, &mut [0; 56]), refused(GAP, place), "byte {at}");
    };
    for place in [44, 88] {
        // Bit 7, 6, 3, 2, 1, 0; id; number; time.
        for bits in [0x80, 0x40, 8, 4, 2, 1] {
            gap(place + 3, bits, place);
        }
        gap(place + 4, 0x80, place);
        gap(place + 7, 1, place);
        gap(place + 8, 0x80, place);
        gap(place + 11, 1, place);
        gap(place + 16, 0x80, place);
        gap(place + 19, 1, place);
        gap(place + 23, 1, place);
        // Offset.
        gap(place + 26, 0x80, place);
        gap(place + 29, 4, place);
        gap(place + 29, 1, place);
        // Another kind than that of the offset.
        gap(place + 24, 0x86 ^ 0x87, place);
        gap(place + 24, 0x86 ^ 0x81, place);
    }
    gap(29, 4, 0);
    gap(26, 0x80, 0);
    // Bits 5-4.
    gap(3, 0x30, 0);
    // A whole one in the first one's place: nothing has a place behind it.
    gap(3, 0x10, 44);
    gap(44 + 3, 0x30, 44);
    gap(88 + 3, 0x20, 88);
    // A middle one in the last one's place: the last is missing, at the end.
    gap(88 + 3, 0x10, 128);
    // A last one in a middle one's place: the next one is out of place.
    gap(44 + 3, 0x10, 88);
    // Reserved bits do not count.
    let mut dirty = good.clone();
    for place in [0, 44, 88] {
        dirty[place + 1] = 0xF0 ^ (place as u8) << 4;
        dirty[place + 2] = 0xFF ^ place as u8;
        dirty[place + 31] = 0xEE;
    }
    assert_eq!(joined(&dirty), clean_of(&message_m()));
}

/// 1 to 7 and GAP are asked fragment by fragment.
#[test]
fn checks_1_to_7_come_before_a_gap_in_the_same_fragment() {
    let parts = three();
    let cut = &parts[2][..39];
    let input = [&parts[0][..], &parts[2], cut].concat();
    assert_eq!(join(&input, &mut []), refused(GAP, 44));
    let input = [&parts[0][..], cut].concat();
    assert_eq!(join(&input, &mut []), refused(CUT, 44));
    let change = |at: usize, byte: u8| {
        let mut bad = parts.concat();
        bad[at] = byte;
        // Something that makes a gap in the same fragment, too.
        bad[44 + 7] ^= 1;
        join(&bad, &mut [])
    };
    assert_eq!(change(44, 0x22), refused(VERSION, 44));
    assert_eq!(change(44 + 1, 0x01), refused(TYPE, 44));
    assert_eq!(change(44 + 15, 0x2D), refused(LENGTH, 44));
    assert_eq!(change(44 + 15, 0x1C), refused(LENGTH, 44));
    assert_eq!(change(44 + 12, 0x01), refused(CUT, 44));
    assert_eq!(change(44 + 20, 0xFF), refused(TIME, 44));
    assert_eq!(change(44 + 25, 0x05), refused(OPTION, 68));
    assert_eq!(join(&vec![0; 65_537], &mut []), refused(LARGE, 65_536));
    assert_eq!(join(&[0x10; 23], &mut []), refused(SHORT, 0));
}

/// A fragment of M with these numbers and this payload.
fn part(flags: u8, sequence: u32, options: &[u8], payload: &[u8]) -> Vec<u8> {
    let mut out = Vec::new();
    let fill = options.len().div_ceil(4) * 4 - options.len();
    DirtyFragment {
        reserved_nibble: 0,
        reserved_flags: 0,
        flags,
        message_id: 7,
        sequence,
        seconds: 100,
        nanoseconds: 0,
        options: options.to_vec(),
        behind_options: vec![0; fill],
        payload: payload.to_vec(),
    }
    .lay(&mut out);
    out
}

#[test]
fn the_whole_is_checked_from_9_on_at_place_0() {
    let m = message_m();
    let (zero, eight) = (from_hex("8606 00000000"), from_hex("8606 00000008"));
    let two = |flags: u8, count: &str, payload: &[u8]| {
        let options = [from_hex(count), zero.clone()].concat();
        [
            part(flags | 0x10, 5, &options, &payload[..8]),
            part(flags | 0x30, 6, &eight, &payload[8..]),
        ]
        .concat()
    };
    assert_eq!(joined(&two(0x80, "", &m[24..])), clean_of(&m));
    assert_eq!(join(&two(0x00, "", &m[24..]), &mut []), refused(STANDARD, 0));
    assert_eq!(join(&two(0x80, "", &m[24..52]), &mut []), refused(PACKAGE, 0));
    assert_eq!(join(&two(0x80, "8706 00000001", &m[24..]), &mut []), refused(COUNT, 0));
    assert_eq!(join(&two(0x80, "8706 00000002", &m[24..]), &mut []), refused(ROOM, 64));
    // Bit 7 comes before the packages, the packages before the count.
    assert_eq!(join(&two(0x00, "8706 00000001", &m[24..52]), &mut []), refused(STANDARD, 0));
    assert_eq!(join(&two(0x80, "8706 00000001", &m[24..52]), &mut []), refused(PACKAGE, 0));
    // A count in a later fragment is compared with nothing and dropped.
    let later = [eight.clone(), from_hex("8706 00000063")].concat();
    let input = [part(0x90, 5, &zero, &m[24..32]), part(0xB0, 6, &later, &m[32..])].concat();
    assert_eq!(joined(&input), clean_of(&m));
    // A fragment's own packages and bit 7 are not looked at before that.
    let second = [eight.clone(), eight].concat();
    let input = [part(0x90, 5, &zero, &m[24..32]), part(0xB0, 6, &second, &m[32..])].concat();
    assert_eq!(join(&input, &mut []), refused(OPTION, 40 + 24 + 6));
}

#[test]
fn fragments_may_be_empty() {
    let m = message_m();
    let (zero, all) = (from_hex("8606 00000000"), from_hex("8606 00000020"));
    let input = [
        part(0x90, u32::MAX - 1, &zero, &[]),
        part(0xA0, u32::MAX, &zero, &m[24..]),
        part(0xA0, 0, &all, &[]),
        part(0xB0, 1, &all, &[]),
    ]
    .concat();
    let mut whole = m.clone();
    whole[8..12].copy_from_slice(&[0xFF, 0xFF, 0xFF, 0xFE]);
    assert_eq!(joined(&input), clean_of(&whole));
    // Without any payload bit 7 decides.
    let none =
        |flags: u8| [part(flags | 0x10, 5, &zero, &[]), part(flags | 0x30, 6, &zero, &[])].concat();
    assert_eq!(joined(&none(0x4F)).len(), 24);
    assert_eq!(join(&none(0x80), &mut []), refused(STANDARD, 0));
}

/// Joining what was cut, if at most 65,536 bytes, gives the clean form.
#[test]
fn cut_then_joined_is_the_clean_form() {
    let (mut many, mut large) = (0, 0);
    for case in 0..2_000 {
        let dice = &mut Dice::new(51, case);
        let world = World::new(dice);
        let mut one = message_to_cut(dice, &world);
        if case % 40 == 0 {
            let size = 4 * dice.within(6, 16_384);
            one = message_of_size(dice, &world, size);
        }
        let words = dice.within(1, 12);
        let size = dice.pick(&[4, 8, 4 * words, 40 * words, 1_400, 65_512]);
        let message = one.laid();
        let mut buffer = vec![0; 700_000];
        let done = match cut(&message, size, &mut buffer) {
            Ok(done) => done,
            Err(refusal) => {
                assert_eq!((refusal.number, refusal.place), (OPTION, 24));
                assert!(one.options.len() > 54);
                continue;
            }
        };
        buffer.truncate(done.bytes);
        many += usize::from(done.fragments > 2);
        if done.bytes > 65_536 {
            large += 1;
            assert_eq!(join(&buffer, &mut []), refused(LARGE, 65_536));
        } else {
            assert_eq!(joined(&buffer), clean_of(&message), "case {case}");
        }
    }
    assert!(many > 300 && large > 3, "{many} {large}");
}

/// However a message was split, joining gives the clean form; what is out of
/// place is refused.
#[test]
fn split_then_joined_is_the_clean_form() {
    let mut gaps = [0; FRAGMENT_FAULTS];
    for case in 0..2_000 {
        let dice = &mut Dice::new(52, case);
        let world = World::new(dice);
        let one = message_to_split(dice, &world);
        let parts = split(dice, &world, &one);
        assert_eq!(joined(&lay_fragments(&parts).0), clean_of(&one.laid()), "case {case}");
        let way = case as usize % FRAGMENT_FAULTS;
        let broken = broken_fragments(dice, parts, way);
        let answer = join(&broken, &mut vec![0; 65_536]);
        if ALWAYS_REFUSED.contains(&way) {
            assert!(answer.is_err(), "case {case}, way {way}");
        }
        gaps[way] += usize::from(answer.is_err_and(|refusal| refusal.number == GAP));
    }
    for (way, count) in gaps.iter().enumerate().take(13) {
        assert!(*count > 20, "way {way}: {count}");
    }
}
