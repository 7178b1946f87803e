//! Salvage.

use super::{m_with, m_with_options, refused};
use crate::blocks::{bad_blocks, nested, slow, with_holes, BadBlock, BLOCK_PLACES, FILLS};
use crate::both::{check, salvage};
use crate::dice::Dice;
use crate::paper::message_m;
use crate::parse::{message_at, read_header};
use crate::refusal::*;
use crate::salvage::{sift, Salvaged, Stretch};

/// The kept messages and the stretches, as pairs of start and length.
fn salvaged(input: &[u8]) -> (Vec<u8>, usize, Vec<(usize, usize)>) {
    let mut buffer = vec![0x5A; input.len() + 4];
    let Salvaged { bytes, messages, stretches } = salvage(input, &mut buffer).unwrap();
    assert!(buffer[bytes..].iter().all(|&byte| byte == 0x5A));
    buffer.truncate(bytes);
    (buffer, messages, stretches.iter().map(|one| (one.start, one.length)).collect())
}

#[test]
fn kept_messages_are_written_unchanged() {
    // Dirt stays: M's padding and reserved byte.
    let two = [message_m(), message_m()].concat();
    assert_eq!(salvaged(&two), (two.clone(), 2, vec![]));
    assert_eq!(salvaged(&[]), (vec![], 0, vec![]));
}

#[test]
fn four_bytes_are_skipped_or_what_is_left() {
    let m = message_m();
    let junk = [0xEE; 8];
    assert_eq!(salvaged(&junk[..3]), (vec![], 0, vec![(0, 3)]));
    assert_eq!(salvaged(&junk[..5]), (vec![], 0, vec![(0, 5)]));
    assert_eq!(salvaged(&[&junk[..4], &m].concat()), (m.clone(), 1, vec![(0, 4)]));
    assert_eq!(salvaged(&[&junk[..], &m].concat()), (m.clone(), 1, vec![(0, 8)]));
    // A message at an offset that is no multiple of 4 is not seen.
    assert_eq!(salvaged(&[&junk[..2], &m].concat()), (vec![], 0, vec![(0, 58)]));
    // Behind a kept message the offset goes on from its end.
    let odd = [&m[..], &junk[..3]].concat();
    assert_eq!(salvaged(&odd), (m.clone(), 1, vec![(56, 3)]));
    let between = [&m[..], &junk[..4], &m, &junk[..1]].concat();
    assert_eq!(salvaged(&between), ([m.clone(), m.clone()].concat(), 2, vec![(56, 4), (116, 1)]));
}

#[test]
fn a_message_that_fails_any_check_is_skipped() {
    let m = message_m();
    let bad = [
        m_with(0, "20"),
        m_with(1, "01"),
        m_with(15, "37"),
        m_with(20, "3B9ACA00"),
        m_with(3, "90"),
        m_with(3, "00"),
        m_with(29, "0B"),
        m_with_options("87050000 00020000"),
        m_with_options("87060000 00010000"),
        m_with_options("86060000 00008606 00000000"),
    ];
    for bad in bad {
        assert!(check(&bad).is_err());
        let input = [&m[..], &bad, &m].concat();
        let expected = ([m.clone(), m.clone()].concat(), 2, vec![(56, bad.len())]);
        assert_eq!(salvaged(&input), expected);
    }
    // CUT and SHORT against the input's end.
    assert_eq!(salvaged(&m[..52]), (vec![], 0, vec![(0, 52)]));
    assert_eq!(salvaged(&m[..23]), (vec![], 0, vec![(0, 23)]));
    // A length that reaches over the next message, but not over the input.
    let long = m_with(15, "70");
    assert_eq!(salvaged(&[&long[..], &m].concat()), (m.clone(), 1, vec![(0, 56)]));
}

#[test]
fn the_65th_stretch_is_refused_at_its_start() {
    let m = message_m();
    let holes = |count: usize| {
        let mut input = Vec::new();
        for _ in 0..count {
            input.extend([0xEE; 4]);
            input.extend(&m);
        }
        input
    };
    assert_eq!(salvaged(&holes(64)).2.len(), 64);
    assert_eq!(salvage(&holes(65), &mut []), refused(HOLES, 64 * 60));
    assert_eq!(salvage(&holes(66), &mut [0; 4_000]), refused(HOLES, 64 * 60));
    // The last bytes can be the 65th.
    let input = [&holes(64)[..], &[0]].concat();
    assert_eq!(salvage(&input, &mut []), refused(HOLES, 64 * 60));
    assert_eq!(salvage(&holes(64), &mut [0; 3_583]), refused(ROOM, 64 * 56));
}

#[test]
fn the_refusals_in_their_order() {
    let large = vec![0xEE; 65_537];
    assert_eq!(salvage(&large, &mut []), refused(LARGE, 65_536));
    assert_eq!(salvaged(&large[..65_536]).2, vec![(0, 65_536)]);
    let mut buffer = [0x5A; 55];
    assert_eq!(salvage(&message_m(), &mut buffer), refused(ROOM, 56));
    assert_eq!(buffer, [0x5A; 55]);
    assert_eq!(salvage(&[0xEE; 40], &mut []).unwrap().bytes, 0);
}

/// Kept messages and stretches cover the input with no overlap; a stretch ends
/// only at a kept message; what is kept is a good recording.
#[test]
fn kept_and_skipped_cover_the_input() {
    let (mut holes, mut inner) = (0, 0);
    for case in 0..3_000 {
        let dice = &mut Dice::new(31, case);
        let input = match case % 3 {
            0 => bad_blocks(dice),
            1 => nested(dice),
            _ => {
                let count = dice.within(1, 70);
                with_holes(dice, count)
            }
        };
        let (kept, skipped) = sift(&input);
        let mut all: Vec<(Stretch, bool)> = kept.iter().map(|&one| (one, true)).collect();
        all.extend(skipped.iter().map(|&one| (one, false)));
        all.sort_by_key(|(one, _)| one.start);
        let mut at = 0;
        let mut was_kept = true;
        for (one, is_kept) in all {
            assert_eq!(one.start, at, "case {case}");
            assert!(one.length > 0 && (is_kept || was_kept), "case {case}");
            if !is_kept {
                for offset in (one.start..one.end()).step_by(4) {
                    assert!(message_at(&input, offset).is_err());
                }
            }
            (at, was_kept) = (one.end(), is_kept);
        }
        assert_eq!(at, input.len(), "case {case}");
        let parts: Vec<u8> =
            kept.iter().flat_map(|one| input[one.start..one.end()].to_vec()).collect();
        assert!(check(&parts).is_ok());
        if skipped.len() <= 64 {
            let (written, messages, stretches) = salvaged(&input);
            assert_eq!((written, messages), (parts, kept.len()));
            assert_eq!(stretches, skipped.iter().map(|o| (o.start, o.length)).collect::<Vec<_>>());
        } else {
            assert_eq!(salvage(&input, &mut []), refused(HOLES, skipped[64].start));
        }
        holes += usize::from(skipped.len() > 1);
        inner += usize::from(case % 3 == 1 && !kept.is_empty() && !skipped.is_empty());
    }
    assert!(holes > 1_000 && inner > 300, "{holes} {inner}");
}

/// What a bad block does not touch is kept, unless something passes where it is.
#[test]
fn a_bad_block_costs_what_it_touches() {
    let mut alone = 0;
    for case in 0..1_500 {
        let dice = &mut Dice::new(32, case);
        let (place, fill) = (dice.pick(&BLOCK_PLACES), dice.pick(&FILLS));
        let length = dice.within(1, 300);
        let block = BadBlock::new(dice, place, fill, length);
        let (written, messages, stretches) = salvaged(&block.good);
        assert_eq!((written, messages), (block.good.clone(), block.messages.len()));
        assert_eq!(stretches, []);
        if block.nothing_passes() {
            let (written, _, stretches) = salvaged(&block.bad);
            assert_eq!(written, block.untouched());
            assert_eq!(stretches, [(block.touched.start, block.touched.length)]);
            alone += 1;
        }
    }
    assert!(alone > 1_000, "{alone}");
}

/// A slow input is skipped whole, though a header passes at a third of all
/// offsets and its packages do to the last.
#[test]
fn a_slow_input_is_skipped_whole() {
    let input = slow(4_096);
    assert_eq!(salvaged(&input), (vec![], 0, vec![(0, 16_384)]));
    let (mut headers, mut packages) = (0, 0);
    for at in (0..input.len()).step_by(4) {
        if read_header(&input[at..]).is_ok() {
            let Err(refusal) = message_at(&input, at) else { panic!("a message passes") };
            assert_eq!(refusal.number, PACKAGE);
            assert!(refusal.place > 16_350);
            headers += 1;
            packages += (refusal.place - at) / 12;
        }
    }
    assert!(headers > 1_350 && packages > 925_000, "{headers} {packages}");
}
