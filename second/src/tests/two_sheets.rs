//! Two sheets in turn.

use super::m_with;
use crate::copy::{is_granted, list_of, write_list};
use crate::dice::Dice;
use crate::orders::*;
use crate::pairs::{stands_in, Pair};
use crate::paper::{from_hex, message_m, row_r};
use crate::parse::read_recording;
use crate::refusal::MOST_BYTES;
use crate::sheet::{read_sheet, Row};
use crate::text::release_copy;

/// A copy under the rows of one sheet and then under those of another.
fn in_turn(recording: &[u8], first: &[Row], second: &[Row]) -> Vec<u8> {
    release_copy(&release_copy(recording, &pack_sheet(first)), &pack_sheet(second))
}

/// The copy of the packages that both sheets grant, or that either does.
fn copy_of(recording: &[u8], first: &[Row], second: &[Row], both: bool) -> Vec<u8> {
    let messages = read_recording(recording).unwrap();
    let list = list_of(messages, |message, package| {
        let (one, other) =
            (is_granted(first, message, package), is_granted(second, message, package));
        if both {
            one && other
        } else {
            one || other
        }
    });
    let mut bytes = vec![0; recording.len()];
    let copied = write_list(list, &mut bytes).unwrap();
    bytes.truncate(copied.bytes);
    bytes
}

#[test]
fn m_under_r_and_then_under_a_wider_sheet_is_p10() {
    let r = read_sheet(&row_r()).unwrap();
    let p10 = from_hex(
        "100000C0 00000007 00000000 00000028 00000064 00000000 \
         00000001 000D0000 00000000 AA000000",
    );
    for wider in [vec![everything()], vec![everything(), r[0]], r.clone()] {
        assert_eq!(in_turn(&message_m(), &r, &wider), p10);
        assert_eq!(in_turn(&message_m(), &wider, &r), p10);
    }
    let second = Row { package_first: 2, package_last: 2, ..everything() };
    assert_eq!(in_turn(&message_m(), &r, &[second]), []);
    assert_eq!(in_turn(&message_m(), &[second], &r), []);
    assert_eq!(in_turn(&message_m(), &r, &[]), []);
}

/// The first sheet takes a package out and the second one a message; the
/// sequence numbers count what is left.
#[test]
fn what_both_sheets_grant_is_numbered_afresh() {
    let recording = [message_m(), m_with(27, "03"), m_with(19, "C8"), message_m()].concat();
    let without_3 = Row { package_last: 2, ..everything() };
    let until_200 = Row { end_seconds: 200, end_nanoseconds: 0, ..everything() };
    let one = in_turn(&recording, &[without_3], &[until_200]);
    assert_eq!(one, in_turn(&recording, &[until_200], &[without_3]));
    let messages = read_recording(&one).unwrap();
    let told = |index: usize| {
        let message = &messages[index].message;
        (message.sequence, message.seconds, message.packages.len())
    };
    assert_eq!(messages.len(), 3);
    assert_eq!([told(0), told(1), told(2)], [(0, 100, 2), (1, 100, 1), (2, 100, 2)]);
}

#[test]
fn touching_windows_have_nothing_in_common_and_overlapping_ones_the_seam() {
    let at = |nanoseconds: u64| 100_000_000_000 + nanoseconds;
    let window = |start: u64, end: u64| [with_window(everything(), at(start), at(end))];
    assert_eq!(in_turn(&message_m(), &window(0, 10), &window(10, 20)), []);
    let seam = in_turn(&message_m(), &window(0, 11), &window(10, 20));
    assert_eq!(seam, release_copy(&message_m(), &pack_sheet(&window(10, 11))));
    assert_eq!(seam.len(), 40);
}

#[test]
fn a_copy_stands_in_another_with_all_its_packages_in_order() {
    let of = |recording: &[Vec<u8>], first: u32, last: u32| {
        let row = Row { package_first: first, package_last: last, ..everything() };
        release_copy(&recording.concat(), &pack_sheet(&[row]))
    };
    let (m, later) = (message_m(), m_with(19, "65"));
    let all = of(&[m.clone(), later.clone()], 1, 2);
    for (messages, first, last) in [
        (vec![m.clone()], 1, 1),
        (vec![later.clone()], 2, 2),
        (vec![m.clone(), later.clone()], 2, 2),
    ] {
        assert!(stands_in(&of(&messages, first, last), &all));
        assert!(!stands_in(&all, &of(&messages, first, last)));
    }
    assert!(stands_in(&all, &all) && stands_in(&[], &all));
    assert!(!stands_in(&of(&[later, m.clone()], 1, 2), &all), "messages in another order");
    let swapped = [&m[..24], &m[40..], &m[24..40]].concat();
    assert!(!stands_in(&of(&[swapped], 1, 2), &all), "packages in another order");
    let other = m_with(36, "BB");
    assert!(!stands_in(&of(&[other], 1, 1), &all), "another package");
    assert!(!stands_in(&of(&[m.clone(), m], 1, 1), &all), "a message twice");
}

#[test]
fn two_sheets_in_turn_release_what_both_grant() {
    let (mut telling, mut more, mut joins) = (0, 0, 0);
    for case in 0..500 {
        let dice = &mut Dice::new(31, case);
        let pair = Pair::new(dice);
        let (first, second) = (&pair.first, &pair.second);
        let recording = pair.recording();
        assert!(recording.len() <= MOST_BYTES);
        assert_eq!(read_sheet(&pack_sheet(first)).as_ref(), Ok(first), "case {case}");
        assert_eq!(read_sheet(&pack_sheet(second)).as_ref(), Ok(second), "case {case}");
        let both = in_turn(&recording, first, second);
        assert_eq!(both, in_turn(&recording, second, first), "case {case}");
        assert_eq!(both, copy_of(&recording, first, second, true), "case {case}");
        let single = [first, second].map(|rows| release_copy(&recording, &pack_sheet(rows)));
        assert_eq!(in_turn(&recording, first, first), single[0], "case {case}");
        telling += usize::from(!both.is_empty() && !single.contains(&both));
        if let Some(rows) = pair.added(dice) {
            assert_eq!(read_sheet(&pack_sheet(&rows)).as_ref(), Ok(&rows), "case {case}");
            let larger = release_copy(&recording, &pack_sheet(&rows));
            assert!(stands_in(&single[0], &larger), "case {case}");
            more += usize::from(larger != single[0]);
        }
        if let Some(rows) = pair.joined(dice) {
            let joined = release_copy(&recording, &pack_sheet(&rows));
            assert_eq!(joined, copy_of(&recording, first, second, false), "case {case}");
            joins += usize::from(!single.contains(&joined));
        }
    }
    assert!(telling > 100 && more > 200 && joins > 100, "{telling}, {more}, {joins}");
}
