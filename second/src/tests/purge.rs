//! Purge in the buffer.

use super::{m_with, m_with_options, refused};
use crate::both::{check, clean, copy_measure, purge};
use crate::copy::{is_granted, released_list};
use crate::dice::Dice;
use crate::orders::*;
use crate::paper::{from_hex, message_m, row_r};
use crate::parse::*;
use crate::purge::kept_records;
use crate::refusal::*;
use crate::rests::{change_record, Scene};
use crate::sheet::Row;

/// The buffer after a purge, and the bytes in use.
fn after(recording: &[u8], sheet: &[u8]) -> (Vec<u8>, usize) {
    let mut buffer = recording.to_vec();
    let used = purge(&mut buffer, sheet).unwrap();
    assert!(buffer[used..].iter().all(|&byte| byte == 0));
    (buffer, used)
}

#[test]
fn every_package_that_the_sheet_grants_goes() {
    let (buffer, used) = after(&message_m(), &row_r());
    assert_eq!(used, 40);
    // The reserved byte 55 is 0 in what stays.
    let expected = from_hex(
        "10000080 00000007 00000005 00000028 00000064 00000000 \
         00000002 00100000 0000000A DEADBEEF 00000000 00000000 00000000 00000000",
    );
    assert_eq!(buffer, expected);
    // The other package stays without its padding.
    let second = pack_sheet(&[Row { package_first: 2, package_last: 2, ..everything() }]);
    let (buffer, used) = after(&message_m(), &second);
    assert_eq!((used, &buffer[24..40]), (40, &from_hex("00000001 000D0000 00000000 AA000000")[..]));
}

#[test]
fn a_message_that_loses_its_last_package_goes_whole() {
    let (buffer, used) = after(&message_m(), &pack_sheet(&[everything()]));
    assert_eq!((buffer, used), (vec![0; 56], 0));
    let three = [message_m(), m_with(7, "08"), message_m()].concat();
    let sevens = Row { message_first: 7, message_last: 7, ..everything() };
    let (buffer, used) = after(&three, &pack_sheet(&[sevens]));
    assert_eq!((used, buffer[7]), (56, 8));
}

#[test]
fn a_message_with_no_packages_stays_in_clean_form() {
    let mut empty = m_with_options("01020000 EEEEEEEE");
    empty.truncate(32);
    (empty[1], empty[2], empty[3], empty[15]) = (0xF0, 0xFF, 0x4F, 32);
    let (buffer, used) = after(&empty, &pack_sheet(&[everything()]));
    assert_eq!(used, 28);
    let expected =
        from_hex("1100004F 00000007 00000005 0000001C 00000064 00000000 01020000 00000000");
    assert_eq!(buffer, expected);
}

#[test]
fn sequence_numbers_and_options_are_kept_and_the_count_is_set() {
    let message = m_with_options("01860600 00000987 06000000 020500EE");
    let (buffer, used) = after(&message, &row_r());
    assert_eq!(used, 24 + 16 + 16);
    assert_eq!(buffer[..24], from_hex("14000080 00000007 00000005 00000038 00000064 00000000"));
    assert_eq!(buffer[24..40], from_hex("01860600 00000987 06000000 01050000"));
    // A message that loses nothing keeps its count.
    let (buffer, used) = after(&message, &[]);
    assert_eq!(used, 72);
    assert_eq!(buffer[24..40], from_hex("01860600 00000987 06000000 02050000"));
    // The same bytes inside another option's data, or behind an option of kind
    // 0x00, are no count.
    let inside = m_with_options("80088706 00000002");
    assert_eq!(after(&inside, &row_r()).0[24..32], from_hex("80088706 00000002"));
    let behind = m_with_options("05008706 00000009");
    assert_eq!(after(&behind, &row_r()).0[24..32], from_hex("05000000 00000002"));
}

#[test]
fn windows_are_half_open_and_the_bit_is_followed() {
    let to = |end: u32| {
        let row = Row { end_seconds: 100, end_nanoseconds: end, ..everything() };
        after(&message_m(), &pack_sheet(&[row])).1
    };
    assert_eq!((to(10), to(11)), (40, 0));
    let acquired = pack_sheet(&[Row { acquired_only: true, ..everything() }]);
    assert_eq!(after(&m_with(3, "88"), &acquired).1, 56);
    assert_eq!(after(&message_m(), &acquired).1, 0);
}

#[test]
fn the_refusals_in_their_order() {
    let bad = pack_row(&everything(), 2);
    let large = vec![0; 65_537];
    let keep = |buffer: &[u8], sheet: &[u8], number: u32, place: usize| {
        let mut given = buffer.to_vec();
        assert_eq!(purge(&mut given, sheet), refused(number, place));
        assert_eq!(given, buffer);
    };
    keep(&large, &bad, ROW, 0);
    keep(&large, &[0; 33], ROW, 33);
    keep(&large, &vec![0; 1_056], ROW, 1_056);
    keep(&large, &row_r(), LARGE, 65_536);
    keep(&message_m()[..23], &row_r(), SHORT, 0);
    keep(&m_with(0, "20"), &row_r(), VERSION, 0);
    keep(&m_with(1, "01"), &row_r(), TYPE, 0);
    keep(&m_with(15, "37"), &row_r(), LENGTH, 0);
    keep(&m_with(15, "3C"), &row_r(), CUT, 0);
    keep(&m_with(20, "3B9ACA00"), &row_r(), TIME, 0);
    keep(&m_with_options("87050000 00020000"), &row_r(), OPTION, 24);
    keep(&m_with_options("87060000 00028706 00000002"), &row_r(), OPTION, 30);
    keep(&m_with(3, "90"), &row_r(), FRAGMENT, 0);
    keep(&m_with(3, "00"), &row_r(), STANDARD, 0);
    keep(&m_with(29, "0B"), &row_r(), PACKAGE, 24);
    keep(&m_with_options("87060000 00010000"), &row_r(), COUNT, 0);
    // A late refusal changes nothing that stands before it.
    keep(&[message_m(), m_with(29, "0B")].concat(), &row_r(), PACKAGE, 80);
    keep(&[message_m(), message_m()[..20].to_vec()].concat(), &row_r(), SHORT, 56);
    assert_eq!(purge(&mut [], &row_r()), Ok(0));
    assert_eq!(purge(&mut [], &[]), Ok(0));
}

#[test]
fn freed_bytes_may_be_appended_to() {
    let (mut buffer, used) = after(&[message_m(), message_m()].concat(), &row_r());
    assert_eq!(used, 80);
    // The zero bytes themselves are no messages.
    assert_eq!(check(&buffer), refused(VERSION, 80));
    buffer.truncate(used);
    buffer.extend(message_m());
    assert_eq!(check(&buffer), Ok((3, 4)));
}

/// What stays reads back as the kept records; copy and purge part the recording;
/// a second purge changes nothing more.
#[test]
fn what_stays_and_the_copy_part_the_recording() {
    let (mut parted, mut counted, mut whole) = (0, 0, 0);
    for case in 0..600 {
        let scene = Scene::new(&mut Dice::new(41, case));
        let (recording, sheet) = (scene.recording(), pack_sheet(&scene.rows));
        let before = read_recording(&recording).unwrap();
        let (buffer, used) = after(&recording, &sheet);
        let left = read_recording(&buffer[..used]).unwrap();
        let released = released_list(before.clone(), &scene.rows);
        let (mut stay, mut go) = (left.iter(), released.iter());
        for Placed { message, .. } in &before {
            let grants = |package: &&Package| is_granted(&scene.rows, message, package);
            let goes: Vec<&Package> = message.packages.iter().filter(grants).collect();
            if !goes.is_empty() {
                assert!(go.next().unwrap().packages.iter().eq(goes.iter().copied()));
            }
            let kept: Vec<&Package> =
                message.packages.iter().filter(|package| !grants(package)).collect();
            if kept.is_empty() && !message.packages.is_empty() {
                whole += 1;
                continue;
            }
            let now = &stay.next().unwrap().message;
            assert!(now.packages.iter().eq(kept.iter().copied()), "case {case}");
            let record = Message {
                option_run: message.option_run,
                packages: message.packages.clone(),
                ..now.clone()
            };
            assert_eq!(record, *message, "case {case}");
            let mut options = message.option_run.to_vec();
            if let Some(at) = count_place(&options) {
                options[at + 5] = kept.len() as u8;
                counted += usize::from(!goes.is_empty());
            }
            assert_eq!(now.option_run, options, "case {case}");
            parted += usize::from(!goes.is_empty());
        }
        assert!(stay.next().is_none() && go.next().is_none(), "case {case}");
        assert_eq!(after(&buffer[..used], &sheet), (buffer[..used].to_vec(), used));
        assert_eq!(copy_measure(&buffer[..used], &sheet).unwrap().bytes, 0);
    }
    assert!(parted > 300 && counted > 150 && whole > 300, "{parted}, {counted}, {whole}");
}

#[test]
fn without_rows_it_is_every_messages_clean_form() {
    for case in 0..200 {
        let scene = Scene::new(&mut Dice::new(42, case));
        let mut clean_forms = Vec::new();
        for message in &scene.messages {
            let mut form = message.laid();
            let length = clean(&message.laid(), &mut form).unwrap();
            clean_forms.extend(&form[..length]);
        }
        let (buffer, used) = after(&scene.recording(), &[]);
        assert_eq!(buffer[..used], clean_forms, "case {case}");
    }
}

#[test]
fn equal_kept_records_give_the_same_buffer_and_others_another() {
    let (mut pairs, mut others) = (0, 0);
    for case in 0..400 {
        let dice = &mut Dice::new(43, case);
        let scene = Scene::new(dice);
        let sheet = pack_sheet(&scene.rows);
        if let Some((one, other)) = scene.equal_rests(dice) {
            let (first, second) = (after(&one, &sheet), after(&other, &sheet));
            assert_eq!(first, second, "case {case}");
            pairs += usize::from(one != other && first.1 > 0 && first.1 < one.len());
        }
        let mut changed = scene.clone();
        let at = dice.below(changed.messages.len());
        change_record(dice, &mut changed.messages[at]);
        let (one, other) = (scene.recording(), changed.recording());
        let (first, second) = (read_recording(&one).unwrap(), read_recording(&other).unwrap());
        let same = kept_records(first, &scene.rows) == kept_records(second, &scene.rows);
        let (first, second) = (after(&one, &sheet), after(&other, &sheet));
        assert_eq!(same, first.0[..first.1] == second.0[..second.1], "case {case}");
        others += usize::from(!same);
    }
    assert!(pairs > 200 && others > 120, "{pairs}, {others}");
}
