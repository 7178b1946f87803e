//! The requests that change the paper's own rules, in their words.

use super::{m_with, m_with_options, refused};
use crate::answers;
use crate::both::{check, clean, copy_measure, copy_write, write};
use crate::copy::Copied;
use crate::damage::{damaged, with_faults, FAULTS};
use crate::dice::Dice;
use crate::drafts::{bad_draft, good_draft};
use crate::generate::{lay_all, message, messages, World};
use crate::orders::*;
use crate::paper::{from_hex, message_m, row_r};
use crate::parse::{read_header, read_recording};
use crate::refusal::*;
use crate::render::Draft;
use crate::seams::Seam;
use crate::sheet::{read_sheet, Row};
use crate::text::release_copy;

#[test]
fn m_under_r_is_measured_before_it_is_written() {
    let needed = Copied { bytes: 40, messages: 1, packages: 1 };
    assert_eq!(copy_measure(&message_m(), &row_r()), Ok(needed));
    let all = Copied { bytes: 56, messages: 1, packages: 2 };
    assert_eq!(copy_measure(&message_m(), &pack_sheet(&[everything()])), Ok(all));
    let none = Copied { bytes: 0, messages: 0, packages: 0 };
    assert_eq!(copy_measure(&[], &row_r()), Ok(none));
    assert_eq!(copy_measure(&message_m(), &[]), Ok(none));
}

#[test]
fn measuring_refuses_what_writing_refuses() {
    assert_eq!(copy_measure(&vec![0; 65_537], &[0; 33]), refused(ROW, 33));
    assert_eq!(copy_measure(&vec![0; 65_537], &row_r()), refused(LARGE, 65_536));
    assert_eq!(copy_measure(&message_m()[..23], &row_r()), refused(SHORT, 0));
    let second_short = [&message_m()[..], &[0]].concat();
    assert_eq!(copy_measure(&second_short, &row_r()), refused(SHORT, 56));
}

/// What was measured is what is then written, into just as many bytes.
#[test]
fn what_was_measured_is_what_is_written() {
    let (mut refusals, mut copies) = (0, 0);
    for case in 0..2_000 {
        let dice = &mut Dice::new(21, case);
        let world = World::new(dice);
        let messages = messages(dice, &world);
        let targets = targets(&messages);
        let sheet = match dice.below(8) {
            0 => bad_sheet(dice, &targets),
            _ => pack_sheet(&rows(dice, &targets)),
        };
        let recording = match dice.below(3) {
            0 => damaged(dice, messages),
            _ => lay_all(&messages).0,
        };
        let measured = copy_measure(&recording, &sheet);
        let Ok(needed) = measured else {
            refusals += 1;
            assert_eq!(copy_write(&recording, &sheet, &mut []), measured, "case {case}");
            continue;
        };
        let mut buffer = vec![0; needed.bytes];
        assert_eq!(copy_write(&recording, &sheet, &mut buffer), measured, "case {case}");
        if needed.bytes > 0 {
            copies += 1;
            let short = copy_write(&recording, &sheet, &mut buffer[1..]);
            assert_eq!(short, refused(ROOM, needed.bytes), "case {case}");
        }
    }
    assert!(refusals > 200 && copies > 200, "{refusals} refusals, {copies} copies");
}

#[test]
fn a_window_has_its_start_and_not_its_end() {
    let package_2 = Row { package_first: 2, package_last: 2, ..everything() };
    let at = |nanoseconds: u64| 100_000_000_000 + nanoseconds;
    for (start, end, packages) in [(10, 11, 1), (9, 10, 0), (11, 12, 0), (0, 11, 1), (10, 12, 1)] {
        let sheet = pack_sheet(&[with_window(package_2, at(start), at(end))]);
        let measured = copy_measure(&message_m(), &sheet).unwrap();
        assert_eq!(measured.packages, packages, "from {start} to {end}");
    }
}

#[test]
fn id_ranges_keep_both_their_ends() {
    let row = |message: (u32, u32), package: (u32, u32)| Row {
        message_first: message.0,
        message_last: message.1,
        package_first: package.0,
        package_last: package.1,
        ..everything()
    };
    for (message, package, packages) in
        [((7, 7), (2, 2), 1), ((0, 7), (0, 1), 1), ((7, 9), (1, 2), 2), ((0, 6), (0, 9), 0)]
    {
        let sheet = pack_sheet(&[row(message, package)]);
        assert_eq!(copy_measure(&message_m(), &sheet).unwrap().packages, packages);
    }
}

#[test]
fn a_window_without_a_moment_is_a_bad_row() {
    let none = with_window(everything(), 5_000_000_007, 5_000_000_007);
    assert_eq!(read_sheet(&pack_row(&none, 0)), refused(ROW, 0));
    assert_eq!(read_sheet(&[0; 32]), refused(ROW, 0));
    assert_eq!(read_sheet(&pack_sheet(&[everything(), none])), refused(ROW, 32));
    let one = with_window(everything(), 5_000_000_007, 5_000_000_008);
    assert_eq!(read_sheet(&pack_row(&one, 0)), Ok(vec![one]));
    // Compared as times and not pair by pair.
    let across = with_window(everything(), 999_999_999, 1_000_000_000);
    assert_eq!(read_sheet(&pack_row(&across, 0)), Ok(vec![across]));
}

/// No end of a window is later, so no row grants the latest time.
#[test]
fn the_latest_time_is_granted_by_no_row() {
    let latest = m_with(16, "FFFFFFFF 3B9AC9FF");
    let sheet = pack_sheet(&[everything()]);
    assert_eq!(copy_measure(&latest, &sheet).unwrap().packages, 0);
    let just_before = m_with(16, "FFFFFFFF 3B9AC9FE");
    assert_eq!(copy_measure(&just_before, &sheet).unwrap().packages, 1);
}

/// The packages that a copy releases, by their first four data bytes.
fn released(seam: &Seam, rows: &[Row]) -> Vec<u32> {
    let recording = lay_all(&seam.messages).0;
    let mut out = vec![0; recording.len()];
    let copied = copy_write(&recording, &pack_sheet(rows), &mut out).unwrap();
    let messages = read_recording(&out[..copied.bytes]).unwrap();
    let packages = messages.iter().flat_map(|placed| &placed.message.packages);
    packages.map(|package| u32::from_be_bytes(package.data[..4].try_into().unwrap())).collect()
}

#[test]
fn a_package_on_the_seam_is_delivered_once() {
    let mut on_the_seam = 0;
    for case in 0..1_000 {
        let dice = &mut Dice::new(22, case);
        let seam = Seam::new(dice);
        let (first, second) = (released(&seam, &seam.first()), released(&seam, &seam.second()));
        let whole = released(&seam, &seam.whole());
        assert_eq!(released(&seam, &seam.both(dice)), whole, "case {case}");
        assert_eq!(first.len() + second.len(), whole.len(), "case {case}");
        let times = seam.times();
        let at_seam = |number: &&u32| times[**number as usize] == seam.seam;
        assert_eq!(first.iter().filter(at_seam).count(), 0, "case {case}");
        on_the_seam += second.iter().filter(at_seam).count();
        assert!(whole.iter().all(|number| first.contains(number) != second.contains(number)));
    }
    assert!(on_the_seam > 500, "{on_the_seam}");
}

#[test]
fn the_lowest_spare_bit_is_for_acquired_data_only() {
    let acquired = Row { acquired_only: true, ..everything() };
    let sheet = pack_row(&everything(), 1);
    assert_eq!(read_sheet(&sheet), Ok(vec![acquired]));
    assert_eq!(pack_sheet(&[acquired]), sheet);
    for spare in 2..16 {
        assert_eq!(read_sheet(&pack_row(&everything(), spare)), refused(ROW, 0));
    }
    // R with the bit; flag bit 3 and no other decides.
    let mut row = row_r();
    row[31] |= 1;
    for flags in 0..=0x4F_u8 {
        if flags & 0x30 == 0 {
            let message = m_with(3, &format!("{:02X}", 0x80 | flags));
            let packages = |sheet: &[u8]| copy_measure(&message, sheet).unwrap().packages;
            assert_eq!(packages(&row), usize::from(flags & 8 == 0));
            assert_eq!(packages(&row_r()), 1);
            // Each row is judged by itself.
            assert_eq!(packages(&[&row[..], &row_r()].concat()), 1);
        }
    }
}

#[test]
fn a_sheet_has_nine_values_for_each_row() {
    let rows = [Row { acquired_only: true, ..everything() }, everything()];
    let told = answers::sheet(&pack_sheet(&rows)).values;
    assert_eq!(told.len(), 2 + 32 * 9);
    let ends = u64::from(u32::MAX);
    assert_eq!(told[..11], [0, 2, 0, ends, 0, ends, 0, 0, ends, 999_999_999, 1]);
    assert_eq!(told[11..20], [0, ends, 0, ends, 0, 0, ends, 999_999_999, 0]);
    assert_eq!(told[20..], [0; 270]);
}

/// With the bit in every row a copy is that of the recording without its
/// simulated messages, for which the bit changes nothing.
#[test]
fn simulated_messages_do_not_count_under_the_bit() {
    let mut fewer = 0;
    for case in 0..1_000 {
        let dice = &mut Dice::new(26, case);
        let world = World::new(dice);
        let mut messages = messages(dice, &world);
        let rows = rows(dice, &targets(&messages));
        let sheet = |acquired_only: bool| {
            pack_sheet(&rows.iter().map(|row| Row { acquired_only, ..*row }).collect::<Vec<_>>())
        };
        let all = lay_all(&messages).0;
        messages.retain(|message| message.flags & 1 << 3 == 0);
        let acquired = lay_all(&messages).0;
        if all.len() > MOST_BYTES {
            continue;
        }
        let with_bit = release_copy(&all, &sheet(true));
        assert_eq!(with_bit, release_copy(&acquired, &sheet(true)), "case {case}");
        assert_eq!(with_bit, release_copy(&acquired, &sheet(false)), "case {case}");
        fewer += usize::from(with_bit != release_copy(&all, &sheet(false)));
    }
    assert!(fewer > 200, "{fewer}");
}

/// Every kind of bad row is bad, and good rows are good.
#[test]
fn rows_are_made_good_or_bad() {
    for case in 0..2_000 {
        let dice = &mut Dice::new(23, case);
        let row = any_row(dice);
        assert_eq!(read_sheet(&pack_row(&row, 0)), Ok(vec![row]), "case {case}");
        for way in 0..BAD_ROWS {
            assert_eq!(read_sheet(&bad_row(dice, way)), refused(ROW, 0), "case {case}, {way}");
        }
    }
}

#[test]
fn a_count_must_equal_the_packages() {
    assert_eq!(check(&m_with_options("87060000 00020000")), Ok((1, 2)));
    for wrong in ["00000001", "00000003", "00000000", "00010002", "01000002", "00000102"] {
        let message = m_with_options(&format!("8706 {wrong} 0000"));
        assert_eq!(check(&message), refused(COUNT, 0));
        assert_eq!(clean(&message, &mut [0; 64]), refused(COUNT, 0));
        assert_eq!(copy_measure(&message, &row_r()), refused(COUNT, 0));
        assert_eq!(copy_write(&message, &row_r(), &mut []), refused(COUNT, 0));
        assert_eq!(check(&[message_m(), message.clone()].concat()), refused(COUNT, 56));
        // Reading a header alone does not count packages.
        assert_eq!(read_header(&message).unwrap().option_run.len(), 6);
    }
    // P7's message counts one package, and M has two.
    assert_eq!(check(&m_with_options("87060000 000100FF")), refused(COUNT, 0));
    // Behind an option of kind 0x00, and in another option's data, nothing counts.
    assert_eq!(check(&m_with_options("00870600 00000100")), Ok((1, 2)));
    assert_eq!(check(&m_with_options("80088706 00000001")), Ok((1, 2)));
}

#[test]
fn without_packages_the_count_is_0() {
    let mut message = m_with_options("87060000 00000000");
    message.truncate(32);
    (message[3], message[15]) = (0, 32);
    assert_eq!(check(&message), Ok((1, 0)));
    message[29] = 1;
    assert_eq!(check(&message), refused(COUNT, 0));
}

#[test]
fn a_second_offset_or_count_is_refused_at_its_place() {
    for kind in ["86", "87"] {
        let message = m_with_options(&format!("{kind}06 00000002 01 {kind}06 00000002 000000"));
        assert_eq!(read_header(&message), refused(OPTION, 31));
        assert_eq!(check(&message), refused(OPTION, 31));
        assert_eq!(clean(&message, &mut [0; 72]), refused(OPTION, 31));
        assert_eq!(copy_measure(&message, &row_r()), refused(OPTION, 31));
        // Behind an option of kind 0x00 it is not read.
        let message = m_with_options(&format!("{kind}06 00000002 00 {kind}06 00000002 000000"));
        assert_eq!(check(&message), Ok((1, 2)));
    }
    // One of each, and two of another kind.
    assert_eq!(check(&m_with_options("86060000 00058706 00000002")), Ok((1, 2)));
    assert_eq!(check(&m_with_options("80060000 00028006 00000002")), Ok((1, 2)));
    // A third does not count, and a bad length is found there all the same.
    let thrice = m_with_options("8706 00000002 8706 00000002 8706 00000002 0000");
    assert_eq!(check(&thrice), refused(OPTION, 30));
    assert_eq!(check(&m_with_options("87060000 00028705 00000002")), refused(OPTION, 30));
}

#[test]
fn count_comes_directly_after_package() {
    let bad = m_with_options("87060000 00010000");
    assert_eq!(check(&[bad.clone(), m_with(0, "20")].concat()), refused(COUNT, 0));
    assert_eq!(check(&[m_with(0, "20"), bad.clone()].concat()), refused(VERSION, 0));
    let mut package = bad.clone();
    package[37] = 11;
    assert_eq!(check(&package), refused(PACKAGE, 32));
    let mut fragment = bad;
    fragment[3] |= 0x10;
    assert_eq!(check(&fragment), refused(FRAGMENT, 0));
}

#[test]
fn the_writer_counts_after_the_packages_and_before_room() {
    let m = message_m();
    let draft = |options: &str, packages: &[u8], room: usize| {
        let options = &from_hex(options);
        let numbers = Draft {
            flags: 0,
            message_id: 7,
            sequence: 5,
            seconds: 100,
            nanoseconds: 0,
            options,
            packages,
        };
        write(&numbers, &mut vec![0; room])
    };
    assert_eq!(draft("8706 00000002", &m[24..], 64), Ok(64));
    assert_eq!(draft("8706 00000002", &m[24..], 63), refused(ROOM, 64));
    assert_eq!(draft("8706 00000001", &m[24..], 0), refused(COUNT, 0));
    assert_eq!(draft("8706 00000001", &m[24..55], 0), refused(PACKAGE, 16));
    assert_eq!(draft("8706 00000000", &[], 32), Ok(32));
    assert_eq!(draft("8706 00000002 8706 00000002", &m[24..], 0), refused(OPTION, 6));
    assert_eq!(draft("8606 00000002 05 8606 00000002", &m[24..], 0), refused(OPTION, 7));
    // The zero comes first.
    assert_eq!(draft("8706 00000002 00 8706 00000002", &m[24..], 0), refused(OPTION, 6));
}

/// Good recordings and drafts pass; faults and bad drafts reach every number.
#[test]
fn messages_are_made_good_or_bad() {
    for case in 0..2_000 {
        let dice = &mut Dice::new(24, case);
        let world = World::new(dice);
        let recording = lay_all(&messages(dice, &world)).0;
        assert!(recording.len() > MOST_BYTES || check(&recording).is_ok(), "case {case}");
        let draft = good_draft(dice);
        assert!(write(&draft.borrowed(), &mut [0; MOST_BYTES]).is_ok(), "case {case}");
    }
    let mut checked = [0; NUMBERS];
    let mut written = [0; NUMBERS];
    for case in 0..2_000 {
        let dice = &mut Dice::new(25, case);
        let world = World::new(dice);
        let fault = dice.pick(&FAULTS);
        let mut one = [message(dice, &world, 2)];
        let recording = with_faults(dice, &mut one, &[(0, fault)]);
        if let Err(refusal) = check(&recording) {
            checked[refusal.number as usize] += 1;
        }
        if let Err(refusal) = write(&bad_draft(dice).borrowed(), &mut []) {
            written[refusal.number as usize] += 1;
        }
    }
    for number in FAULTS {
        assert!(checked[number as usize] > 50, "checking reaches {number} too seldom");
    }
    for number in [LARGE, TIME, OPTION, PACKAGE, COUNT, ROOM] {
        assert!(written[number as usize] > 50, "writing reaches {number} too seldom");
    }
}
