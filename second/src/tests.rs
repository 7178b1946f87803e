//! The paper's numbers: P1 to P12, and what is to be run and compared. The
//! requests have modules of their own. Where a rule has a quick form, both are tried.

mod capture;
mod changed_rules;
mod fragments;
mod ids;
mod purge;
mod quick;
mod radio;
mod salvage;
mod steps;
mod stream;
mod two_sheets;

use crate::both::{check, clean, copy_write, write};
use crate::burst::{open_burst, randomize, MARKER_BYTES, SEQUENCE};
use crate::copy::Copied;
use crate::paper::{self, from_hex, message_m, row_r};
use crate::parse::*;
use crate::refusal::*;
use crate::render::Draft;
use crate::sheet::{read_sheet, Row};
use crate::text::{listing, release_copy};

fn refused<T>(number: u32, place: usize) -> Result<T, Refusal> {
    refuse(number, place)
}

/// M with these bytes at this place.
fn m_with(at: usize, hex: &str) -> Vec<u8> {
    paper::m_with(at, &from_hex(hex))
}

/// M with these option bytes.
fn m_with_options(hex: &str) -> Vec<u8> {
    paper::m_with_options(&from_hex(hex))
}

#[test]
fn p1_an_empty_recording_gives_an_empty_copy() {
    let mut buffer = [0x5A; 4];
    let copied = Copied { bytes: 0, messages: 0, packages: 0 };
    assert_eq!(copy_write(&[], &row_r(), &mut buffer), Ok(copied));
    assert_eq!(buffer, [0x5A; 4]);
}

#[test]
fn p2_23_bytes_are_short() {
    assert_eq!(check(&message_m()[..23]), refused(SHORT, 0));
}

#[test]
fn p3_first_byte_20_is_a_bad_version() {
    assert_eq!(check(&m_with(0, "20")), refused(VERSION, 0));
}

#[test]
fn p4_length_18_is_too_little_with_an_option_word() {
    let mut message = m_with(0, "11");
    message[12..16].copy_from_slice(&from_hex("00000018"));
    assert_eq!(check(&message), refused(LENGTH, 0));
}

#[test]
fn p5_length_3c_is_cut() {
    assert_eq!(check(&m_with(12, "0000003C")), refused(CUT, 0));
}

#[test]
fn p6_nanoseconds_end_at_999_999_999() {
    assert_eq!(check(&m_with(20, "3B9ACA00")), refused(TIME, 0));
    assert_eq!(check(&m_with(20, "3B9AC9FF")), Ok((1, 2)));
}

#[test]
fn p7_the_option_run_is_the_first_six_bytes() {
    let message = m_with_options("87060000 000100FF");
    let header = read_header(&message).unwrap();
    assert_eq!(header.option_run, from_hex("87060000 0001"));
    assert_eq!(read_header(&m_with_options("87050000 000100FF")), refused(OPTION, 24));
}

#[test]
fn p8_the_first_length_decides_where_a_package_is_bad() {
    assert_eq!(check(&m_with(28, "000B")), refused(PACKAGE, 24));
    assert_eq!(check(&m_with(28, "0021")), refused(PACKAGE, 24));
    assert_eq!(check(&m_with(28, "0011")), refused(PACKAGE, 44));
    assert_eq!(check(&m_with(28, "0010")), Ok((1, 2)));
}

#[test]
fn p9_r_is_read_as_said() {
    let row = Row {
        message_first: 7,
        message_last: 7,
        package_first: 1,
        package_last: 1,
        start_seconds: 100,
        start_nanoseconds: 0,
        end_seconds: 101,
        end_nanoseconds: 0,
        acquired_only: false,
    };
    assert_eq!(read_sheet(&row_r()), Ok(vec![row]));
}

#[test]
fn p10_m_is_copied_under_r() {
    let mut buffer = vec![0x5A; 45];
    let copied = Copied { bytes: 40, messages: 1, packages: 1 };
    assert_eq!(copy_write(&message_m(), &row_r(), &mut buffer), Ok(copied));
    let expected = from_hex(
        "100000C0 00000007 00000000 00000028 00000064 00000000 \
         00000001 000D0000 00000000 AA000000",
    );
    assert_eq!(buffer[..40], expected);
    assert_eq!(buffer[40..], [0x5A; 5]);
    let mut short = vec![0x5A; 39];
    assert_eq!(copy_write(&message_m(), &row_r(), &mut short), refused(ROOM, 40));
    assert_eq!(short, vec![0x5A; 39]);
}

#[test]
fn p11_package_time_never_wraps() {
    assert_eq!(package_time(100, 999_999_999, 4_294_967_295), 105_294_967_294);
    assert_eq!(package_time(u32::MAX, 999_999_999, u32::MAX), 4_294_967_300_294_967_294);
}

#[test]
fn p12_the_randomizer_sequence() {
    let mut zeros = vec![0; 800];
    assert_eq!(randomize(&mut zeros), Ok(()));
    assert_eq!(zeros[..5], [0xFF, 0x48, 0x0E, 0xC0, 0x9A]);
    assert_eq!(zeros[255], 0xFF);
    assert_eq!(zeros[768], 0xC0);
    assert_eq!(zeros[..255], SEQUENCE);
    assert_eq!(randomize(&mut zeros), Ok(()));
    assert_eq!(zeros, vec![0; 800]);
}

#[test]
fn bits_repeat_after_255() {
    let bit = |n: usize| SEQUENCE[n / 8 % 255] >> (7 - n % 8) & 1;
    for n in 0..4 * 255 {
        assert_eq!(bit(n), bit(n + 255));
        assert_eq!(bit(n + 8), bit(n) ^ bit(n + 3) ^ bit(n + 5) ^ bit(n + 7));
    }
}

#[test]
fn flags_0090_are_a_fragment_and_0000_not_standard() {
    assert_eq!(check(&m_with(2, "0090")), refused(FRAGMENT, 0));
    assert_eq!(check(&m_with(2, "0000")), refused(STANDARD, 0));
}

#[test]
fn a_marker_alone_has_no_blocks() {
    let mut burst = MARKER_BYTES.to_vec();
    assert_eq!(open_burst(&mut burst), refused(BLOCKS, 8));
    assert_eq!(burst, from_hex("0347 76C7 2728 95B0"));
}

#[test]
fn a_burst_is_opened_once_over_all_codeblocks() {
    let mut burst = from_hex("0347 76C7 2728 95B0");
    burst.resize(8 + 2 * 768, 0);
    assert_eq!(open_burst(&mut burst), Ok(2));
    assert_eq!(burst[..10], from_hex("0347 76C7 2728 95B0 FF48"));
    assert_eq!(burst[8 + 768], 0xC0);
}

/// Package 2 of M is granted by time if the row ends behind 100 s 10 ns.
#[test]
fn a_row_to_11_ns_grants_package_2_and_one_to_10_ns_does_not() {
    let row = "00000007 00000007 00000002 00000002 00000064 00000000";
    // 100 s stand 2 bits to the left, then ns stand above the 4 spare bits.
    let to_11 = from_hex(&format!("{row} 00000190 000000B0"));
    let to_10 = from_hex(&format!("{row} 00000190 000000A0"));
    let to_9 = from_hex(&format!("{row} 00000190 00000090"));
    let mut buffer = [0; 56];
    let one = Copied { bytes: 40, messages: 1, packages: 1 };
    assert_eq!(copy_write(&message_m(), &to_11, &mut buffer), Ok(one));
    let none = Copied { bytes: 0, messages: 0, packages: 0 };
    assert_eq!(copy_write(&message_m(), &to_10, &mut buffer), Ok(none));
    assert_eq!(copy_write(&message_m(), &to_9, &mut buffer), Ok(none));
}

#[test]
fn the_listing_of_m() {
    let expected = "at mdid pdid sec nsec len\n24 7 1 100 0 13\n40 7 2 100 10 16\nend 1 2\n";
    assert_eq!(listing(&message_m()), expected);
    assert_eq!(listing(&[]), "at mdid pdid sec nsec len\nend 0 0\n");
    assert_eq!(listing(&message_m()[..23]), "refused 1 0\n");
    assert_eq!(listing(&vec![0; 65_537]), "refused 12 65536\n");
}

#[test]
fn the_release_copy_of_m() {
    let copied = release_copy(&message_m(), &row_r());
    assert_eq!(copied.len(), 40);
    assert_eq!(release_copy(&message_m(), &vec![0; 100_000]), b"refused 11 100000\n");
}

#[test]
fn m_is_cleaned_of_its_padding_and_reserved_byte() {
    let mut buffer = vec![0; 60];
    assert_eq!(clean(&message_m(), &mut buffer), Ok(56));
    let mut expected = message_m();
    expected[37..40].fill(0);
    expected[46] = 0;
    assert_eq!(buffer[..56], expected);
}

/// The parts of M, written, are its clean form.
#[test]
fn m_is_written_from_its_parts() {
    let message = message_m();
    let draft = Draft {
        flags: 0xB0,
        message_id: 7,
        sequence: 5,
        seconds: 100,
        nanoseconds: 0,
        options: &[],
        packages: &message[24..],
    };
    let mut written = vec![0; 56];
    let mut cleaned = vec![0; 56];
    assert_eq!(write(&draft, &mut written), Ok(56));
    assert_eq!(clean(&message, &mut cleaned), Ok(56));
    assert_eq!(written, cleaned);
}

#[test]
fn the_writer_checks_in_its_order() {
    let good = Draft {
        flags: 0,
        message_id: 0,
        sequence: 0,
        seconds: 0,
        nanoseconds: 0,
        options: &[],
        packages: &[],
    };
    let ones = vec![1; 65_513];
    let large = Draft { options: &ones, nanoseconds: u32::MAX, ..good.clone() };
    assert_eq!(write(&large, &mut []), refused(LARGE, 65_536));
    let long = Draft { options: &ones[..65_511], ..good.clone() };
    assert_eq!(write(&long, &mut []), refused(OPTION, 60));
    let late = Draft { options: &ones[..65_511], nanoseconds: 1_000_000_000, ..good.clone() };
    assert_eq!(write(&late, &mut []), refused(TIME, 0));
    let zero = Draft { options: &[1, 0, 1], packages: &[0], ..good.clone() };
    assert_eq!(write(&zero, &mut []), refused(OPTION, 1));
    let open = Draft { options: &[0x80, 4, 0], ..good.clone() };
    assert_eq!(write(&open, &mut []), refused(OPTION, 0));
    let package = Draft { packages: &[0], ..good.clone() };
    assert_eq!(write(&package, &mut []), refused(PACKAGE, 0));
    assert_eq!(write(&good, &mut [0; 23]), refused(ROOM, 24));
}

#[test]
fn a_walk_at_the_greatest_sizes() {
    let mut run = vec![0; 65_536];
    for length in 65_532..=65_535_u16 {
        run[4..6].copy_from_slice(&length.to_be_bytes());
        let package = package_step(&run, 0).unwrap().unwrap();
        assert_eq!(package.length(), usize::from(length));
    }
    assert_eq!(package_step(&run, 65_536), Ok(None));
    assert_eq!(package_step(&run, usize::MAX), Ok(None));
    assert_eq!(package_step(&run, 65_530), refused(PACKAGE, 65_530));
    run.push(0);
    assert_eq!(package_step(&run, usize::MAX), refused(LARGE, 65_536));
}
