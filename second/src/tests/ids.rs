//! Ids as a line of text.

use crate::both::{read_ids, write_ids};
use crate::dice::Dice;
use crate::ids::*;
use crate::lines::*;
use crate::refusal::*;

fn read(line: &str) -> Result<Vec<(u32, u32)>, Refusal> {
    let ranges = read_ids(line.as_bytes())?;
    Ok(ranges.iter().map(|range| (range.first, range.last)).collect())
}

fn write(pairs: &[(u32, u32)]) -> Result<String, Refusal> {
    let ranges: Vec<IdRange> = pairs.iter().map(|&(first, last)| IdRange { first, last }).collect();
    let mut buffer = vec![b'?'; 710];
    let length = write_ids(&ranges, &mut buffer)?;
    assert!(buffer[length..].iter().all(|&byte| byte == b'?'));
    Ok(String::from_utf8(buffer[..length].to_vec()).unwrap())
}

fn text<T>(place: usize) -> Result<T, Refusal> {
    refuse(TEXT, place)
}

#[test]
fn an_item_is_an_id_or_two_ids_with_a_dash() {
    assert_eq!(read("7"), Ok(vec![(7, 7)]));
    assert_eq!(read("7-9"), Ok(vec![(7, 9)]));
    assert_eq!(read("7-7"), Ok(vec![(7, 7)]));
    assert_eq!(read("1,3-5,2"), Ok(vec![(1, 1), (3, 5), (2, 2)]));
    // Nothing asks for order, nor for ranges that keep apart.
    assert_eq!(read("9,9,1-9"), Ok(vec![(9, 9), (9, 9), (1, 9)]));
}

#[test]
fn an_id_has_1_to_10_digits() {
    assert_eq!(read("0000000007"), Ok(vec![(7, 7)]));
    assert_eq!(read("0000000000-0"), Ok(vec![(0, 0)]));
    assert_eq!(read("00000000007"), text(10));
    assert_eq!(read("5,00000000007"), text(12));
    assert_eq!(read("5-00000000007"), text(12));
}

#[test]
fn a_byte_that_breaks_the_form() {
    assert_eq!(read(" 7"), text(0));
    assert_eq!(read("7 "), text(1));
    assert_eq!(read("7, 8"), text(2));
    assert_eq!(read("7\n"), text(1));
    assert_eq!(read("-7"), text(0));
    assert_eq!(read(",7"), text(0));
    assert_eq!(read("7,,8"), text(2));
    assert_eq!(read("7--8"), text(2));
    assert_eq!(read("7-,8"), text(2));
    assert_eq!(read("7,-8"), text(2));
    assert_eq!(read("7-8-9"), text(3));
    assert_eq!(read("+7"), text(0));
    assert_eq!(read("0x7"), text(1));
    assert_eq!(read("7/8"), text(1));
    assert_eq!(read("7:8"), text(1));
}

#[test]
fn a_line_that_stops_too_soon() {
    assert_eq!(read(""), text(0));
    assert_eq!(read("7,"), text(2));
    assert_eq!(read("7-"), text(2));
    assert_eq!(read("7,8-"), text(4));
}

#[test]
fn a_bad_item_is_told_by_its_first_digit() {
    assert_eq!(read("4294967295"), Ok(vec![(u32::MAX, u32::MAX)]));
    assert_eq!(read("4294967296"), text(0));
    assert_eq!(read("5,3-4294967296"), text(2));
    assert_eq!(read("5,4294967296-3"), text(2));
    assert_eq!(read("5,9999999999-9999999999,1-0"), text(2));
    assert_eq!(read("5,4-3"), text(2));
    assert_eq!(read("5,4-3,4294967296"), text(2));
    assert_eq!(read("10,20,2-1"), text(6));
}

#[test]
fn the_form_comes_before_the_items() {
    assert_eq!(read("4294967296,"), text(11));
    assert_eq!(read("2-1,x"), text(4));
    assert_eq!(read("2-1,00000000001"), text(14));
}

#[test]
fn at_most_32_items() {
    let line = |count: usize| vec!["8"; count].join(",");
    assert_eq!(read(&line(32)), Ok(vec![(8, 8); 32]));
    assert_eq!(read(&line(33)), text(64));
    assert_eq!(read(&line(500)), text(64));
    // The first bad item, whatever is wrong with it.
    assert_eq!(read(&(line(33) + ",2-1")), text(64));
    assert_eq!(read(&(line(31) + ",2-1,8,8")), text(62));
    assert_eq!(read(&(line(32) + ",2-1")), text(64));
    assert_eq!(read(&(line(33) + ",")), text(66));
}

#[test]
fn a_long_line() {
    let mut line = vec![b'7'; 65_537];
    assert_eq!(read_ids(&line), refuse(LARGE, 65_536));
    line.pop();
    assert_eq!(read_ids(&line), text(10));
    let list = "00000008,".repeat(7_282) + "1-2";
    assert_eq!(list.len(), 65_541);
    assert_eq!(read(&list), refuse(LARGE, 65_536));
    assert_eq!(read(&list[9..]), text(288));
}

#[test]
fn ranges_are_written_without_leading_zeros() {
    assert_eq!(write(&[(7, 7)]), Ok("7".into()));
    assert_eq!(write(&[(0, 0), (0, 1)]), Ok("0,0-1".into()));
    assert_eq!(write(&[(5, 5), (1, 4), (u32::MAX, u32::MAX)]), Ok("5,1-4,4294967295".into()));
}

#[test]
fn ranges_that_are_not_written() {
    assert_eq!(write(&[]), text(0));
    assert_eq!(write(&[(2, 1)]), text(0));
    assert_eq!(write(&[(1, 2), (3, 4), (2, 1), (1, 0)]), text(2));
    assert_eq!(write(&[(1, 2); 33]), text(32));
    let mut many = [(1, 2); 40];
    many[35] = (2, 1);
    assert_eq!(write(&many), text(32));
    many[31] = (2, 1);
    assert_eq!(write(&many), text(31));
}

#[test]
fn a_buffer_too_short_for_the_line() {
    let ranges = [IdRange { first: 10, last: 20 }, IdRange { first: 7, last: 7 }];
    let mut buffer = [b'?'; 7];
    assert_eq!(write_ids(&ranges, &mut buffer[..6]), refuse(ROOM, 7));
    assert_eq!(buffer, [b'?'; 7]);
    assert_eq!(write_ids(&ranges, &mut buffer), Ok(7));
    assert_eq!(&buffer, b"10-20,7");
    // TEXT comes before ROOM.
    let inverted = [IdRange { first: 1, last: 0 }];
    assert_eq!(write_ids(&inverted, &mut []), text(0));
    let longest = [IdRange { first: u32::MAX - 1, last: u32::MAX }; 32];
    assert_eq!(write_ids(&longest, &mut []), refuse(ROOM, 703));
}

/// What was written is read again as the same ranges.
#[test]
fn written_is_read_again() {
    for case in 0..1_500 {
        let dice = &mut Dice::new(1, case);
        let ranges = any_ranges(dice);
        let mut buffer = vec![0; 710];
        if let Ok(length) = write_ids(&ranges, &mut buffer) {
            assert_eq!(read_ids(&buffer[..length]), Ok(ranges));
        }
    }
}

/// A line made from ranges is read as these, and written in its plain form.
#[test]
fn read_is_written_in_plain_form() {
    for case in 0..1_500 {
        let dice = &mut Dice::new(2, case);
        let ranges = good_ranges(dice);
        let plain = line_of(dice, &ranges, false);
        let odd = line_of(dice, &ranges, true);
        assert_eq!(read_ids(&plain), Ok(ranges.clone()));
        assert_eq!(read_ids(&odd), Ok(ranges.clone()));
        assert!(plain.len() <= odd.len());
        let mut buffer = vec![0; plain.len()];
        assert_eq!(write_ids(&ranges, &mut buffer), Ok(plain.len()));
        assert_eq!(buffer, plain);
    }
}

/// A line is of good form exactly if the grammar has a reading of it, and never
/// has it two.
#[test]
fn a_line_has_at_most_one_reading() {
    let mut good = 0;
    let some = (0..1_500).map(|case| any_line(&mut Dice::new(3, case)));
    for line in short_lines(5).into_iter().chain(some) {
        let shown = String::from_utf8_lossy(&line);
        if line.len() > 1_000 {
            continue;
        }
        assert!(readings(&line) <= 1, "{shown}");
        let Err(Refusal { place, .. }) = read_ids(&line) else {
            assert_eq!(readings(&line), 1, "{shown}");
            good += 1;
            continue;
        };
        if readings(&line) == 1 {
            // A bad item in a line of good form: those before it are good.
            assert!(place == 0 || read_ids(&line[..place - 1]).is_ok(), "{shown}");
        } else {
            assert!(begins_a_line(&line[..place]), "{shown}");
            assert!(place == line.len() || !begins_a_line(&line[..=place]), "{shown}");
        }
    }
    assert!(good > 500, "{good}");
}

/// Lines of all kinds come up, and so do ranges.
#[test]
fn the_generator_reaches_every_answer() {
    let mut answers = [[0; NUMBERS]; 2];
    for case in 0..3_000 {
        let dice = &mut Dice::new(4, case);
        let read = read_ids(&any_line(dice)).map_or_else(|refusal| refusal.number, |_| 0);
        let written = write_ids(&any_ranges(dice), &mut [0; 300]);
        let written = written.map_or_else(|refusal| refusal.number, |_| 0);
        answers[0][read as usize] += 1;
        answers[1][written as usize] += 1;
    }
    let reached = |counts: [usize; NUMBERS]| -> Vec<usize> {
        (0..NUMBERS).filter(|&number| counts[number] > 10).collect()
    };
    assert_eq!(reached(answers[0]), [0, LARGE as usize, TEXT as usize]);
    assert_eq!(reached(answers[1]), [0, ROOM as usize, TEXT as usize]);
}
