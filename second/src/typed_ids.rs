//! Lines of ids, asked of the exports directly: what is written is read again,
//! what is read is written plainly, and each line is judged as the grammar has it.

use crate::answers::Answer;
use crate::dice::Dice;
use crate::ids::{begins_a_line, readings, IdRange, MOST_RANGES};
use crate::judge::Judge;
use crate::lines::{any_line, good_ranges, line_of, Handed};
use crate::refusal::TEXT;
use crate::side_by_side;

/// The longest line that 32 ranges give has so many bytes.
const LONGEST: usize = 703;

/// Tries every claim on some ranges and on some line.
pub fn typed_ids(judge: &mut Judge, dice: &mut Dice) {
    let ranges = good_ranges(dice);
    written_and_read(judge, dice, &ranges);
    read_and_written(judge, dice, &ranges);
    let line = any_line(dice);
    judged_by_the_grammar(judge, dice, &line);
}

fn told(what: &str, line: &[u8]) -> String {
    format!("  {what}\n  {}\n", String::from_utf8_lossy(line))
}

/// The line that the export writes.
fn write(judge: &mut Judge, dice: &mut Dice, ranges: &[IdRange]) -> Vec<u8> {
    let handed = Handed::new(dice, ranges);
    let (answer, mut out) = side_by_side::write_ids(judge, dice, &handed, LONGEST);
    out.truncate(answer.values[1] as usize);
    out
}

/// The ranges that an answer hands out.
fn ranges_of(answer: &Answer<66>) -> Vec<IdRange> {
    let pairs = answer.values[2..].chunks(2).take(answer.values[1] as usize);
    pairs.map(|pair| IdRange { first: pair[0] as u32, last: pair[1] as u32 }).collect()
}

fn written_and_read(judge: &mut Judge, dice: &mut Dice, ranges: &[IdRange]) {
    let line = write(judge, dice, ranges);
    let read = side_by_side::read_ids(judge, dice, &line);
    let same = read.number == 0 && ranges_of(&read) == ranges;
    judge.claim(same, || told("what was written is read as other ranges", &line));
    judge.trial("ids written and read again are the same ranges", ranges.len() > 1);
}

/// A line with leading zeros, and with both ends where they agree, gives the plain
/// line, and that is read as the same ranges.
fn read_and_written(judge: &mut Judge, dice: &mut Dice, ranges: &[IdRange]) {
    let (plain, odd) = (line_of(dice, ranges, false), line_of(dice, ranges, true));
    let read = side_by_side::read_ids(judge, dice, &odd);
    let line = write(judge, dice, &ranges_of(&read));
    let again = side_by_side::read_ids(judge, dice, &line);
    let good = read.number == 0 && line == plain && again == read;
    judge.claim(good, || told("what was read is not written in its plain form", &odd));
    judge.trial("ids read and written again are the line's plain form", odd != plain);
}

/// What is accepted is what the grammar has, within its limits; a refusal's place
/// is as the grammar says.
pub fn judged_by_the_grammar(judge: &mut Judge, dice: &mut Dice, line: &[u8]) {
    // The grammar is tried way by way, which takes long on a long line.
    if line.len() > 2 * LONGEST {
        return;
    }
    let answer = side_by_side::read_ids(judge, dice, line);
    match readings(line) {
        0 => bad_form(judge, line, &answer),
        1 => good_form(judge, dice, line, &answer),
        _ => judge.differs(|| told("the grammar has two readings", line)),
    }
}

/// What stands before the place begins a line of good form; with the byte at the
/// place it does not, or the line stops there too soon.
fn bad_form(judge: &mut Judge, line: &[u8], answer: &Answer<66>) {
    let place = answer.values[0] as usize;
    let good = answer.number == TEXT
        && line.get(..place).is_some_and(begins_a_line)
        && (place == line.len() || !begins_a_line(&line[..=place]));
    judge.claim(good, || told("a line of bad form is refused elsewhere, or not", line));
    judge.trial("a line of bad form is refused where it breaks", place > 0);
}

/// Each item by itself is read as its range or refused. The line is refused at the
/// first item that is, or at the 33rd.
fn good_form(judge: &mut Judge, dice: &mut Dice, line: &[u8], answer: &Answer<66>) {
    let mut ranges = Vec::new();
    let mut place = 0;
    let mut refused = None;
    for item in line.split(|&byte| byte == b',') {
        let alone = side_by_side::read_ids(judge, dice, item);
        if alone.number != 0 || ranges.len() == MOST_RANGES {
            refused = Some(place);
            break;
        }
        ranges.extend(ranges_of(&alone));
        place += item.len() + 1;
    }
    let good = match refused {
        Some(place) => answer.number == TEXT && answer.values[0] == place as u64,
        None => answer.number == 0 && ranges_of(answer) == ranges,
    };
    judge.claim(good, || told("a line is not read item by item", line));
    judge.trial("a line of good form is read item by item", line.contains(&b','));
}
