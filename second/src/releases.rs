//! What sheets release beside each other, asked of the exports directly.

use crate::dice::Dice;
use crate::generate::{lay_all, DirtyMessage};
use crate::judge::{dump, Judge};
use crate::orders::pack_sheet;
use crate::parse::{read_recording, SIMULATED_FLAG};
use crate::refusal::MOST_BYTES;
use crate::seams::Seam;
use crate::sheet::Row;
use crate::side_by_side;
use std::ops::Range;

/// A copy as the exports give it: number and values, and its bytes.
pub type Copy = ([u64; 5], Vec<u8>);

/// The copy of a recording under these rows.
pub fn copy_under(judge: &mut Judge, dice: &mut Dice, recording: &[u8], rows: &[Row]) -> Copy {
    let sheet = pack_sheet(rows);
    let (answer, out) = side_by_side::copy(judge, dice, recording, &sheet, recording.len());
    let bytes = out.get(..answer.values[1] as usize).unwrap_or_default();
    let [place, written, messages, packages] = answer.values;
    ([answer.number.into(), place, written, messages, packages], bytes.to_vec())
}

/// The numbers of a copy's packages, which their first four data bytes are.
fn package_numbers(copy: &[u8]) -> Vec<u32> {
    let messages = read_recording(copy).unwrap_or_default();
    let packages = messages.iter().flat_map(|placed| &placed.message.packages);
    let number = |data: &[u8]| Some(u32::from_be_bytes(data.get(..4)?.try_into().ok()?));
    packages.filter_map(|package| number(package.data)).collect()
}

/// Of two neighbouring windows each package is released by exactly one, and the
/// rows of both release together what rows over both windows do.
pub fn neighbours(judge: &mut Judge, dice: &mut Dice, seam: &Seam) {
    let recording = lay_all(&seam.messages).0;
    let first = copy_under(judge, dice, &recording, &seam.first());
    let second = copy_under(judge, dice, &recording, &seam.second());
    let whole = copy_under(judge, dice, &recording, &seam.whole());
    let rows = seam.both(dice);
    let both = copy_under(judge, dice, &recording, &rows);
    judge.claim(both == whole, || {
        format!("  two windows release another copy than one\n{}", dump(&pack_sheet(&rows), 0))
    });
    let (first, second) = (package_numbers(&first.1), package_numbers(&second.1));
    let mut parted = [&first[..], &second].concat();
    parted.sort_unstable();
    // Packages keep the recording's order, which is that of their numbers.
    let all = package_numbers(&whole.1);
    judge.claim(parted == all && all.len() as u64 == whole.0[4], || {
        format!("  one by one the windows release {parted:?}, together {all:?}\n")
    });
    let times = seam.times();
    let within = |numbers: &[u32], window: Range<u64>| {
        let time_of = |number: &u32| times.get(*number as usize);
        numbers.iter().all(|number| time_of(number).is_some_and(|time| window.contains(time)))
    };
    // What is on the seam is in the second window.
    let sides = within(&first, seam.start..seam.seam) && within(&second, seam.seam..seam.end);
    judge.claim(sides, || format!("  {first:?} and {second:?} of the times {times:?}\n"));
}

pub fn set_simulated(message: &mut DirtyMessage, simulated: bool) {
    message.flags &= !SIMULATED_FLAG;
    if simulated {
        message.flags |= SIMULATED_FLAG;
    }
}

/// These rows, all for acquired data only or none of them.
fn all_rows(rows: &[Row], acquired_only: bool) -> Vec<Row> {
    rows.iter().map(|row| Row { acquired_only, ..*row }).collect()
}

/// With the bit in every row a copy is that of the recording without its
/// simulated messages, for which the bit changes nothing. Beside a row without
/// the bit the same row with it changes nothing either. There are at most 16
/// rows.
pub fn acquired(judge: &mut Judge, dice: &mut Dice, messages: &[DirtyMessage], rows: &[Row]) {
    let mut acquired = messages.to_vec();
    acquired.retain(|message| message.flags & SIMULATED_FLAG == 0);
    let (recording, acquired) = (lay_all(messages).0, lay_all(&acquired).0);
    if recording.len() > MOST_BYTES {
        // Without its simulated messages it may be short enough to be copied.
        return;
    }
    let (with_bit, without) = (all_rows(rows, true), all_rows(rows, false));
    let told = |what: &str| {
        format!("  {what}\n{}  sheet:\n{}", dump(&recording, 0), dump(&pack_sheet(rows), 0))
    };
    let copy = copy_under(judge, dice, &recording, &with_bit);
    let of_acquired = copy_under(judge, dice, &acquired, &with_bit);
    judge.claim(copy == of_acquired, || told("simulated messages count under the bit"));
    for rows in [rows, &without] {
        let other = copy_under(judge, dice, &acquired, rows);
        judge.claim(other == of_acquired, || told("the bit counts in acquired messages"));
    }
    let all = copy_under(judge, dice, &recording, &without);
    for rows in [[&with_bit[..], &without].concat(), [&without[..], &with_bit].concat()] {
        let beside = copy_under(judge, dice, &recording, &rows);
        judge.claim(beside == all, || told("a row is not judged by itself"));
    }
}
