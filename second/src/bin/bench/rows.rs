//! Copies under sheets of more rows.

use crate::copies::time_copy_of;
use crate::scenes::*;
use crate::timing::*;
use crate::Settings;
use second::orders::pack_sheet;
use second::sheet::Row;

/// How many rows a sheet has.
const ROWS: [usize; 5] = [1, 4, 5, 16, 32];
/// Message ids from here on are in no recording.
const ELSEWHERE: u32 = 1_000;

/// What the rows of a sheet are for.
#[derive(Clone, Copy)]
enum Rows {
    /// One grants, and the others are for other packages of the same messages.
    Packages,
    /// One grants, and the others are for the same packages of other messages, a
    /// message id for each row.
    Messages,
    /// All of them grant, each for its share of the message ids.
    Shares,
}

pub fn rows(settings: &Settings) {
    heading(
        "copies under more rows, of which one grants, or each for some messages",
        "ns",
        "memcpy",
    );
    for shape in SHAPES {
        for rows in [Rows::Packages, Rows::Messages, Rows::Shares] {
            for count in ROWS {
                let places = if count == 1 || matches!(rows, Rows::Shares) { 1 } else { 2 };
                for last in [false, true].into_iter().take(places) {
                    show(&time_copy_rows(shape, count, last, rows, settings.repetitions));
                }
            }
        }
    }
}

/// A sheet of so many rows that grants the packages of one id; where one row does,
/// it is the first or the last.
fn sheet_of(count: usize, last: bool, rows: Rows) -> Vec<u8> {
    let granting = row_for(GRANTED);
    let other = |number: u32| match rows {
        Rows::Messages => {
            Row { message_first: ELSEWHERE + number, message_last: ELSEWHERE + number, ..granting }
        }
        _ => row_for(100 + number),
    };
    // More rows than ids share an id.
    let first_of = |row: usize| (MANY_IDS as usize * row / count) as u32;
    let share = |row: usize| Row {
        message_first: first_of(row),
        message_last: first_of(row).max(first_of(row + 1).saturating_sub(1)),
        ..granting
    };
    let mut list: Vec<Row> = match rows {
        Rows::Shares => (0..count).map(share).collect(),
        _ => (1..count as u32).map(other).collect(),
    };
    if !matches!(rows, Rows::Shares) {
        list.insert(if last { list.len() } else { 0 }, granting);
    }
    pack_sheet(&list)
}

fn time_copy_rows(shape: Shape, count: usize, last: bool, rows: Rows, repetitions: usize) -> Line {
    let place = if last { "last" } else { "first" };
    let what = match rows {
        Rows::Packages => format!("{place} of {count}, by packages"),
        Rows::Messages => format!("{place} of {count}, by messages"),
        Rows::Shares => format!("each of {count} for its messages"),
    };
    let recording = recording(shape, Kind::ManyIds, 65_536);
    let sheet = sheet_of(count, last, rows);
    time_copy_of(format!("{}, {what}", shape.name()), &recording, &sheet, repetitions)
}
