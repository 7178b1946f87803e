//! Two sheets in turn, asked of the exports directly: a copy copied again, a row
//! added to a sheet, and the rows of two sheets in one.

use crate::copy::{is_granted, list_of, write_list};
use crate::dice::Dice;
use crate::judge::{dump, Judge};
use crate::orders::pack_sheet;
use crate::pairs::{stands_in, Pair};
use crate::parse::{read_recording, Message, Package};
use crate::releases::{copy_under, Copy};
use crate::side_by_side;

/// Tries every claim on one recording and two sheets for it.
pub fn in_turn(judge: &mut Judge, dice: &mut Dice, pair: &Pair) {
    let recording = pair.recording();
    let first = copy_under(judge, dice, &recording, &pair.first);
    let second = copy_under(judge, dice, &recording, &pair.second);
    let told = |what: &str| {
        format!(
            "  {what}\n{}  first sheet:\n{}  second sheet:\n{}",
            dump(&recording, 0),
            dump(&pack_sheet(&pair.first), 0),
            dump(&pack_sheet(&pair.second), 0)
        )
    };
    judge.claim(first.0[0] == 0 && second.0[0] == 0, || told("a good recording is refused"));
    let both = either_way(judge, dice, pair, &first, &second, told);
    for (copy, rows) in [(&first, &pair.first), (&second, &pair.second)] {
        let again = copy_under(judge, dice, &copy.1, rows);
        judge.claim(again == *copy, || told("the same sheet twice changes the copy"));
        judge.trial("the same sheet twice gives the copy itself", !copy.1.is_empty());
    }
    if let Some(rows) = pair.added(dice) {
        let larger = copy_under(judge, dice, &recording, &rows);
        judge.claim(stands_in(&first.1, &larger.1), || told("an added row takes a package out"));
        let telling = !first.1.is_empty() && larger != first;
        judge.trial("an added row takes no package out", telling);
    }
    if let Some(rows) = pair.joined(dice) {
        let joined = copy_under(judge, dice, &recording, &rows);
        let either = own_copy(&recording, |message, package| {
            is_granted(&pair.first, message, package) || is_granted(&pair.second, message, package)
        });
        judge.claim(joined == either, || told("joined sheets release not what either grants"));
        // What both grant is counted in both copies.
        let counted = joined.0[4] + both.0[4] == first.0[4] + second.0[4];
        let stand = stands_in(&first.1, &joined.1) && stands_in(&second.1, &joined.1);
        judge.claim(counted && stand, || told("joined sheets release too much or too little"));
        let telling = joined != first && joined != second;
        judge.trial("joined sheets release what either grants", telling);
    }
}

/// The copy under one sheet, copied again under the other, in both orders: one
/// and the same last buffer, and the packages that both sheets grant.
fn either_way(
    judge: &mut Judge,
    dice: &mut Dice,
    pair: &Pair,
    first: &Copy,
    second: &Copy,
    told: impl Fn(&str) -> String,
) -> Copy {
    let recording = pair.recording();
    let both = own_copy(&recording, |message, package| {
        is_granted(&pair.first, message, package) && is_granted(&pair.second, message, package)
    });
    let room = both.1.len() + dice.pick(&[0, 0, 1, 40]);
    let last = dice.bytes(room);
    let sheets = [pack_sheet(&pair.first), pack_sheet(&pair.second)];
    let one = side_by_side::copy_write(judge, dice, &first.1, &sheets[1], &last);
    let other = side_by_side::copy_write(judge, dice, &second.1, &sheets[0], &last);
    judge.claim(one == other, || told("the order of two sheets counts"));
    let expected = [&both.1[..], &last[both.1.len()..]].concat();
    let same = one.0.number == 0 && one.0.values[..] == both.0[1..] && one.1 == expected;
    judge.claim(same, || told("two sheets release not what both grant"));
    let telling = !both.1.is_empty() && both.1 != first.1 && both.1 != second.1;
    judge.trial("two sheets in turn, either way, release what both grant", telling);
    both
}

/// The second program's own copy of the packages that are to be released.
fn own_copy(recording: &[u8], released: impl Fn(&Message, &Package) -> bool) -> Copy {
    let messages = read_recording(recording).unwrap_or_default();
    let mut bytes = vec![0; recording.len()];
    match write_list(list_of(messages, released), &mut bytes) {
        Ok(copied) => {
            bytes.truncate(copied.bytes);
            let told = [0, 0, copied.bytes, copied.messages, copied.packages];
            (told.map(|number| number as u64), bytes)
        }
        Err(refusal) => ([refusal.number.into(), refusal.place as u64, 0, 0, 0], Vec::new()),
    }
}
