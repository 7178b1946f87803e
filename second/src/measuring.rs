//! Measuring and writing a copy, asked of the exports directly: what was
//! measured is what is then written, and a buffer of so many bytes has room.

use crate::answers::Answer;
use crate::dice::Dice;
use crate::judge::{dump, Judge};
use crate::refusal::{MOST_BYTES, ROOM};
use crate::side_by_side;

/// What was measured is what is then written, number for number. Both refuse
/// alike, except that measuring has no room to run out of.
pub fn agree(judge: &mut Judge, measured: Answer<4>, written: Answer<4>, room: usize) {
    judge.claim(measured.number != ROOM, || "  measuring gave ROOM\n".to_string());
    let needed = measured.values[1];
    let expected = if measured.number == 0 && needed > room as u64 {
        Answer { number: ROOM, values: [needed, 0, 0, 0] }
    } else {
        measured
    };
    judge.claim(written == expected, || {
        format!("  {room} bytes of room: measured {measured:?}, written {written:?}\n")
    });
}

/// Measures a recording's copy, and then writes it into a buffer of exactly the
/// measured bytes, of one byte less, of one more, and of none.
pub fn measured_then_written(judge: &mut Judge, dice: &mut Dice, recording: &[u8], sheet: &[u8]) {
    let measured = side_by_side::copy_measure(judge, dice, recording, sheet);
    // No copy is longer, so a wrong measurement takes no more memory either.
    let needed = measured.values[1].min(MOST_BYTES as u64) as usize;
    let mut rooms = vec![needed, needed + 1];
    if needed > 0 {
        rooms.extend([needed - 1, 0]);
    }
    for room in rooms {
        let buffer = dice.bytes(room);
        let (written, after) = side_by_side::copy_write(judge, dice, recording, sheet, &buffer);
        agree(judge, measured, written, room);
        if written.number != 0 {
            judge.claim(after == buffer, || "  a refused copy is in the buffer\n".to_string());
            continue;
        }
        let copy = after.get(..needed).unwrap_or_default();
        let checked = side_by_side::check(judge, dice, copy);
        let counted = checked.number == 0 && checked.values[1..] == measured.values[2..];
        judge.claim(counted, || {
            format!("  the copy has not what was measured, {measured:?}\n{}", dump(copy, 0))
        });
    }
}
