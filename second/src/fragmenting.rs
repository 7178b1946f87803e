//! Fragments, asked of the exports directly: what was cut is joined again, each fragment
//! says what it has to, and a gap is where a set in order ends.

use crate::dice::Dice;
use crate::fragments::{offset_option, FIRST, LAST, MIDDLE};
use crate::judge::{dump, Judge};
use crate::parse::{number_at, FRAGMENT_FLAGS};
use crate::refusal::{COUNT, GAP, LARGE, MOST_BYTES, PACKAGE, ROOM, STANDARD};
use crate::side_by_side;

/// No message's fragments are longer: 16,378 of 4 bytes, 36 bytes for each, and the
/// options of the first.
const LONGEST: usize = 16_378 * 36 + 60;

fn told(what: &str, input: &[u8]) -> String {
    format!("  {what}\n{}", dump(input, 0))
}

/// A message or a fragment, as the export of a header alone reads it.
#[derive(Clone, Debug, PartialEq, Eq)]
struct Read {
    flags: u8,
    message_id: u64,
    sequence: u32,
    time: [u64; 2],
    options: Vec<u8>,
    payload: Vec<u8>,
}

/// Reads the one that fills these bytes, unless it is refused, which it may be as LARGE.
fn read(judge: &mut Judge, dice: &mut Dice, bytes: &[u8]) -> Option<Read> {
    let answer = side_by_side::header(judge, dice, bytes);
    let [_, words, flags, message_id, sequence, length, seconds, nanoseconds, run_at, run_length] =
        answer.values;
    if answer.number != 0 || length != bytes.len() as u64 {
        return None;
    }
    Some(Read {
        flags: flags as u8,
        message_id,
        sequence: sequence as u32,
        time: [seconds, nanoseconds],
        options: bytes.get(run_at as usize..(run_at + run_length) as usize)?.to_vec(),
        payload: bytes.get(24 + 4 * words as usize..)?.to_vec(),
    })
}

/// The parts of some bytes, each as long as its length says.
fn parted(mut bytes: &[u8]) -> Vec<&[u8]> {
    let mut parts = Vec::new();
    while !bytes.is_empty() {
        let length = if bytes.len() < 24 { 0 } else { number_at(bytes, 12) as usize };
        let length = if length < 24 { bytes.len() } else { length.min(bytes.len()) };
        parts.push(&bytes[..length]);
        bytes = &bytes[length..];
    }
    parts
}

/// What the export writes that is lent as much room as it asks for.
fn cut(judge: &mut Judge, dice: &mut Dice, message: &[u8], size: usize) -> Option<(Vec<u8>, u64)> {
    let (asked, _) = side_by_side::cut(judge, dice, message, size, 0);
    if asked.number != ROOM {
        return None;
    }
    let room = (asked.values[0] as usize).min(LONGEST);
    let (answer, mut out) = side_by_side::cut(judge, dice, message, size, room);
    out.truncate(answer.values[1] as usize);
    (answer.number == 0).then_some((out, answer.values[2]))
}

/// A joining into a buffer as long as its input: number, place and what was written.
fn join(judge: &mut Judge, dice: &mut Dice, input: &[u8]) -> (u32, u64, Vec<u8>) {
    let (answer, mut out) = side_by_side::join(judge, dice, input, input.len());
    out.truncate(answer.values[1] as usize);
    (answer.number, answer.values[0], out)
}

fn clean(judge: &mut Judge, dice: &mut Dice, message: &[u8]) -> Vec<u8> {
    let (answer, mut out) = side_by_side::clean(judge, dice, message, message.len());
    out.truncate(answer.values[1] as usize);
    out
}

/// Tries every claim of cutting on one message and a size.
pub fn cutting(judge: &mut Judge, dice: &mut Dice, message: &[u8], size: usize) {
    let Some((fragments, count)) = cut(judge, dice, message, size) else {
        return;
    };
    let clean = clean(judge, dice, message);
    let of_clean = cut(judge, dice, &clean, size);
    judge.claim(of_clean == Some((fragments.clone(), count)), || {
        told("the clean form is cut otherwise", message)
    });
    if count == 1 {
        judge.claim(fragments == clean, || told("a message that fits is not clean", message));
    } else {
        say_what_they_have_to(judge, dice, &clean, size, (&fragments, count));
        lost(judge, dice, &fragments);
    }
    judge.trial("a message that fits comes out clean", count == 1 && clean.len() > 24);
    let (number, place, joined) = join(judge, dice, &fragments);
    let good = if fragments.len() > MOST_BYTES {
        (number, place) == (LARGE, MOST_BYTES as u64)
    } else {
        number == 0 && joined == clean
    };
    judge.claim(good, || told("what was cut is not joined to the clean form", message));
    let telling = count > 1 && clean != message && fragments.len() <= MOST_BYTES;
    judge.trial("what was cut is joined to the clean form", telling);
}

/// Each fragment passes as a header alone and has the whole's id, time and other flags,
/// its own number, offset and place; their payloads are the clean one.
fn say_what_they_have_to(
    judge: &mut Judge,
    dice: &mut Dice,
    clean: &[u8],
    size: usize,
    (fragments, count): (&[u8], u64),
) {
    let parts = parted(fragments);
    let first_fits = parts.first().is_some_and(|first| first.len() <= MOST_BYTES);
    let (Some(whole), true) = (read(judge, dice, clean), first_fits) else {
        return;
    };
    let (mut good, mut payload) = (parts.len() as u64 == count, Vec::new());
    for (index, part) in parts.iter().enumerate() {
        let (mark, options) = match index {
            0 => (FIRST, &whole.options[..]),
            _ if index + 1 == parts.len() => (LAST, &[][..]),
            _ => (MIDDLE, &[][..]),
        };
        let from = (index * size).min(whole.payload.len());
        let to = from.saturating_add(size).min(whole.payload.len());
        let expected = Read {
            flags: whole.flags | mark,
            sequence: whole.sequence.wrapping_add(index as u32),
            options: [options, &offset_option(index * size)].concat(),
            payload: whole.payload[from..to].to_vec(),
            ..whole.clone()
        };
        good &= from < to && read(judge, dice, part) == Some(expected);
        payload.extend_from_slice(&whole.payload[from..to]);
    }
    good &= payload == whole.payload;
    judge.claim(good, || told("a fragment says something else", fragments));
    judge.trial("each fragment says what it has to", count > 2);
}

/// One fragment of a good set is lost: a gap stands at the next one, or at the end.
fn lost(judge: &mut Judge, dice: &mut Dice, fragments: &[u8]) {
    let mut parts = parted(fragments);
    if fragments.len() > MOST_BYTES || parts.is_empty() {
        return;
    }
    let at = dice.below(parts.len());
    parts.remove(at);
    let place: usize = parts[..at].iter().map(|part| part.len()).sum();
    let (number, given, _) = join(judge, dice, &parts.concat());
    judge.claim((number, given) == (GAP, place as u64), || {
        told("a lost fragment is no gap in its place", fragments)
    });
    judge.trial("a lost fragment is a gap", at + 1 < parts.len());
}

/// Tries every claim of joining on one input.
pub fn joining(judge: &mut Judge, dice: &mut Dice, input: &[u8]) {
    let (number, place, joined) = join(judge, dice, input);
    judge.claim(number != ROOM, || told("what is joined is longer than its input", input));
    match number {
        0 => {
            let checked = side_by_side::check(judge, dice, &joined);
            let clean = clean(judge, dice, &joined);
            let again = join(judge, dice, &joined);
            let good = checked.number == 0 && checked.values[1] == 1 && clean == joined;
            judge.claim(good && again == (0, 0, joined.clone()), || {
                told("what is joined does not pass, or is not clean", input)
            });
            judge.trial("what is joined passes and is clean", joined != input);
        }
        GAP => gap(judge, dice, input, place as usize),
        _ => {}
    }
    whole(judge, dice, input);
}

/// What stands before a gap lacks its last, or is a whole set; with the fragment at the
/// gap, and nothing behind it, the answer stays.
fn gap(judge: &mut Judge, dice: &mut Dice, input: &[u8], place: usize) {
    let before = input.get(..place).unwrap_or_default();
    let (number, at_end, _) = join(judge, dice, before);
    let goes_on = number != GAP || at_end == place as u64;
    let behind = parted(input.get(place..).unwrap_or_default());
    let up_to = place + behind.first().map_or(0, |part| part.len());
    let (number, again, _) = join(judge, dice, input.get(..up_to).unwrap_or_default());
    judge.claim(goes_on && (number, again) == (GAP, place as u64), || {
        told("a gap is not where the set ends", input)
    });
    judge.trial("a gap is where a set in order ends", place > 0 && up_to < input.len());
}

/// One whole message alone is joined as the cleaner does it; from 9 on a refusal's place
/// is 0.
fn whole(judge: &mut Judge, dice: &mut Dice, input: &[u8]) {
    let header = side_by_side::header(judge, dice, input);
    let alone =
        header.values[5] == input.len() as u64 && header.values[2] & u64::from(FRAGMENT_FLAGS) == 0;
    if header.number == 0 && !alone {
        return;
    }
    let (expected, cleaned) = side_by_side::clean(judge, dice, input, input.len());
    let (mut number, mut values) = (expected.number, expected.values);
    if [STANDARD, PACKAGE, COUNT].contains(&number) {
        values[0] = 0;
    }
    if input.is_empty() {
        (number, values) = (GAP, [0, 0]);
    }
    let (given, out) = side_by_side::join(judge, dice, input, input.len());
    let written = values[1] as usize;
    let same = (given.number, given.values) == (number, values)
        && out.get(..written) == cleaned.get(..written);
    judge.claim(same, || told("one whole message is not joined as it is cleaned", input));
    judge.trial("one whole message is joined as it is cleaned", header.number == 0);
}
