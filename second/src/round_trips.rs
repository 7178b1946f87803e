//! Round trips through the exports alone: what one function gives, another
//! one takes.

use crate::burst::{CODEBLOCK_BYTES, MARKER_BYTES};
use crate::dice::Dice;
use crate::drafts::{draft_of, OwnDraft};
use crate::generate::*;
use crate::judge::{dump, Judge};
use crate::orders::{everything, pack_sheet, rows, targets};
use crate::parse::{COUNT_KIND, OFFSET_KIND};
use crate::refusal::{COUNT, OPTION};
use crate::side_by_side;

type Trip = fn(&mut Judge, &mut Dice);

pub const TRIPS: [(&str, Trip); 7] = [
    ("written, then read, is the record", written_then_read),
    ("the clean form's clean form is itself", cleaned_twice),
    ("a read message's parts, written, are its clean form", parts_written),
    ("clean forms are equal exactly if records are", equal_clean_forms),
    ("a package count passes exactly if it counts", counted),
    ("the copy's copy is itself", copied_twice),
    ("randomized twice is as before", randomized_twice),
];

pub fn case(judge: &mut Judge, dice: &mut Dice) {
    let kind = dice.below(TRIPS.len());
    trip(judge, dice, kind);
}

pub fn trip(judge: &mut Judge, dice: &mut Dice, kind: usize) {
    let (name, trip) = TRIPS[kind];
    judge.kind(&format!("round trip: {name}"));
    trip(judge, dice);
}

/// A good message with some packages or none.
fn any_message(dice: &mut Dice) -> DirtyMessage {
    let world = World::new(dice);
    let packages = package_count(dice);
    message(dice, &world, packages)
}

/// The first so many bytes of a buffer, as an answer reports them.
fn written(answer: &[u64], buffer: &[u8]) -> Vec<u8> {
    let count = (answer[1] as usize).min(buffer.len());
    buffer[..count].to_vec()
}

fn written_then_read(judge: &mut Judge, dice: &mut Dice) {
    let message = any_message(dice);
    let draft = draft_of(dice, &message);
    let (answer, buffer) = side_by_side::write(judge, dice, &draft, 65_536);
    let bytes = written(&answer.values, &buffer);
    let words = message.options.len().div_ceil(4);
    let standard = if message.packages.is_empty() { 0 } else { 0x80 };
    let header = side_by_side::header(judge, dice, &bytes);
    let expected_header = [
        0,
        words as u64,
        u64::from(message.flags | standard),
        message.message_id.into(),
        message.sequence.into(),
        bytes.len() as u64,
        message.seconds.into(),
        message.nanoseconds.into(),
        24,
        message.options.len() as u64,
    ];
    let options = bytes.get(24..24 + message.options.len());
    let good_header = header.number == 0
        && header.values == expected_header
        && options == Some(message.options.as_slice());
    judge.claim(good_header, || {
        format!("  the header read is not the one written\n{}", dump(&bytes, 0))
    });
    let payload = bytes.get(24 + 4 * words..).unwrap_or(&[]);
    let shown = side_by_side::walk(judge, dice, payload, 0);
    let good_packages = shown.len() == message.packages.len()
        && shown.iter().zip(&message.packages).all(|(values, package)| {
            let data = payload.get(values[6] as usize..(values[6] + values[7]) as usize);
            let numbers =
                [package.id, 12 + package.data.len() as u32, package.status.into(), package.delta];
            values[2..6] == numbers.map(u64::from) && data == Some(package.data.as_slice())
        });
    judge.claim(good_packages, || {
        format!("  the packages read are not those written\n{}", dump(&bytes, 0))
    });
}

fn cleaned_twice(judge: &mut Judge, dice: &mut Dice) {
    let bytes = any_message(dice).laid();
    let (once, buffer) = side_by_side::clean(judge, dice, &bytes, bytes.len());
    let first = written(&once.values, &buffer);
    let (twice, buffer) = side_by_side::clean(judge, dice, &first, first.len());
    let second = written(&twice.values, &buffer);
    let same = once.number == 0 && twice.number == 0 && first == second;
    judge.claim(same, || format!("  cleaning twice changes more\n{}", dump(&bytes, 0)));
}

fn parts_written(judge: &mut Judge, dice: &mut Dice) {
    let bytes = any_message(dice).laid();
    let header = side_by_side::header(judge, dice, &bytes);
    let [_, words, flags, message_id, sequence, length, seconds, nanoseconds, run_at, run_length] =
        header.values;
    let part = |from: u64, to: u64| bytes.get(from as usize..to as usize).unwrap_or(&[]).to_vec();
    let draft = OwnDraft {
        flags: flags as u8,
        message_id: message_id as u32,
        sequence: sequence as u32,
        seconds: seconds as u32,
        nanoseconds: nanoseconds as u32,
        options: part(run_at, run_at.saturating_add(run_length)),
        packages: part(words.saturating_mul(4).saturating_add(24), length),
    };
    let (first, buffer) = side_by_side::write(judge, dice, &draft, bytes.len());
    let rewritten = written(&first.values, &buffer);
    let (second, buffer) = side_by_side::clean(judge, dice, &bytes, bytes.len());
    let clean = written(&second.values, &buffer);
    let same = first.number == 0 && second.number == 0 && rewritten == clean;
    judge.claim(same, || {
        format!("  its parts, written, are not its clean form\n{}", dump(&bytes, 0))
    });
}

/// The same record with other dirt.
fn other_dirt(dice: &mut Dice, message: &DirtyMessage) -> DirtyMessage {
    let mut world = World::new(dice);
    world.dirty = true;
    let mut other = message.clone();
    other.reserved_nibble = dice.byte() & 15;
    other.reserved_flags = dice.byte();
    other.behind_options = behind_options(dice, &world, other.options.len());
    for package in &mut other.packages {
        package.reserved = dice.byte();
        package.padding = [dice.byte(), dice.byte(), dice.byte()];
    }
    other
}

/// Another record: one field is changed.
fn other_record(dice: &mut Dice, message: &DirtyMessage) -> DirtyMessage {
    let mut other = message.clone();
    match dice.below(8) {
        0 => other.flags ^= dice.pick(&[0x40, 8, 4, 2, 1]),
        1 => other.message_id ^= 1 << dice.below(32),
        2 => other.sequence ^= 1 << dice.below(32),
        3 => other.seconds ^= 1 << dice.below(32),
        4 if !other.options.is_empty() => {
            other.options.clear();
            other.behind_options.clear();
        }
        5 if !other.packages.is_empty() => {
            let at = dice.below(other.packages.len());
            other.packages[at].status ^= 1 << dice.below(8);
        }
        6 if !other.packages.is_empty() => {
            let at = dice.below(other.packages.len());
            other.packages[at].data.push(0);
        }
        7 if !other.packages.is_empty() => {
            let at = dice.below(other.packages.len());
            other.packages.remove(at);
            other.recount();
        }
        _ => other.nanoseconds = if other.nanoseconds == 0 { 1 } else { other.nanoseconds - 1 },
    }
    other
}

fn equal_clean_forms(judge: &mut Judge, dice: &mut Dice) {
    let message = any_message(dice);
    let equal = other_dirt(dice, &message);
    let changed = other_record(dice, &message);
    let mut forms = Vec::new();
    for one in [&message, &equal, &changed] {
        let (answer, buffer) = side_by_side::clean(judge, dice, &one.laid(), 65_536);
        judge.claim(answer.number == 0, || "  a good message is not cleaned\n".to_string());
        forms.push(written(&answer.values, &buffer));
    }
    judge.claim(forms[0] == forms[1], || {
        format!(
            "  equal records have two clean forms\n{}{}",
            dump(&forms[0], 0),
            dump(&forms[1], 0)
        )
    });
    judge.claim(forms[0] != forms[2], || {
        format!("  two records have one clean form\n{}", dump(&forms[0], 0))
    });
}

/// The refusal of one message in every function that counts its packages: as
/// checked, cleaned, measured for a copy and written, with the place.
fn refusals(judge: &mut Judge, dice: &mut Dice, message: &DirtyMessage) -> [(u32, u64); 4] {
    let bytes = message.laid();
    let check = side_by_side::check(judge, dice, &bytes);
    let (clean, _) = side_by_side::clean(judge, dice, &bytes, bytes.len());
    let (copy, _) =
        side_by_side::copy(judge, dice, &bytes, &pack_sheet(&[everything()]), bytes.len());
    let draft = draft_of(dice, message);
    let (write, _) = side_by_side::write(judge, dice, &draft, bytes.len());
    [
        (check.number, check.values[0]),
        (clean.number, clean.values[0]),
        (copy.number, copy.values[0]),
        (write.number, write.values[0]),
    ]
}

/// The number of packages that checking reports passes as their count, and no
/// other does; a header is read all the same. A second count or offset is a bad
/// option for a header too.
fn counted(judge: &mut Judge, dice: &mut Dice) {
    let mut message = any_message(dice);
    message.options.clear();
    message.behind_options.clear();
    let checked = side_by_side::check(judge, dice, &message.laid());
    let packages = checked.values[2] as u32;
    let spread = dice.word();
    let counts = [packages, packages + 1, packages.wrapping_sub(1), packages ^ 1 << 31, spread];
    for count in counts {
        let number = count.to_be_bytes();
        message.options = [&[1, COUNT_KIND, 6], &number[..], &[2]].concat();
        let expected = if count == packages { (0, 0) } else { (COUNT, 0) };
        let header = side_by_side::header(judge, dice, &message.laid());
        let good = refusals(judge, dice, &message) == [expected; 4] && header.number == 0;
        judge.claim(good, || {
            format!("  {packages} packages counted as {count}\n{}", dump(&message.laid(), 0))
        });
    }
    for kind in [OFFSET_KIND, COUNT_KIND] {
        let option = [&[kind, 6], &packages.to_be_bytes()[..]].concat();
        message.options = [&option[..], &[1], &option, &[2, 3, 4]].concat();
        let header = side_by_side::header(judge, dice, &message.laid());
        let read = (OPTION, 24 + 7);
        let good = refusals(judge, dice, &message) == [read, read, read, (OPTION, 7)]
            && (header.number, header.values[0]) == read;
        judge.claim(good, || format!("  two of {kind:02X} hex\n{}", dump(&message.laid(), 0)));
    }
}

/// The copy is a recording that passes, with as many messages and packages as
/// reported, and the same sheet releases all of it again.
fn copied_twice(judge: &mut Judge, dice: &mut Dice) {
    let world = World::new(dice);
    let messages = messages(dice, &world);
    let sheet = pack_sheet(&rows(dice, &targets(&messages)));
    let recording = lay_all(&messages).0;
    let (once, buffer) = side_by_side::copy(judge, dice, &recording, &sheet, recording.len());
    if once.number != 0 {
        // Only a recording above 65,536 bytes is refused here.
        return judge
            .claim(recording.len() > 65_536, || "  a good recording is refused\n".to_string());
    }
    let first = written(&once.values, &buffer);
    let checked = side_by_side::check(judge, dice, &first);
    let counts = checked.number == 0 && checked.values[1..] == once.values[2..];
    judge.claim(counts, || format!("  the copy is not what was reported\n{}", dump(&first, 0)));
    let (twice, buffer) = side_by_side::copy(judge, dice, &first, &sheet, first.len());
    let second = written(&twice.values, &buffer);
    let same = twice == once && first == second;
    judge.claim(same, || format!("  the copy's copy is another\n{}", dump(&first, 0)));
}

fn randomized_twice(judge: &mut Judge, dice: &mut Dice) {
    let bytes = dice.some_bytes(0, 3_000);
    let (_, once) = side_by_side::randomize(judge, dice, &bytes);
    let (_, twice) = side_by_side::randomize(judge, dice, &once);
    judge.claim(twice == bytes, || format!("  randomized twice is another\n{}", dump(&bytes, 0)));
    let mut burst = MARKER_BYTES.to_vec();
    let codeblocks = dice.within(1, 5);
    burst.extend(dice.bytes(CODEBLOCK_BYTES * codeblocks));
    let (_, opened) = side_by_side::open_burst(judge, dice, &burst);
    // Behind the marker, an opened burst is the randomized one.
    let (_, randomized) = side_by_side::randomize(judge, dice, &burst[8..]);
    let same = opened[..8] == MARKER_BYTES && opened[8..] == randomized;
    judge.claim(same, || format!("  opening is not randomizing\n{}", dump(&burst, 0)));
}
