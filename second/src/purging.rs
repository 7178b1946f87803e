//! Purging, asked of the exports directly: what stays, what goes, and that
//! nothing else shows in the buffer.

use crate::dice::Dice;
use crate::generate::{lay_all, message, package_count, DirtyMessage};
use crate::judge::{dump, Judge};
use crate::orders::pack_sheet;
use crate::parse::{read_recording, Message, Placed};
use crate::purge::{kept_records, Kept};
use crate::rests::{change_record, Scene};
use crate::sheet::Row;
use crate::side_by_side;

/// A purge as the export gives it: number, place and bytes in use, and the whole
/// buffer.
type Purge = ([u64; 3], Vec<u8>);

fn purge(judge: &mut Judge, dice: &mut Dice, recording: &[u8], rows: &[Row]) -> Purge {
    let (answer, buffer) = side_by_side::purge(judge, dice, recording, &pack_sheet(rows));
    ([answer.number.into(), answer.values[0], answer.values[1]], buffer)
}

/// The bytes in use.
fn in_use(purge: &Purge) -> &[u8] {
    purge.1.get(..purge.0[2] as usize).unwrap_or_default()
}

fn told(what: &str, recording: &[u8], rows: &[Row]) -> String {
    format!("  {what}\n{}  sheet:\n{}", dump(recording, 0), dump(&pack_sheet(rows), 0))
}

/// Tries every claim on one recording and a sheet for it.
pub fn purging(judge: &mut Judge, dice: &mut Dice, scene: &Scene) {
    let recording = scene.recording();
    let purged = purge(judge, dice, &recording, &scene.rows);
    judge.claim(purged.0[..2] == [0, 0], || {
        told("a good recording is refused", &recording, &scene.rows)
    });
    let used = in_use(&purged);
    let zero = purged.1[used.len()..].iter().all(|byte| *byte == 0);
    judge.claim(zero, || told("a freed byte is not zero", &recording, &scene.rows));
    // Something stays, and something went.
    let parted = !used.is_empty() && used.len() < recording.len();
    judge.trial("every freed byte is zero", parted);
    parts(judge, dice, scene, used);
    appended(judge, dice, scene, &purged);
    let again = purge(judge, dice, used, &scene.rows);
    let same = again.0 == [0, 0, used.len() as u64] && again.1 == used;
    judge.claim(same, || told("purging twice changes more", &recording, &scene.rows));
    judge.trial("purged twice is as once", parted);
    cleaned(judge, dice, scene);
    equal_rests(judge, dice, scene);
    different_rests(judge, dice, scene);
}

/// The numbers of all packages, which their first four data bytes are.
fn package_numbers(messages: &[Placed]) -> Vec<u32> {
    let packages = messages.iter().flat_map(|placed| &placed.message.packages);
    let number = |data: &[u8]| Some(u32::from_be_bytes(data.get(..4)?.try_into().ok()?));
    packages.filter_map(|package| number(package.data)).collect()
}

/// What is in use passes every check, nothing of it is granted, and each package
/// of the recording is either there or in the copy.
fn parts(judge: &mut Judge, dice: &mut Dice, scene: &Scene, used: &[u8]) {
    let (recording, sheet) = (scene.recording(), pack_sheet(&scene.rows));
    let all = side_by_side::check(judge, dice, &recording);
    let rest = side_by_side::check(judge, dice, used);
    let measured = side_by_side::copy_measure(judge, dice, used, &sheet);
    let (copied, out) = side_by_side::copy(judge, dice, &recording, &sheet, recording.len());
    let copy = out.get(..copied.values[1] as usize).unwrap_or_default();
    judge.claim(rest.number == 0 && measured.number == 0 && measured.values == [0; 4], || {
        told("what is in use does not pass, or is granted", &recording, &scene.rows)
    });
    let stay = read_recording(used).unwrap_or_default();
    let go = read_recording(copy).unwrap_or_default();
    let (stay_numbers, go_numbers) = (package_numbers(&stay), package_numbers(&go));
    let counted = stay_numbers.len() as u64 == rest.values[2]
        && go_numbers.len() as u64 == copied.values[3]
        && rest.values[2] + copied.values[3] == all.values[2];
    let mut parted = [&stay_numbers[..], &go_numbers].concat();
    parted.sort_unstable();
    // Each is in the recording's order, which is that of the numbers.
    let once = parted.iter().copied().eq(0..all.values[2] as u32);
    let ordered = stay_numbers.is_sorted() && go_numbers.is_sorted();
    judge.claim(counted && once && ordered && as_before(&recording, &stay), || {
        told("copy and purge do not part the recording", &recording, &scene.rows)
    });
    let telling = !stay_numbers.is_empty() && !go_numbers.is_empty();
    judge.trial("copy and purge part the recording", telling);
}

/// Has each message that stays its id, sequence number, time and flags, and its
/// packages in order, and does each that had no packages stay?
fn as_before(recording: &[u8], stay: &[Placed]) -> bool {
    let header = |message: &Message| {
        let Message { flags, message_id, sequence, seconds, nanoseconds, .. } = *message;
        (flags, message_id, sequence, seconds, nanoseconds, message.option_run.len())
    };
    let Ok(before) = read_recording(recording) else {
        return false;
    };
    let empty = |placed: &&Placed| placed.message.packages.is_empty();
    let mut left = before.iter();
    let all_there = stay.iter().all(|now| {
        left.any(|then| {
            header(&then.message) == header(&now.message)
                && (then.message.packages.is_empty() == now.message.packages.is_empty())
                && now.message.packages.iter().all(|one| then.message.packages.contains(one))
        })
    });
    all_there && stay.iter().filter(empty).count() == before.iter().filter(empty).count()
}

/// A message behind what is in use, in the freed bytes where it fits: all of it
/// passes every check.
fn appended(judge: &mut Judge, dice: &mut Dice, scene: &Scene, purged: &Purge) {
    let used = in_use(purged);
    let packages = package_count(dice);
    let more = message(dice, &scene.world, packages).laid();
    let room = purged.1.len() - used.len();
    let before = side_by_side::check(judge, dice, used);
    let mut buffer = purged.1.clone();
    buffer.resize(buffer.len().max(used.len() + more.len()), 0);
    let end = used.len() + more.len();
    buffer[used.len()..end].copy_from_slice(&more);
    let behind = side_by_side::check(judge, dice, &buffer[..end]);
    let [_, messages, of_them] = before.values;
    let good = behind.number == 0 && behind.values == [0, messages + 1, of_them + packages as u64];
    judge.claim(good || end > crate::refusal::MOST_BYTES, || {
        told("an appended message does not pass", &buffer[..end], &scene.rows)
    });
    judge.trial("a message may be appended", more.len() <= room);
}

/// Under a sheet without rows each message is in its clean form, as the cleaner
/// gives it.
fn cleaned(judge: &mut Judge, dice: &mut Dice, scene: &Scene) {
    let recording = scene.recording();
    let mut clean = Vec::new();
    for message in &scene.messages {
        let bytes = message.laid();
        let (answer, out) = side_by_side::clean(judge, dice, &bytes, bytes.len());
        clean.extend(out.get(..answer.values[1] as usize).unwrap_or_default());
    }
    let purged = purge(judge, dice, &recording, &[]);
    judge.claim(purged.0[0] == 0 && in_use(&purged) == clean, || {
        told("without rows a message is not in clean form", &recording, &[])
    });
    judge.trial("without rows it is every message's clean form", clean != recording);
}

/// Two recordings of equal length of which the same stays: one answer and one
/// buffer.
fn equal_rests(judge: &mut Judge, dice: &mut Dice, scene: &Scene) {
    let Some((one, other)) = scene.equal_rests(dice) else {
        return;
    };
    let made = with_rests(&one, &other, &scene.rows, |one, other| one == other);
    if made != Some(true) || one.len() != other.len() {
        return judge.differs(|| "  the recordings were made wrongly\n".to_string());
    }
    let first = purge(judge, dice, &one, &scene.rows);
    let second = purge(judge, dice, &other, &scene.rows);
    judge.claim(first == second, || {
        told("of two recordings the same stays, in two buffers", &one, &scene.rows)
            + &told("the other one", &other, &scene.rows)
    });
    let telling = one != other && !in_use(&first).is_empty() && in_use(&first).len() < one.len();
    judge.trial("equal kept records and lengths give one buffer", telling);
}

/// Asks something of what stays of two recordings that pass.
fn with_rests(
    one: &[u8],
    other: &[u8],
    rows: &[Row],
    ask: impl FnOnce(&[Kept], &[Kept]) -> bool,
) -> Option<bool> {
    let (one, other) = (read_recording(one).ok()?, read_recording(other).ok()?);
    Some(ask(&kept_records(one, rows), &kept_records(other, rows)))
}

/// Two recordings of which not the same stays: the bytes in use differ.
fn different_rests(judge: &mut Judge, dice: &mut Dice, scene: &Scene) {
    let mut messages: Vec<DirtyMessage> = scene.messages.clone();
    let at = dice.below(messages.len());
    change_record(dice, &mut messages[at]);
    let (one, other) = (scene.recording(), lay_all(&messages).0);
    let differ = with_rests(&one, &other, &scene.rows, |one, other| one != other);
    let first = purge(judge, dice, &one, &scene.rows);
    let second = purge(judge, dice, &other, &scene.rows);
    judge.claim(differ.is_none_or(|differ| differ == (in_use(&first) != in_use(&second))), || {
        told("of two recordings not the same stays, in one buffer", &one, &scene.rows)
            + &told("the other one", &other, &scene.rows)
    });
    judge.trial("different kept records give different bytes", differ == Some(true));
}
