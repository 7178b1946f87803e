//! The seeded cases: each has its own dice and is of one kind.

mod captures;
mod fragments;
mod radios;
mod salvages;

use crate::burst::{CODEBLOCK_BYTES, MARKER_BYTES};
use crate::damage::{any_fault, change_blindly, damaged, with_faults};
use crate::dice::Dice;
use crate::drafts::{bad_draft, draft_of, good_draft, OwnDraft};
use crate::generate::*;
use crate::judge::Judge;
use crate::lent::room_for;
use crate::lines::{any_line, any_ranges, Handed};
use crate::orders::{bad_sheet, everything, pack_sheet, row_around, rows, targets, Target};
use crate::pairs::Pair;
use crate::refusal::{MOST_BYTES, ROOM};
use crate::rests::Scene;
use crate::runs::{any_state, many_ids, words_of, Run};
use crate::seams::Seam;
use crate::{
    copy, demand, ids, in_turn, measuring, purging, releases, render, round_trips, side_by_side,
    stepping, steps, typed_ids,
};

type Case = fn(&mut Judge, &mut Dice);

/// The kinds of cases and how many of each there are in a hundred.
const KINDS: [(u64, Case); 15] = [
    (9, header_case),
    (8, package_case),
    (9, check_case),
    (11, write_case),
    (8, clean_case),
    (7, sheet_case),
    (12, copy_case),
    (4, measuring_case),
    (3, seam_case),
    (3, acquired_case),
    (2, randomize_case),
    (4, open_burst_case),
    (9, demand::withheld_case),
    (6, demand::changed_case),
    (5, round_trips::case),
];

/// What is tried beside these cases: one case beside each so many of them.
const BESIDE: [(u64, Case); 17] = [
    (7, pair_case),
    (8, purge_case),
    (12, purging_case),
    (5, ids_case),
    (9, typed_ids_case),
    (4, step_case),
    (13, stepping_case),
    (160, run_case),
    (6, salvages::salvage),
    (11, salvages::salvaging),
    (10, salvages::bad_block),
    (6, captures::capture),
    (14, captures::capturing),
    (6, fragments::fragments),
    (10, fragments::fragmenting),
    (6, radios::radio),
    (9, radios::radio_trips),
];

/// Runs the case with this number, and what is tried beside it.
pub fn run(judge: &mut Judge, seed: u64, case: u64) {
    let repeat = format!("case {case} of seed {seed} (repeat it with --seed {seed} --only {case})");
    judge.begin(repeat.clone());
    let mut dice = Dice::new(seed, case);
    kind_of(case)(judge, &mut dice);
    for (each, beside) in BESIDE {
        if case.is_multiple_of(each) {
            judge.begin(format!("beside {repeat}"));
            beside(judge, &mut dice);
        }
    }
}

fn kind_of(case: u64) -> Case {
    // 37 has no divisor in common with 100, so the kinds take turns.
    let mut slot = case.wrapping_mul(37) % 100;
    for (share, kind) in KINDS {
        if slot < share {
            return kind;
        }
        slot -= share;
    }
    unreachable!("the shares of all kinds are a hundred");
}

/// The bytes that a good call needs: what a call without a buffer asks for.
fn needed(outcome: Result<usize, crate::refusal::Refusal>) -> usize {
    match outcome {
        Err(refusal) if refusal.number == ROOM => refusal.place,
        _ => 64,
    }
}

/// The size of a long recording, at a limit or below it or just above.
fn long_size(dice: &mut Dice) -> usize {
    let spread = 4 * dice.within(256, MOST_BYTES / 4);
    dice.pick(&[MOST_BYTES, MOST_BYTES - 4, MOST_BYTES + 4, MOST_BYTES + 36, spread, spread])
}

/// A recording, good or damaged, and the packages that rows may aim at.
pub fn any_recording(dice: &mut Dice) -> (Vec<u8>, Vec<Target>) {
    let world = World::new(dice);
    let messages = if dice.chance(1, 12) {
        let (size, style) = (long_size(dice), style(dice));
        messages_of_size(dice, &world, size, style)
    } else {
        messages(dice, &world)
    };
    let targets = targets(&messages);
    let mut bytes = match dice.below(20) {
        0..=10 => damaged(dice, messages),
        _ => lay_all(&messages).0,
    };
    if dice.chance(1, 60) {
        // Too many bytes come before every fault of a message.
        bytes.resize(MOST_BYTES + dice.within(1, 40), 0);
    }
    (bytes, targets)
}

/// One message and often more behind it; the faults are mostly in the first.
fn first_message(dice: &mut Dice) -> Vec<u8> {
    let world = World::new(dice);
    let mut some = if dice.chance(1, 30) {
        let (size, style) = (long_size(dice), style(dice));
        messages_of_size(dice, &world, size, style)
    } else {
        let mut some = Vec::new();
        for _ in 0..dice.pick(&[1, 1, 2, 3]) {
            let packages = package_count(dice);
            some.push(message(dice, &world, packages));
        }
        some
    };
    let mut bytes = match dice.below(12) {
        0..=3 => lay_all(&some).0,
        4 => damaged(dice, some),
        _ => {
            let mut faults = Vec::new();
            for _ in 0..dice.pick(&[1, 1, 2, 3]) {
                faults.push((0, any_fault(dice)));
            }
            with_faults(dice, &mut some, &faults)
        }
    };
    if dice.chance(1, 4) {
        bytes.extend(dice.some_bytes(0, 40));
    }
    if dice.chance(1, 60) {
        bytes.resize(MOST_BYTES + dice.below(3), 0);
    }
    bytes
}

fn header_case(judge: &mut Judge, dice: &mut Dice) {
    judge.kind("header");
    let mut bytes = first_message(dice);
    if dice.chance(1, 15) {
        bytes.truncate(dice.below(30));
    }
    side_by_side::header(judge, dice, &bytes);
}

fn package_case(judge: &mut Judge, dice: &mut Dice) {
    judge.kind("package walk");
    let world = World::new(dice);
    // A walk may begin at any place, so packages often stand at odd ones.
    let start = dice.pick(&[0, 0, 0, 1, 2, 3, 5, 12, 30]);
    let mut run = dice.bytes(start);
    let count = package_count(dice);
    for _ in 0..count {
        package(dice, &world).lay(&mut run);
    }
    match dice.below(12) {
        0..=5 => {}
        6..=8 => change_blindly(dice, &mut run),
        9 => {
            // A package of the greatest sizes in the longest run.
            let length = dice.pick(&[12, 65_531, 65_532, 65_533, 65_534, 65_535]) as u16;
            run.resize(MOST_BYTES - dice.below(2), 0);
            run[4..6].copy_from_slice(&length.to_be_bytes());
        }
        10 => run.resize(MOST_BYTES + dice.below(3), 0),
        _ => run.truncate(run.len().saturating_sub(dice.within(1, 12))),
    }
    side_by_side::walk(judge, dice, &run, start);
    for _ in 0..3 {
        let length = run.len();
        let far = dice.throw() as usize;
        let inside = dice.below(length + 1);
        let choices = [0, inside, inside / 4 * 4, length, length + 1, MOST_BYTES, usize::MAX, far];
        let at = dice.pick(&choices);
        side_by_side::package(judge, dice, &run, at);
    }
    let last = run.len().saturating_sub(dice.below(14));
    side_by_side::package(judge, dice, &run, last);
}

fn check_case(judge: &mut Judge, dice: &mut Dice) {
    judge.kind("check");
    let (recording, _) = any_recording(dice);
    side_by_side::check(judge, dice, &recording);
}

fn write_case(judge: &mut Judge, dice: &mut Dice) {
    judge.kind("write");
    let draft = match dice.below(20) {
        0..=8 => good_draft(dice),
        9 => longest_draft(dice),
        _ => bad_draft(dice),
    };
    let room = needed(render::write(&draft.borrowed(), &mut []));
    let room = room_for(dice, room);
    side_by_side::write(judge, dice, &draft, room);
}

/// A good draft whose message takes 65,536 bytes or a little less.
fn longest_draft(dice: &mut Dice) -> OwnDraft {
    let world = World::new(dice);
    let mut longest = message(dice, &world, 1);
    let options = longest.options.len().div_ceil(4) * 4;
    let room = MOST_BYTES - 24 - options - 4 * dice.below(3);
    longest.packages[0].data = dice.bytes(room - 12);
    draft_of(dice, &longest)
}

fn clean_case(judge: &mut Judge, dice: &mut Dice) {
    judge.kind("clean");
    let bytes = first_message(dice);
    let room = needed(render::clean(&bytes, &mut []));
    let room = room_for(dice, room);
    side_by_side::clean(judge, dice, &bytes, room);
}

/// A sheet, mostly good, for these targets.
pub fn any_sheet(dice: &mut Dice, targets: &[Target]) -> Vec<u8> {
    match dice.below(10) {
        0 => bad_sheet(dice, targets),
        1 => {
            let mut sheet = pack_sheet(&rows(dice, targets));
            change_blindly(dice, &mut sheet);
            sheet
        }
        _ => pack_sheet(&rows(dice, targets)),
    }
}

fn sheet_case(judge: &mut Judge, dice: &mut Dice) {
    judge.kind("sheet");
    let sheet = match dice.below(5) {
        0 | 1 => bad_sheet(dice, &[]),
        2 => any_sheet(dice, &[]),
        _ => {
            let world = World::new(dice);
            let targets = targets(&messages(dice, &world));
            any_sheet(dice, &targets)
        }
    };
    side_by_side::sheet(judge, dice, &sheet);
}

/// A recording and a sheet for it, each good or bad.
fn recording_and_sheet(dice: &mut Dice) -> (Vec<u8>, Vec<u8>) {
    let (recording, targets) = any_recording(dice);
    // In a long copy the sequence numbers grow.
    let sheet = if recording.len() > 10_000 && dice.chance(1, 3) {
        pack_sheet(&[everything()])
    } else {
        any_sheet(dice, &targets)
    };
    (recording, sheet)
}

fn copy_case(judge: &mut Judge, dice: &mut Dice) {
    judge.kind("copy");
    let (recording, sheet) = recording_and_sheet(dice);
    let needed = copy::measure(&recording, &sheet).map_or(64, |copied| copied.bytes);
    let room = room_for(dice, needed);
    side_by_side::copy(judge, dice, &recording, &sheet, room);
}

fn measuring_case(judge: &mut Judge, dice: &mut Dice) {
    judge.kind("measured, then written");
    let (recording, sheet) = recording_and_sheet(dice);
    measuring::measured_then_written(judge, dice, &recording, &sheet);
}

fn seam_case(judge: &mut Judge, dice: &mut Dice) {
    judge.kind("neighbouring windows");
    let seam = Seam::new(dice);
    releases::neighbours(judge, dice, &seam);
}

fn acquired_case(judge: &mut Judge, dice: &mut Dice) {
    judge.kind("acquired data only");
    let world = World::new(dice);
    let messages = messages(dice, &world);
    let mut rows = rows(dice, &targets(&messages));
    rows.truncate(16);
    releases::acquired(judge, dice, &messages, &rows);
}

fn pair_case(judge: &mut Judge, dice: &mut Dice) {
    judge.kind("two sheets in turn");
    let pair = Pair::new(dice);
    in_turn::in_turn(judge, dice, &pair);
}

fn purge_case(judge: &mut Judge, dice: &mut Dice) {
    judge.kind("purge");
    let (recording, sheet) = if dice.chance(1, 3) {
        recording_and_sheet(dice)
    } else {
        let world = World::new(dice);
        let messages = messages(dice, &world);
        let aims = targets(&messages);
        let mut rows = rows(dice, &aims);
        if !aims.is_empty() && rows.len() < 32 && dice.chance(2, 3) {
            let aim = dice.pick(&aims);
            rows.push(row_around(dice, aim));
        }
        let recording =
            if dice.chance(1, 4) { damaged(dice, messages) } else { lay_all(&messages).0 };
        (recording, pack_sheet(&rows))
    };
    side_by_side::purge(judge, dice, &recording, &sheet);
}

fn purging_case(judge: &mut Judge, dice: &mut Dice) {
    judge.kind("what stays of a purge, and what goes");
    let scene = Scene::new(dice);
    purging::purging(judge, dice, &scene);
}

fn ids_case(judge: &mut Judge, dice: &mut Dice) {
    judge.kind("ids");
    let line = any_line(dice);
    side_by_side::read_ids(judge, dice, &line);
    let ranges = any_ranges(dice);
    let room = needed(ids::write_ids(&ranges, &mut []));
    let room = room_for(dice, room);
    let handed = Handed::new(dice, &ranges);
    side_by_side::write_ids(judge, dice, &handed, room);
}

fn typed_ids_case(judge: &mut Judge, dice: &mut Dice) {
    judge.kind("ids as the desk types them");
    typed_ids::typed_ids(judge, dice);
}

/// A recording, the ids that a state for it may have, and a sheet.
fn step_input(dice: &mut Dice) -> (Vec<u8>, Vec<u32>, Vec<u8>) {
    if dice.chance(1, 5) {
        return many_ids(dice);
    }
    if dice.chance(1, 3) {
        let (recording, targets) = any_recording(dice);
        let ids = targets.iter().map(|target| target.message_id).collect();
        let sheet = any_sheet(dice, &targets);
        return (recording, ids, sheet);
    }
    let world = World::new(dice);
    let messages = messages(dice, &world);
    let rows = rows(dice, &targets(&messages));
    let sheet = if dice.chance(1, 2) { pack_sheet(&[everything()]) } else { pack_sheet(&rows) };
    let recording = if dice.chance(1, 4) { damaged(dice, messages) } else { lay_all(&messages).0 };
    (recording, world.message_ids, sheet)
}

fn step_case(judge: &mut Judge, dice: &mut Dice) {
    judge.kind("step");
    let (input, ids, sheet) = step_input(dice);
    let state = any_state(dice, &ids);
    let some = dice.below(12);
    let quota = dice.pick(&[0, 1, 2, 3, some, some, 1_000, usize::MAX]);
    let stepped = steps::step(&mut state.clone(), &input, &sheet, quota, &mut []);
    let room = needed(stepped.map(|done| done.bytes));
    let room = room_for(dice, room);
    let (words, buffer) = (words_of(dice, &state), dice.bytes(room));
    let step = side_by_side::Step { input: &input, sheet: &sheet, quota, state: &words };
    side_by_side::step(judge, dice, step, &buffer);
}

fn stepping_case(judge: &mut Judge, dice: &mut Dice) {
    judge.kind("steps in turn, and the copy");
    let (recording, _, sheet) = step_input(dice);
    stepping::as_copy(judge, dice, &recording, &sheet);
    let size = dice.within(200, 4_000);
    let run = Run::new(dice, size);
    stepping::run(judge, dice, &run);
    stepping::equal_and_other(judge, dice);
}

fn run_case(judge: &mut Judge, dice: &mut Dice) {
    judge.kind("a long run of steps");
    let size = dice.within(70_000, 200_000);
    let run = Run::new(dice, size);
    stepping::run(judge, dice, &run);
}

fn randomize_case(judge: &mut Judge, dice: &mut Dice) {
    judge.kind("randomize");
    let length = match dice.below(6) {
        0 => dice.pick(&[0, 1, 254, 255, 256, 510, 768, 65_535, 65_536, 65_537]),
        1 => dice.below(70_000),
        _ => dice.below(2_000),
    };
    let bytes = dice.bytes(length);
    side_by_side::randomize(judge, dice, &bytes);
}

fn open_burst_case(judge: &mut Judge, dice: &mut Dice) {
    judge.kind("open burst");
    let codeblocks = match dice.below(6) {
        0 => dice.within(78, 86),
        1 => dice.below(90),
        _ => dice.below(5),
    };
    let mut burst = MARKER_BYTES.to_vec();
    burst.extend(dice.bytes(CODEBLOCK_BYTES * codeblocks));
    if dice.chance(1, 5) {
        let bit = dice.below(64);
        burst[bit / 8] ^= 1 << (bit % 8);
    }
    match dice.below(8) {
        0 => burst.truncate(burst.len() - dice.within(1, 8)),
        1 => burst.extend(dice.some_bytes(1, 800)),
        _ => {}
    }
    side_by_side::open_burst(judge, dice, &burst);
}
