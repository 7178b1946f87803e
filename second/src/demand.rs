//! Demand 3, asked of the copy directly: recordings that differ only in what
//! is withheld have one copy, and a changed released byte changes the copy.

use crate::copy::released_list;
use crate::dice::Dice;
use crate::generate::*;
use crate::judge::{dump, Judge};
use crate::lent::room_for;
use crate::measuring;
use crate::orders::{pack_sheet, row_around, rows, targets};
use crate::parse::{check, package_time, read_recording, SIMULATED_FLAG};
use crate::sheet::{granted, Row};
use crate::side_by_side;

/// What two recordings differ in that have equal released lists.
pub const WITHHELD: [(&str, Withhold); 13] = [
    ("withheld packages' content", change_withheld_packages),
    ("number of withheld packages", change_withheld_number),
    ("whole withheld messages", change_withheld_messages),
    ("simulated messages where only acquired ones are granted", change_simulated_messages),
    ("padding", change_padding),
    ("packages' reserved bytes", change_reserved_bytes),
    ("options", change_options),
    ("bytes behind the options", change_behind_options),
    ("header's reserved bits", change_reserved_bits),
    ("old sequence numbers", change_sequence),
    ("flag bit 6", change_playback),
    ("flag bit 0", change_end_of_data),
    ("all of these", change_everything),
];

/// What one released package or message is changed in.
pub const CHANGED: [(&str, Change); 12] = [
    ("data byte", |dice, message, at| {
        let data = &mut message.packages[at].data;
        if !data.is_empty() {
            let index = dice.below(data.len());
            data[index] ^= 1 << dice.below(8);
        }
    }),
    ("one data byte more, which is zero", |_, message, at| message.packages[at].data.push(0)),
    ("package id", |dice, message, at| {
        let id = message.packages[at].id;
        let other = id ^ 1 << dice.below(32);
        message.packages[at].id = dice.pick(&[id.wrapping_add(1), id.wrapping_sub(1), other]);
    }),
    ("status", |dice, message, at| message.packages[at].status ^= 1 << dice.below(8)),
    ("delta", |dice, message, at| {
        let old = message.packages[at].delta;
        let other = delta(dice);
        message.packages[at].delta = dice.pick(&[old.wrapping_add(1), old.wrapping_sub(1), other]);
    }),
    ("seconds", |dice, message, _| {
        let other = dice.edge();
        message.seconds = dice.pick(&[message.seconds ^ 1, message.seconds.wrapping_add(1), other]);
    }),
    ("nanoseconds", |dice, message, _| {
        let step = message.nanoseconds ^ 1;
        let other = nanoseconds(dice);
        message.nanoseconds = if step <= 999_999_999 { dice.pick(&[step, other]) } else { other };
    }),
    ("message id", |dice, message, _| {
        let id = message.message_id;
        message.message_id = dice.pick(&[id.wrapping_add(1), id.wrapping_sub(1)]);
    }),
    ("flag bit 3", |_, message, _| message.flags ^= 1 << 3),
    ("flag bit 2", |_, message, _| message.flags ^= 1 << 2),
    ("flag bit 1", |_, message, _| message.flags ^= 1 << 1),
    ("package left out", |_, message, at| {
        message.packages.remove(at);
        message.recount();
    }),
];

type Withhold = fn(&mut Dice, &Scene) -> Vec<DirtyMessage>;
type Change = fn(&mut Dice, &mut DirtyMessage, usize);

/// A recording and a sheet under which some packages are released.
#[derive(Clone, Debug)]
pub struct Scene {
    world: World,
    messages: Vec<DirtyMessage>,
    rows: Vec<Row>,
}

impl Scene {
    fn new(dice: &mut Dice) -> Scene {
        let world = World::new(dice);
        let messages = messages(dice, &world);
        let targets = targets(&messages);
        let mut rows = rows(dice, &targets);
        if !targets.is_empty() && rows.len() < 32 {
            let target = dice.pick(&targets);
            rows.push(row_around(dice, target));
        }
        Scene { world, messages, rows }
    }

    fn grants(&self, message: &DirtyMessage, package: &DirtyPackage) -> bool {
        let time = package_time(message.seconds, message.nanoseconds, package.delta);
        let simulated = message.flags & SIMULATED_FLAG != 0;
        granted(&self.rows, message.message_id, package.id, time, simulated)
    }

    /// Has this message no granted package?
    fn withholds(&self, message: &DirtyMessage) -> bool {
        !message.packages.iter().any(|package| self.grants(message, package))
    }

    /// A package of this message that is not granted, if a few throws find one.
    fn withheld_package(&self, dice: &mut Dice, message: &DirtyMessage) -> Option<DirtyPackage> {
        (0..12).map(|_| package(dice, &self.world)).find(|package| !self.grants(message, package))
    }

    /// The indexes of all granted packages.
    fn released(&self) -> Vec<(usize, usize)> {
        let mut released = Vec::new();
        for (at, message) in self.messages.iter().enumerate() {
            for (index, package) in message.packages.iter().enumerate() {
                if self.grants(message, package) {
                    released.push((at, index));
                }
            }
        }
        released
    }
}

fn change_withheld_packages(dice: &mut Dice, scene: &Scene) -> Vec<DirtyMessage> {
    let mut messages = scene.messages.clone();
    for message in &mut messages {
        for index in 0..message.packages.len() {
            if !scene.grants(message, &message.packages[index]) {
                if let Some(package) = scene.withheld_package(dice, message) {
                    message.packages[index] = package;
                }
            }
        }
    }
    messages
}

fn change_withheld_number(dice: &mut Dice, scene: &Scene) -> Vec<DirtyMessage> {
    let mut messages = scene.messages.clone();
    for message in &mut messages {
        let mut packages = Vec::new();
        for package in &message.packages {
            if dice.chance(1, 3) {
                packages.extend(scene.withheld_package(dice, message));
            }
            if scene.grants(message, package) || dice.chance(1, 2) {
                packages.push(package.clone());
            }
        }
        if dice.chance(1, 3) {
            packages.extend(scene.withheld_package(dice, message));
        }
        message.packages = packages;
        message.recount();
    }
    messages
}

fn change_withheld_messages(dice: &mut Dice, scene: &Scene) -> Vec<DirtyMessage> {
    let mut messages = Vec::new();
    for kept in &scene.messages {
        if dice.chance(1, 3) {
            messages.extend(withheld_message(dice, scene));
        }
        if !scene.withholds(kept) || dice.chance(1, 2) {
            messages.push(kept.clone());
        }
    }
    messages.extend(withheld_message(dice, scene));
    messages
}

/// A message without a granted package, if a few throws find one.
fn withheld_message(dice: &mut Dice, scene: &Scene) -> Option<DirtyMessage> {
    for _ in 0..6 {
        let packages = package_count(dice);
        let made = message(dice, &scene.world, packages);
        if scene.withholds(&made) {
            return Some(made);
        }
    }
    None
}

/// Puts simulated twins beside messages, where they are withheld.
fn change_simulated_messages(dice: &mut Dice, scene: &Scene) -> Vec<DirtyMessage> {
    let mut messages = Vec::new();
    for message in &scene.messages {
        let flags = message.flags | SIMULATED_FLAG;
        let twin = DirtyMessage { flags, ..message.clone() };
        if dice.chance(1, 2) && !scene.withholds(message) && scene.withholds(&twin) {
            messages.push(twin);
        }
        messages.push(message.clone());
    }
    messages
}

/// Changes every message in one way.
fn each(scene: &Scene, mut change: impl FnMut(&mut DirtyMessage)) -> Vec<DirtyMessage> {
    let mut messages = scene.messages.clone();
    messages.iter_mut().for_each(&mut change);
    messages
}

fn change_padding(dice: &mut Dice, scene: &Scene) -> Vec<DirtyMessage> {
    each(scene, |message| {
        for package in &mut message.packages {
            package.padding = [dice.byte(), dice.byte(), dice.byte()];
        }
    })
}

fn change_reserved_bytes(dice: &mut Dice, scene: &Scene) -> Vec<DirtyMessage> {
    each(scene, |message| {
        for package in &mut message.packages {
            package.reserved = dice.byte();
        }
    })
}

fn change_options(dice: &mut Dice, scene: &Scene) -> Vec<DirtyMessage> {
    each(scene, |message| {
        message.options = option_run(dice, 60, message.packages.len());
        message.behind_options = behind_options(dice, &scene.world, message.options.len());
    })
}

fn change_behind_options(dice: &mut Dice, scene: &Scene) -> Vec<DirtyMessage> {
    let dirty = World { dirty: true, ..scene.world.clone() };
    each(scene, |message| {
        message.behind_options = behind_options(dice, &dirty, message.options.len());
    })
}

fn change_reserved_bits(dice: &mut Dice, scene: &Scene) -> Vec<DirtyMessage> {
    each(scene, |message| {
        message.reserved_nibble = dice.byte() & 15;
        message.reserved_flags = dice.byte();
    })
}

fn change_sequence(dice: &mut Dice, scene: &Scene) -> Vec<DirtyMessage> {
    each(scene, |message| message.sequence = dice.edge())
}

fn change_playback(dice: &mut Dice, scene: &Scene) -> Vec<DirtyMessage> {
    each(scene, |message| message.flags ^= (dice.byte() & 1) << 6)
}

fn change_end_of_data(dice: &mut Dice, scene: &Scene) -> Vec<DirtyMessage> {
    each(scene, |message| message.flags ^= dice.byte() & 1)
}

fn change_everything(dice: &mut Dice, scene: &Scene) -> Vec<DirtyMessage> {
    let mut changed = scene.clone();
    for (_, change) in &WITHHELD[..WITHHELD.len() - 1] {
        changed.messages = change(dice, &changed);
    }
    changed.messages
}

/// Does a recording pass every check?
fn passes(recording: &[u8]) -> bool {
    check(recording).is_ok()
}

/// Are the released lists of two recordings that pass equal under these rows?
fn equal_released_lists(one: &[u8], other: &[u8], rows: &[Row]) -> bool {
    let (Ok(one), Ok(other)) = (read_recording(one), read_recording(other)) else {
        return false;
    };
    released_list(one, rows) == released_list(other, rows)
}

pub fn withheld_case(judge: &mut Judge, dice: &mut Dice) {
    let kind = dice.below(WITHHELD.len());
    withheld(judge, dice, kind);
}

/// Two recordings that differ in one kind of withheld things, or in all, give
/// equal measurements, answers and buffers.
pub fn withheld(judge: &mut Judge, dice: &mut Dice, kind: usize) {
    let (name, change) = WITHHELD[kind];
    judge.kind(&format!("demand 3, withheld: {name}"));
    for _ in 0..500 {
        let scene = Scene::new(dice);
        let one = lay_all(&scene.messages).0;
        let other = lay_all(&change(dice, &scene)).0;
        if one == other || !passes(&one) || !passes(&other) || scene.released().is_empty() {
            continue;
        }
        if !equal_released_lists(&one, &other, &scene.rows) {
            return judge.differs(|| format!("  {name}: the pair was made wrongly\n"));
        }
        return compare_pair(judge, dice, &one, &other, &scene.rows);
    }
    judge.differs(|| format!("  {name}: no pair could be made\n"));
}

fn compare_pair(judge: &mut Judge, dice: &mut Dice, one: &[u8], other: &[u8], rows: &[Row]) {
    let sheet = pack_sheet(rows);
    let told = |what: &str| {
        format!(
            "  the {what} of two recordings with equal released lists differ\n  one:\n{}  \
             other:\n{}  sheet:\n{}",
            dump(one, 0),
            dump(other, 0),
            dump(&sheet, 0)
        )
    };
    let measured = side_by_side::copy_measure(judge, dice, one, &sheet);
    let other_measured = side_by_side::copy_measure(judge, dice, other, &sheet);
    judge.claim(measured == other_measured, || told("measurements"));
    let longest = one.len().max(other.len());
    let needed = crate::text::release_copy(one, &sheet).len();
    for room in [longest, needed, room_for(dice, needed)] {
        let buffer = dice.bytes(room);
        let first = side_by_side::copy_write(judge, dice, one, &sheet, &buffer);
        let second = side_by_side::copy_write(judge, dice, other, &sheet, &buffer);
        judge.claim(first == second, || told("copies"));
        measuring::agree(judge, measured, first.0, room);
    }
}

pub fn changed_case(judge: &mut Judge, dice: &mut Dice) {
    let kind = dice.below(CHANGED.len());
    changed(judge, dice, kind);
}

/// A change in what is released changes the copy.
pub fn changed(judge: &mut Judge, dice: &mut Dice, kind: usize) {
    let (name, change) = CHANGED[kind];
    judge.kind(&format!("demand 3, released and changed: {name}"));
    for _ in 0..500 {
        let scene = Scene::new(dice);
        let released = scene.released();
        if released.is_empty() {
            continue;
        }
        let (at, index) = dice.pick(&released);
        let mut messages = scene.messages.clone();
        change(dice, &mut messages[at], index);
        // What is changed stays released, except where it is left out.
        let left_out = messages[at].packages.len() < scene.messages[at].packages.len();
        if !left_out && !scene.grants(&messages[at], &messages[at].packages[index]) {
            continue;
        }
        let one = lay_all(&scene.messages).0;
        let other = lay_all(&messages).0;
        if !passes(&one) || !passes(&other) || equal_released_lists(&one, &other, &scene.rows) {
            continue;
        }
        return compare_changed(judge, dice, &one, &other, &scene.rows);
    }
    judge.differs(|| format!("  {name}: no pair could be made\n"));
}

fn compare_changed(judge: &mut Judge, dice: &mut Dice, one: &[u8], other: &[u8], rows: &[Row]) {
    let sheet = pack_sheet(rows);
    let room = one.len().max(other.len());
    let (first, first_out) = side_by_side::copy(judge, dice, one, &sheet, room);
    let (second, second_out) = side_by_side::copy(judge, dice, other, &sheet, room);
    let first_copy = first_out.get(..first.values[1] as usize);
    let second_copy = second_out.get(..second.values[1] as usize);
    let differ = first.number == 0 && second.number == 0 && first_copy != second_copy;
    judge.claim(differ, || {
        format!(
            "  a released change does not change the copy\n  one:\n{}  other:\n{}  sheet:\n{}",
            dump(one, 0),
            dump(other, 0),
            dump(&sheet, 0)
        )
    });
}
