//! Recordings of several tenants with a sheet for each, and what the second program says of them: the copies, what two sheets grant and what none does,
//! and the tables of messages and of ids.
//!
//! bench_release FOLDER: case K is the folder FOLDER/K, with the file recording, a folder sheets, and a folder wanted with the copies and the texts.

use second::copy::is_granted;
use second::dice::Dice;
use second::generate::*;
use second::orders::*;
use second::parse::{header_at, message_at, package_time, Message, Package, Placed};
use second::sheet::Row;
use second::steps::long_copy;
use std::collections::BTreeMap;
use std::fs;
use std::path::PathBuf;

const TENANTS: [&str; 3] = ["alpha", "beta", "gamma"];
const FLAGS: [(u8, &str); 6] = [(0x80, "standard"), (0x40, "playback"), (0x08, "simulated"), (0x04, "unlocked"), (0x02, "error"), (0x01, "end")];

fn messages_of(recording: &[u8]) -> Vec<(usize, Placed<'_>)> {
    let (mut place, mut messages) = (0, Vec::new());
    while place < recording.len() {
        let placed = message_at(recording, place).expect("a good recording");
        let end = placed.end;
        messages.push((place, placed));
        place = end;
    }
    messages
}

fn time_of(message: &Message, package: &Package) -> u64 {
    package_time(message.seconds, message.nanoseconds, package.delta)
}

/// A time as an order's word: seconds, with nine digits of nanoseconds where there are any.
fn word_of(time: u64) -> String {
    let (seconds, nanoseconds) = (time / 1_000_000_000, time % 1_000_000_000);
    if nanoseconds == 0 { seconds.to_string() } else { format!("{seconds}.{nanoseconds:09}") }
}

/// How many packages there are of a kind, and message id, package id and time of the first.
fn counted(messages: &[(usize, Placed)], is_one: impl Fn(&Message, &Package) -> bool) -> (usize, String) {
    let all = messages.iter().flat_map(|(_, placed)| placed.message.packages.iter().map(|package| (&placed.message, package)));
    let found: Vec<(&Message, &Package)> = all.filter(|(message, package)| is_one(message, package)).collect();
    let first = found.first().map(|(message, package)| format!("{} {} {}", message.message_id, package.id, word_of(time_of(message, package))));
    (found.len(), first.unwrap_or_default())
}

/// The lines of ./bench release behind the recording's hash.
fn survey(recording: &[u8], sheets: &[Vec<Row>]) -> String {
    let messages = messages_of(recording);
    let packages = counted(&messages, |_, _| true).0;
    let mut lines = format!("recording_bytes {}\nrecording_messages {}\nrecording_packages {packages}\n", recording.len(), messages.len());
    for (name, rows) in TENANTS.iter().zip(sheets) {
        let copy = long_copy(&[], recording, &pack_sheet(rows)).expect("a good recording");
        let released = messages_of(&copy);
        lines += &format!("released {name} {} {} {}\n", released.len(), counted(&released, |_, _| true).0, copy.len());
    }
    for (k, one) in sheets.iter().enumerate() {
        for (more, other) in sheets[k + 1..].iter().enumerate() {
            let (count, first) = counted(&messages, |message, package| is_granted(one, message, package) && is_granted(other, message, package));
            if count > 0 {
                lines += &format!("both {} {} {count} {first}\n", TENANTS[k], TENANTS[k + 1 + more]);
            }
        }
    }
    let (none, first) = counted(&messages, |message, package| !sheets.iter().any(|rows| is_granted(rows, message, package)));
    lines += &format!("none {none}\n");
    if none > 0 {
        lines += &format!("first_none {first}\n");
    }
    for (name, rows) in TENANTS.iter().zip(sheets) {
        for (k, row) in rows.iter().enumerate() {
            if counted(&messages, |message, package| is_granted(&[*row], message, package)).0 == 0 {
                lines += &format!("idle_row {name} {}\n", k + 1);
            }
        }
    }
    lines
}

/// The lines of ./bench list --messages.
fn message_table(recording: &[u8]) -> String {
    let mut lines = String::from("at mdid seq len sec nsec flags options packages\n");
    let messages = messages_of(recording);
    for (place, placed) in &messages {
        let header = header_at(recording, *place).expect("a good header");
        let flags: Vec<&str> = FLAGS.iter().filter(|(bit, _)| header.flags & bit != 0).map(|(_, name)| *name).collect();
        let options: String = header.option_run.iter().map(|byte| format!("{byte:02x}")).collect();
        let or_none = |text: String| if text.is_empty() { String::from("-") } else { text };
        let numbers = format!("{place} {} {} {} {} {}", header.message_id, header.sequence, header.length, header.seconds, header.nanoseconds);
        lines += &format!("{numbers} {} {} {}\n", or_none(flags.join("+")), or_none(options), placed.message.packages.len());
    }
    lines + &format!("end {} {}\n", messages.len(), counted(&messages, |_, _| true).0)
}

/// The lines of ./bench tenants.
fn id_table(recording: &[u8]) -> String {
    let mut lines = String::from("mdid pdid packages simulated first last\n");
    let messages = messages_of(recording);
    let mut ids: BTreeMap<u32, BTreeMap<u32, (usize, usize, u64, u64)>> = BTreeMap::new();
    for (_, placed) in &messages {
        let packages = ids.entry(placed.message.message_id).or_default();
        for package in &placed.message.packages {
            let time = time_of(&placed.message, package);
            let seen = packages.entry(package.id).or_insert((0, 0, time, time));
            *seen = (seen.0 + 1, seen.1 + usize::from(placed.message.simulated()), seen.2.min(time), seen.3.max(time));
        }
    }
    for (message_id, packages) in &ids {
        for (id, (count, simulated, first, last)) in packages {
            lines += &format!("{message_id} {id} {count} {simulated} {} {}\n", word_of(*first), word_of(*last));
        }
        if packages.is_empty() {
            lines += &format!("{message_id} - 0 0 - -\n");
        }
    }
    lines + &format!("end {} {}\n", messages.len(), counted(&messages, |_, _| true).0)
}

fn put(folder: PathBuf, recording: &[u8], sheets: &[Vec<Row>]) {
    for part in ["sheets", "wanted"] {
        fs::create_dir_all(folder.join(part)).expect("a folder is made");
    }
    let write = |name: String, bytes: &[u8]| fs::write(folder.join(name), bytes).expect("a file is written");
    write("recording".into(), recording);
    for (name, rows) in TENANTS.iter().zip(sheets) {
        let sheet = pack_sheet(rows);
        write(format!("sheets/{name}.sheet"), &sheet);
        write(format!("wanted/{name}.copy"), &long_copy(&[], recording, &sheet).expect("a good recording"));
    }
    write("wanted/survey".into(), survey(recording, sheets).as_bytes());
    write("wanted/messages".into(), message_table(recording).as_bytes());
    write("wanted/ids".into(), id_table(recording).as_bytes());
}

/// Rows that grant all of the message ids from one to another.
fn between(first: u32, last: u32) -> Vec<Row> {
    vec![Row { message_first: first, message_last: last, ..everything() }]
}

fn main() {
    let folder = PathBuf::from(std::env::args().nth(1).expect("bench_release FOLDER"));
    let sizes = [(900, Style::Mixed), (20_000, Style::Mixed), (65_536, Style::FewLarge), (65_572, Style::OnePackageEach), (250_000, Style::Mixed)];
    for (case, (size, style)) in sizes.into_iter().enumerate() {
        let dice = &mut Dice::new(11, case as u64);
        let mut world = World::new(dice);
        world.message_ids = vec![1, 2, 3, 0x8000_0000, 0x8000_0001, 0xFFFF_FFFF];
        let messages = messages_of_size(dice, &world, size, style);
        let recording = lay_all(&messages).0;
        let sheets: Vec<Vec<Row>> = TENANTS.iter().map(|_| rows(dice, &targets(&messages))).collect();
        put(folder.join(format!("{}", 2 * case)), &recording, &sheets);
        // By ids alone no package is granted twice.
        put(folder.join(format!("{}", 2 * case + 1)), &recording, &[between(0, 2), between(3, 0x8000_0000), between(0x8000_0001, 0xFFFF_FFFE)]);
    }
}
