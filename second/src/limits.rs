//! The limits: fixed inputs at and just above each limit of the paper, and the
//! paper's own numbers. They are part of every run.

mod captures;
mod fragments;
mod ids;
mod radios;
mod salvages;
mod steps;

use crate::burst::{CODEBLOCK_BYTES, MARKER_BYTES, PERIOD};
use crate::damage::{with_faults, FAULTS};
use crate::demand::{changed, withheld, CHANGED, WITHHELD};
use crate::dice::Dice;
use crate::drafts::{draft_of, OwnDraft};
use crate::generate::*;
use crate::in_turn::in_turn;
use crate::judge::Judge;
use crate::measuring::measured_then_written;
use crate::orders::*;
use crate::pairs::Pair;
use crate::paper::{m_with, m_with_options, message_m, row_r};
use crate::purging::purging;
use crate::refusal::MOST_BYTES;
use crate::releases::{acquired, neighbours, set_simulated};
use crate::rests::Scene;
use crate::round_trips::{trip, TRIPS};
use crate::seams::Seam;
use crate::sheet::Row;
use crate::side_by_side;

type Part = fn(&mut Limits);

/// The parts in their order.
const PARTS: [(&str, Part); 24] = [
    ("the paper's numbers", paper_numbers),
    ("sizes", sizes),
    ("faults", faults),
    ("options", options),
    ("packages", packages),
    ("writer", writer),
    ("sheets", sheets),
    ("grants", grants),
    ("neighbouring windows", neighbouring_windows),
    ("acquired data only", acquired_only),
    ("two sheets in turn", two_sheets),
    ("the copy's order", copy_order),
    ("measuring", measuring),
    ("sequence numbers", sequence_numbers),
    ("purges", purges),
    ("bursts", bursts),
    ("ids", ids::ids),
    ("steps", steps::steps),
    ("salvages", salvages::salvages),
    ("captures", captures::captures),
    ("fragments", fragments::fragments),
    ("radio messages", radios::radios),
    ("demand 3", demand_3),
    ("round trips", round_trips),
];

/// Runs the limits one after the other, each as a case of its own.
struct Limits<'a> {
    judge: &'a mut Judge,
    dice: Dice,
    seed: u64,
    part: &'static str,
    number: u64,
}

impl Limits<'_> {
    /// Begins the next limit.
    fn begin(&mut self) {
        self.number += 1;
        let (part, number, seed) = (self.part, self.number, self.seed);
        self.judge.begin(format!("limit {number} ({part}) of seed {seed}"));
    }

    /// Begins the next limit, for this export.
    fn next(&mut self, export: &str) {
        self.begin();
        self.judge.kind(&format!("limits: {export}"));
    }

    fn header(&mut self, bytes: &[u8]) {
        self.next("header");
        side_by_side::header(self.judge, &mut self.dice, bytes);
    }

    fn package(&mut self, run: &[u8], at: usize) {
        self.next("package");
        side_by_side::package(self.judge, &mut self.dice, run, at);
    }

    fn check(&mut self, recording: &[u8]) {
        self.next("check");
        side_by_side::check(self.judge, &mut self.dice, recording);
    }

    fn write(&mut self, draft: &OwnDraft, room: usize) {
        self.next("write");
        side_by_side::write(self.judge, &mut self.dice, draft, room);
    }

    fn clean(&mut self, bytes: &[u8], room: usize) {
        self.next("clean");
        side_by_side::clean(self.judge, &mut self.dice, bytes, room);
    }

    fn sheet(&mut self, sheet: &[u8]) {
        self.next("sheet");
        side_by_side::sheet(self.judge, &mut self.dice, sheet);
    }

    fn copy(&mut self, recording: &[u8], sheet: &[u8], room: usize) {
        self.next("copy");
        side_by_side::copy(self.judge, &mut self.dice, recording, sheet, room);
    }

    fn measured_then_written(&mut self, recording: &[u8], sheet: &[u8]) {
        self.next("measured, then written");
        measured_then_written(self.judge, &mut self.dice, recording, sheet);
    }

    fn purge(&mut self, recording: &[u8], sheet: &[u8]) {
        self.next("purge");
        side_by_side::purge(self.judge, &mut self.dice, recording, sheet);
    }

    fn randomize(&mut self, bytes: &[u8]) {
        self.next("randomize");
        side_by_side::randomize(self.judge, &mut self.dice, bytes);
    }

    fn open_burst(&mut self, bytes: &[u8]) {
        self.next("open_burst");
        side_by_side::open_burst(self.judge, &mut self.dice, bytes);
    }

    /// One message in every function that reads a message.
    fn message(&mut self, bytes: &[u8]) {
        self.header(bytes);
        self.check(bytes);
        for room in [bytes.len(), 0, 65_536] {
            self.clean(bytes, room);
            self.copy(bytes, &row_r(), room);
        }
        self.purge(bytes, &row_r());
    }
}

pub fn run(judge: &mut Judge, seed: u64) {
    // The dice only fill what has no part in a limit.
    let dice = Dice::new(seed, u64::MAX);
    let mut limits = Limits { judge, dice, seed, part: "", number: 0 };
    for (name, part) in PARTS {
        limits.part = name;
        part(&mut limits);
    }
}

fn paper_numbers(limits: &mut Limits) {
    let (m, r) = (message_m(), row_r());
    limits.copy(&[], &r, 0);
    for length in [0, 1, 23, 24, 25, 40, 55, 56] {
        limits.message(&m[..length]);
    }
    limits.message(&m_with(0, &[0x20]));
    let mut short_length = m_with(0, &[0x11]);
    short_length[15] = 0x18;
    limits.message(&short_length);
    limits.message(&m_with(15, &[0x3C]));
    limits.message(&m_with(20, &[0x3B, 0x9A, 0xCA, 0x00]));
    limits.message(&m_with(20, &[0x3B, 0x9A, 0xC9, 0xFF]));
    limits.message(&m_with_options(&[0x87, 6, 0, 0, 0, 1, 0, 0xFF]));
    limits.message(&m_with_options(&[0x87, 5, 0, 0, 0, 1, 0, 0xFF]));
    for length in [0, 11, 12, 15, 16, 17, 31, 32, 33, 255] {
        limits.message(&m_with(29, &[length]));
    }
    for room in 38..=42 {
        limits.copy(&m, &r, room);
    }
    // R with its lowest bit set.
    let acquired = [&r[..31], &[1]].concat();
    for flags in 0..=255 {
        limits.message(&m_with(3, &[flags]));
        limits.copy(&m_with(3, &[flags]), &acquired, 56);
    }
    for end in [9, 10, 11] {
        let row = Row { end_seconds: 100, end_nanoseconds: end, ..package_2_of_m() };
        limits.copy(&m, &pack_row(&row, 0), 56);
    }
    limits.open_burst(&MARKER_BYTES);
}

/// A row for package 2 of M, from 100 s to 101 s.
fn package_2_of_m() -> Row {
    Row {
        message_first: 7,
        message_last: 7,
        package_first: 2,
        package_last: 2,
        start_seconds: 100,
        end_seconds: 101,
        ..Row::default()
    }
}

/// Whole recordings at and just above 65,536 bytes.
fn sizes(limits: &mut Limits) {
    let world = World::new(&mut limits.dice);
    for style in [Style::Mixed, Style::OnePackageEach, Style::ManyIds, Style::FewLarge] {
        for size in [24, 28, 36, 65_532, 65_536, 65_540] {
            let messages = messages_of_size(&mut limits.dice, &world, size, style);
            let mut bytes = lay_all(&messages).0;
            let all = pack_sheet(&[everything()]);
            limits.check(&bytes);
            limits.copy(&bytes, &all, bytes.len());
            if size == 65_536 {
                bytes.push(0);
                limits.check(&bytes);
                limits.copy(&bytes, &all, bytes.len());
                limits.copy(&bytes, &[], 0);
            }
        }
    }
    for size in [24, 28, 32, 36, 65_532, 65_536] {
        let message = message_of_size(&mut limits.dice, &world, size).laid();
        limits.message(&message);
        limits.clean(&message, size - 1);
        limits.clean(&message, size + 1);
    }
    // What follows the first message counts for LARGE alone.
    for behind in [1, 65_479, 65_480, 65_481] {
        let mut bytes = message_m();
        bytes.resize(56 + behind, 0xEE);
        limits.header(&bytes);
        limits.clean(&bytes, 56);
    }
    for size in [65_537, 65_540, 100_000] {
        limits.header(&vec![0; size]);
        limits.check(&vec![0; size]);
        limits.clean(&vec![0; size], 10);
    }
    // A buffer may be longer than any input.
    limits.clean(&message_m(), 70_000);
    limits.copy(&message_m(), &row_r(), 70_000);
}

/// Each pair of faults in one message, and in two messages both ways round.
fn faults(limits: &mut Limits) {
    for first in FAULTS {
        for second in FAULTS {
            let world = World::new(&mut limits.dice);
            let mut same = Vec::new();
            for _ in 0..3 {
                same.push(message(&mut limits.dice, &world, 2));
            }
            let mut apart = same.clone();
            let bytes = with_faults(&mut limits.dice, &mut same, &[(0, first), (0, second)]);
            limits.header(&bytes);
            limits.clean(&bytes, 500);
            limits.check(&bytes);
            let bytes = with_faults(&mut limits.dice, &mut apart, &[(0, first), (2, second)]);
            limits.check(&bytes);
            limits.copy(&bytes, &pack_sheet(&[everything()]), bytes.len());
        }
    }
    // A length whose sum with the place is 0 or small in 32 bits.
    for length in [0xFFFF_FFFC_u32, 0xFFFF_FFC8, 0xFFFF_FFCC, 0x8000_0000, 60, 56, 52] {
        let bytes = [message_m(), m_with(12, &length.to_be_bytes())].concat();
        limits.check(&bytes);
        limits.copy(&bytes, &row_r(), 100);
    }
}

/// Every kind of option with every length, at the end of its words and inside.
fn options(limits: &mut Limits) {
    for kind in [0x01, 0x7F, 0x80, 0x81, 0x82, 0x83, 0x84, 0x85, 0x86, 0x87, 0x88, 0xFF] {
        for length in [0, 1, 2, 3, 5, 6, 7, 17, 18, 19, 31, 32, 33, 59, 60, 61, 64, 255] {
            let mut bytes = vec![kind, length];
            bytes.resize(60, 0);
            limits.header(&m_with_options(&bytes));
            bytes.truncate((usize::from(length) / 4 * 4).clamp(4, 60));
            limits.header(&m_with_options(&bytes));
        }
    }
    // The option bytes of every length from none to 15 words, of one-byte kinds.
    for words in 0..=15 {
        limits.message(&m_with_options(&vec![1; 4 * words]));
        let mut last = vec![0x7F; 4 * words];
        if let Some(byte) = last.last_mut() {
            *byte = 0x80;
        }
        limits.message(&m_with_options(&last));
    }
    // A kind twice, next to each other and apart, and the second one behind a zero.
    for kind in [0x86, 0x87, 0x85, 0x80] {
        let one = [kind, 6, 0, 0, 0, 2];
        let other_kind = [kind ^ 1, 6, 0, 0, 0, 2];
        for options in [
            [&one[..], &one].concat(),
            [&one[..], &[1, 1, 1], &one, &[1]].concat(),
            [&one[..], &other_kind, &one, &[0, 0]].concat(),
            [&one[..], &other_kind].concat(),
            [&one[..], &[0], &one, &[0xFF; 3]].concat(),
            // Bad in two ways, and a bad option before it.
            [&one[..], &[kind, 5, 0, 0, 0, 2]].concat(),
            [&one[..], &[0x88, 1], &one, &[1, 1]].concat(),
        ] {
            limits.message(&m_with_options(&options));
        }
    }
    // Counts near that of M, and the same numbers as an offset.
    for number in [0, 1, 2, 3, 258, 65_538, 1 << 24 | 2, 2 << 24, u32::MAX] {
        let number = number.to_be_bytes();
        limits.message(&m_with_options(&[&[1, 0x87, 6], &number[..], &[0]].concat()));
        limits.message(&m_with_options(&[&[0x86, 6], &number[..], &[1, 1]].concat()));
        // In another option's data a count counts nothing.
        limits.message(&m_with_options(&[&[0x80, 8, 0x87, 6], &number[..]].concat()));
    }
    // Zero ends the options at every place; what follows it is not read.
    for at in 0..12 {
        let mut bytes = vec![0xFF; 12];
        bytes[..at].fill(2);
        bytes[at] = 0;
        limits.message(&m_with_options(&bytes));
    }
}

/// Steps of a walk at the greatest sizes and at places of every sort.
fn packages(limits: &mut Limits) {
    for length in [0, 11, 12, 13, 65_531, 65_532, 65_533, 65_534, 65_535_u16] {
        for size in [65_532, 65_533, 65_535, 65_536, 65_537] {
            let mut run = vec![0xC3; size];
            run[4..6].copy_from_slice(&length.to_be_bytes());
            for at in [0, 4, 65_523, 65_524, 65_525, 65_535, 65_536, 65_537, usize::MAX] {
                limits.package(&run, at);
            }
        }
    }
    let payload = &message_m()[24..];
    for at in 0..=34 {
        limits.package(payload, at);
        limits.package(&payload[..payload.len() - 1], at);
        // The same package, at a place of every sort.
        limits.package(&[&vec![0xEE; at], payload].concat(), at);
    }
    for length in 0..=16 {
        let mut run = [0; 16];
        run[5] = length;
        for size in [11, 12, 13, 15, 16] {
            limits.package(&run[..size], 0);
        }
    }
    limits.package(&[], 0);
    limits.package(&[], 1);
}

fn writer(limits: &mut Limits) {
    let world = World::new(&mut limits.dice);
    let one = message(&mut limits.dice, &world, 2);
    let mut draft = draft_of(&mut limits.dice, &one);
    draft.options.clear();
    let size = 24 + draft.packages.len();
    for room in [0, size - 1, size, size + 1, size + 40, 70_000] {
        limits.write(&draft, room);
    }
    for flags in 0..=255 {
        limits.write(&OwnDraft { flags, ..draft.clone() }, size);
        limits.write(&OwnDraft { flags, packages: Vec::new(), ..draft.clone() }, 24);
    }
    for nanoseconds in [0, 999_999_999, 1_000_000_000, u32::MAX] {
        // TIME comes before OPTION and PACKAGE, LARGE before TIME.
        limits.write(&OwnDraft { nanoseconds, ..draft.clone() }, size);
        limits.write(&OwnDraft { nanoseconds, options: vec![0], ..draft.clone() }, size);
        limits.write(&OwnDraft { nanoseconds, packages: vec![0], ..draft.clone() }, size);
        limits.write(&OwnDraft { nanoseconds, packages: vec![0; 65_513], ..draft.clone() }, 0);
    }
    for length in 56..=70 {
        for fill in [0x01, 0x00, 0x80] {
            let options = vec![fill; length];
            for room in [0, size, size + 64] {
                limits.write(&OwnDraft { options: options.clone(), ..draft.clone() }, room);
            }
        }
    }
    for length in 65_505..=65_540 {
        limits.write(
            &OwnDraft { options: vec![1; length], packages: Vec::new(), ..draft.clone() },
            9,
        );
        limits.write(&OwnDraft { packages: vec![0; length], ..draft.clone() }, 9);
    }
    for options in
        [&[0x80_u8, 4, 0][..], &[0x80, 3, 0], &[1, 0], &[0], &[0x87, 6, 0, 0, 0, 0], &[0x80]]
    {
        limits.write(&OwnDraft { options: options.to_vec(), ..draft.clone() }, size + 8);
    }
    counted_writes(limits, &draft, size);
    longest_writes(limits, &draft);
}

/// Two packages are there; COUNT comes after PACKAGE and before ROOM.
fn counted_writes(limits: &mut Limits, draft: &OwnDraft, size: usize) {
    for count in [0, 1, 2, 3, 1 << 24 | 2, u32::MAX] {
        let options = [&[0x87, 6], &count.to_be_bytes()[..]].concat();
        let counted = OwnDraft { options, ..draft.clone() };
        for room in [0, size + 7, size + 8] {
            limits.write(&counted, room);
        }
        limits.write(&OwnDraft { packages: Vec::new(), ..counted.clone() }, 32);
        let broken = [&draft.packages[..], &[0]].concat();
        limits.write(&OwnDraft { packages: broken, ..counted.clone() }, size + 8);
        limits.write(&OwnDraft { nanoseconds: u32::MAX, ..counted.clone() }, size + 8);
        let twice = [&counted.options[..], &[1], &counted.options].concat();
        limits.write(&OwnDraft { options: twice, ..counted }, size + 16);
    }
    let twice = vec![0x86, 6, 0, 0, 0, 2, 1, 0x86, 6, 0, 0, 0, 2];
    limits.write(&OwnDraft { options: twice, ..draft.clone() }, size + 16);
}

/// Messages of exactly 65,536 bytes, with and without options.
fn longest_writes(limits: &mut Limits, draft: &OwnDraft) {
    for options in [0, 1, 4, 57, 60] {
        let payload: usize = 65_512 - 4 * usize::div_ceil(options, 4);
        for odd in 0..4 {
            let mut packages = vec![0x5A; payload];
            packages[4..6].copy_from_slice(&((payload - odd) as u16).to_be_bytes());
            let draft = OwnDraft { options: vec![0x11; options], packages, ..draft.clone() };
            for room in [65_535, 65_536, 65_537] {
                limits.write(&draft, room);
            }
            let mut longer = draft.clone();
            longer.packages.push(0);
            limits.write(&longer, 65_540);
        }
    }
}

/// Sheets of every size, and every kind of bad row at every index.
fn sheets(limits: &mut Limits) {
    let good: Vec<u8> = pack_row(&everything(), 0).into_iter().cycle().take(100_000).collect();
    for length in (0..=70).chain([992, 1_023, 1_024, 1_025, 1_055, 1_056, 2_048, 65_537, 100_000]) {
        for sheet in [&good[..length], &vec![0; length]] {
            limits.sheet(sheet);
            limits.copy(&message_m(), sheet, 56);
        }
        limits.sheet(&vec![0xFF; length]);
    }
    for index in 0..32 {
        for way in 0..BAD_ROWS {
            let rows = limits.dice.within(index + 1, 32);
            let mut sheet = Vec::new();
            for _ in 0..rows {
                sheet.extend(pack_row(&any_row(&mut limits.dice), 0));
            }
            limits.sheet(&sheet);
            let bad = bad_row(&mut limits.dice, way);
            sheet[32 * index..32 * index + 32].copy_from_slice(&bad);
            limits.sheet(&sheet);
            limits.copy(&message_m(), &sheet, 56);
            // A later bad row does not count.
            sheet[32 * (rows - 1)..].fill(0xFF);
            limits.sheet(&sheet);
        }
    }
    // Each bit of a row alone.
    for bit in 0..256 {
        let mut sheet = pack_row(&first_moment(), 0);
        sheet[bit / 8] ^= 0x80 >> (bit % 8);
        limits.sheet(&sheet);
        let mut sheet = pack_row(&everything(), 0);
        sheet[bit / 8] ^= 0x80 >> (bit % 8);
        limits.sheet(&sheet);
    }
    // All spare bits, in the first row and in the last.
    for spare in 0..16 {
        let row = pack_row(&everything(), spare);
        limits.sheet(&row);
        limits.copy(&message_m(), &row, 56);
        limits.sheet(&[&good[..31 * 32], &row].concat());
    }
    // Start and end are compared as times, not pair by pair.
    let across =
        Row { start_seconds: 5, start_nanoseconds: 999_999_999, end_seconds: 6, ..Row::default() };
    limits.sheet(&pack_row(&across, 0));
    // The end comes just before the start, at it, and just behind it.
    for start in [1, 999_999_999, 1_000_000_000, 5_999_999_999, 1 << 32, LATEST - 1] {
        for end in [start - 1, start, start + 1] {
            limits.sheet(&pack_row(&with_window(everything(), start, end), 0));
        }
    }
}

/// A row for package 0 of message 0 at time 0 and for nothing else.
fn first_moment() -> Row {
    Row { end_nanoseconds: 1, ..Row::default() }
}

/// Ranges that just touch a package at both ends.
fn grants(limits: &mut Limits) {
    let world = World::new(&mut limits.dice);
    let packages: [(u32, u32, u32, u32, u32); 7] = [
        (0, 0, 0, 0, 0),
        (7, 1, 100, 0, 10),
        (7, 7, 100, 999_999_999, 1),
        (u32::MAX, u32::MAX, u32::MAX, 999_999_999, 0),
        (u32::MAX, 0, u32::MAX, 999_999_999, 1),
        (5, 6, u32::MAX, 0, u32::MAX),
        (1, 2, 100, 999_999_999, u32::MAX),
    ];
    for (message_id, id, seconds, nanoseconds, delta) in packages {
        let mut one = message(&mut limits.dice, &world, 1);
        (one.message_id, one.seconds, one.nanoseconds) = (message_id, seconds, nanoseconds);
        (one.packages[0].id, one.packages[0].delta) = (id, delta);
        let recording = one.laid();
        let target = targets(&[one])[0];
        // No row at all grants nothing, though rows behind the last are zero.
        limits.copy(&recording, &[], recording.len());
        limits.copy(&recording, &pack_row(&everything(), 0), recording.len());
        limits.copy(&recording, &pack_row(&Row::default(), 0), recording.len());
        limits.copy(&recording, &pack_row(&first_moment(), 0), recording.len());
        // Each row is judged by itself.
        let acquired = Row { acquired_only: true, ..everything() };
        for rows in [&[acquired][..], &[acquired, everything()], &[everything(), acquired]] {
            limits.copy(&recording, &pack_sheet(rows), recording.len());
        }
        for _ in 0..60 {
            let row = row_near(&mut limits.dice, target);
            limits.copy(&recording, &pack_row(&row, 0), recording.len());
        }
        // Only the last of 32 rows grants, and it grants twice over.
        let mut rows = vec![Row { message_first: 9, message_last: 9, ..everything() }; 32];
        limits.copy(&recording, &pack_sheet(&rows), recording.len());
        rows[31] = everything();
        limits.copy(&recording, &pack_sheet(&rows), recording.len());
        rows[0] = everything();
        limits.copy(&recording, &pack_sheet(&rows), recording.len());
    }
}

const SECOND: u64 = 1_000_000_000;

/// Where two windows start, meet and end: at the ends of time, on whole seconds
/// and beside them, and windows of one moment.
const SEAMS: [(u64, u64, u64); 12] = [
    (0, 1, 2),
    (0, 1, LATEST),
    (LATEST - 2, LATEST - 1, LATEST),
    (0, LATEST - 1, LATEST),
    (0, LATEST / 2, LATEST),
    (100 * SECOND, 100 * SECOND + 10, 100 * SECOND + 11),
    (100 * SECOND, 100 * SECOND + 10, 101 * SECOND),
    (5 * SECOND, 6 * SECOND, 7 * SECOND),
    (5 * SECOND, 6 * SECOND - 1, 7 * SECOND),
    (5 * SECOND, 6 * SECOND + 1, 7 * SECOND),
    ((1 << 32) - 1, 1 << 32, (1 << 32) + 1),
    ((1 << 31) * SECOND - 1, (1 << 31) * SECOND, (1 << 31) * SECOND + 1),
];

fn neighbouring_windows(limits: &mut Limits) {
    for (start, seam, end) in SEAMS {
        for _ in 0..5 {
            let seam = Seam::at(&mut limits.dice, start, seam, end);
            limits.next("neighbouring windows");
            neighbours(limits.judge, &mut limits.dice, &seam);
        }
    }
}

/// Windows that touch or overlap at each seam, and sheets of few rows and of as
/// many as there may be.
fn two_sheets(limits: &mut Limits) {
    let mut pairs = Vec::new();
    for (start, seam, end) in SEAMS {
        for _ in 0..5 {
            let seam = Seam::at(&mut limits.dice, start, seam, end);
            pairs.push(Pair::at_seam(&mut limits.dice, seam));
        }
    }
    for (first, second) in
        [(0, 0), (0, 1), (1, 1), (1, 31), (16, 16), (31, 1), (31, 2), (32, 0), (32, 32)]
    {
        for _ in 0..5 {
            pairs.push(Pair::of_rows(&mut limits.dice, first, second));
        }
    }
    for pair in pairs {
        limits.next("two sheets in turn");
        in_turn(limits.judge, &mut limits.dice, &pair);
    }
}

/// Acquired and simulated messages beside each other, under rows of every sort.
fn acquired_only(limits: &mut Limits) {
    let world = World::new(&mut limits.dice);
    for simulated in [[false, false], [false, true], [true, false], [true, true]] {
        for _ in 0..10 {
            let mut messages = Vec::new();
            for simulated in simulated {
                let mut one = message(&mut limits.dice, &world, 2);
                set_simulated(&mut one, simulated);
                messages.push(one);
            }
            let mut rows = rows(&mut limits.dice, &targets(&messages));
            rows.truncate(15);
            rows.push(everything());
            limits.next("acquired data only");
            acquired(limits.judge, &mut limits.dice, &messages, &rows);
        }
    }
}

/// ROW before LARGE, LARGE before the messages, the messages before ROOM.
fn copy_order(limits: &mut Limits) {
    let bad_row = pack_row(&everything(), 2);
    let bad_size = vec![0; 33];
    let all = pack_sheet(&[everything()]);
    let large = vec![0; 65_537];
    let damaged = [message_m(), m_with(29, &[11])].concat();
    for sheet in [&bad_row, &bad_size, &all, &row_r()] {
        for recording in [&large, &damaged, &message_m(), &Vec::new()] {
            for room in [0, 39, 40, 56, 112] {
                limits.copy(recording, sheet, room);
            }
        }
    }
}

/// Copies of every sort: none, small ones, the longest ones, and refused ones.
fn measuring(limits: &mut Limits) {
    let all = pack_sheet(&[everything()]);
    for sheet in [&row_r(), &all, &Vec::new(), &vec![0; 33]] {
        for recording in [Vec::new(), message_m(), [message_m(), message_m()].concat()] {
            limits.measured_then_written(&recording, sheet);
        }
    }
    let world = World::new(&mut limits.dice);
    for style in [Style::Mixed, Style::OnePackageEach, Style::ManyIds, Style::FewLarge] {
        for size in [24, 36, 65_532, 65_536, 65_540] {
            let messages = messages_of_size(&mut limits.dice, &world, size, style);
            limits.measured_then_written(&lay_all(&messages).0, &all);
        }
    }
    for fault in FAULTS {
        let mut messages = Vec::new();
        for _ in 0..3 {
            messages.push(message(&mut limits.dice, &world, 2));
        }
        let bytes = with_faults(&mut limits.dice, &mut messages, &[(1, fault)]);
        limits.measured_then_written(&bytes, &all);
    }
}

/// Long recordings of 1,820 messages in which sequence numbers grow, ids take
/// turns, or many ids come back.
fn sequence_numbers(limits: &mut Limits) {
    for ids in [1, 2, 3, 300] {
        sequence_numbers_of(limits, |number| number as u32 % ids);
    }
    for turn in [64, 256, 910, 1_025, 1_300, 1_700, 1_819, 1_820] {
        sequence_numbers_of(limits, |number| there_and_back(number, turn));
    }
}

fn sequence_numbers_of(limits: &mut Limits, id: impl Fn(usize) -> u32) {
    let world = World::new(&mut limits.dice);
    let mut messages = Vec::new();
    for number in 0..1_820 {
        let mut one = message_of_size(&mut limits.dice, &world, 36);
        one.message_id = id(number);
        (one.seconds, one.packages[0].id) = (100, number as u32 % 5);
        messages.push(one);
    }
    let recording = lay_all(&messages).0;
    let some = Row { package_first: 1, package_last: 3, ..everything() };
    for row in [everything(), some] {
        limits.copy(&recording, &pack_row(&row, 0), recording.len());
    }
    limits.check(&recording);
}

/// What a purge looks at: the order of its checks, counts, messages without
/// packages, every pair of faults, the longest recordings, and ranges that just
/// touch a package.
fn purges(limits: &mut Limits) {
    let all = pack_sheet(&[everything()]);
    let bad_row = pack_row(&everything(), 2);
    let damaged = [message_m(), m_with(29, &[11])].concat();
    for sheet in [&bad_row, &vec![0; 33], &vec![0; 1_056], &all, &row_r(), &Vec::new()] {
        for recording in [&vec![0; 65_537], &damaged, &message_m(), &Vec::new()] {
            limits.purge(recording, sheet);
        }
    }
    purged_counts(limits);
    for first in FAULTS {
        for second in FAULTS {
            let world = World::new(&mut limits.dice);
            let mut same = Vec::new();
            for _ in 0..3 {
                same.push(message(&mut limits.dice, &world, 2));
            }
            let mut apart = same.clone();
            let bytes = with_faults(&mut limits.dice, &mut same, &[(0, first), (0, second)]);
            limits.purge(&bytes, &all);
            let bytes = with_faults(&mut limits.dice, &mut apart, &[(1, first), (2, second)]);
            limits.purge(&bytes, &all);
        }
    }
    purged_sizes(limits);
    for _ in 0..40 {
        let world = World::new(&mut limits.dice);
        let one = message(&mut limits.dice, &world, 3);
        let target = targets(std::slice::from_ref(&one))[1];
        let near = row_near(&mut limits.dice, target);
        let around = row_around(&mut limits.dice, target);
        for row in [near, around, Row { acquired_only: true, ..everything() }] {
            limits.purge(&one.laid(), &pack_row(&row, 0));
        }
    }
    for _ in 0..50 {
        let scene = Scene::new(&mut limits.dice);
        limits.next("what stays of a purge, and what goes");
        purging(limits.judge, &mut limits.dice, &scene);
    }
}

/// M with each number of packages left, with a count and without, and messages
/// without packages.
fn purged_counts(limits: &mut Limits) {
    let mut recordings = Vec::new();
    for options in [
        &[][..],
        &[0x87, 6, 0, 0, 0, 2, 0, 0xEE],
        &[1, 0x86, 6, 0, 0, 0, 9, 0x87, 6, 0, 0, 0, 2, 5, 0, 0xEE],
        &[0x80, 8, 0x87, 6, 0, 0, 0, 2],
        &[0, 0x87, 6, 0, 0, 0, 1, 0],
    ] {
        let m = m_with_options(options);
        recordings.push([&m[..], &message_m(), &m].concat());
        recordings.push(m);
    }
    for options in [&[][..], &[0x87, 6, 0, 0, 0, 0, 0, 7], &[1, 2, 3, 0, 9, 9, 9, 9]] {
        let mut empty = m_with_options(options);
        empty.truncate(24 + options.len());
        (empty[2], empty[3], empty[15]) = (0xFF, 0x4F, empty.len() as u8);
        recordings.push([&empty[..], &message_m(), &empty].concat());
        recordings.push(empty);
    }
    for recording in recordings {
        for (first, last) in [(1, 1), (2, 2), (1, 2), (3, 3)] {
            let row = Row { package_first: first, package_last: last, ..everything() };
            limits.purge(&recording, &pack_row(&row, 0));
        }
        limits.purge(&recording, &[]);
    }
}

/// Recordings at and just above 65,536 bytes, of which all goes, some, or none.
fn purged_sizes(limits: &mut Limits) {
    let world = World::new(&mut limits.dice);
    for style in [Style::Mixed, Style::OnePackageEach, Style::ManyIds, Style::FewLarge] {
        for size in [24, 36, 65_532, 65_536, 65_540] {
            let messages = messages_of_size(&mut limits.dice, &world, size, style);
            let recording = lay_all(&messages).0;
            let mut some = rows(&mut limits.dice, &targets(&messages));
            limits.purge(&recording, &pack_sheet(&some));
            some.truncate(1);
            limits.purge(&recording, &pack_sheet(&some));
            limits.purge(&recording, &pack_sheet(&[everything()]));
            limits.purge(&recording, &[]);
        }
    }
}

fn bursts(limits: &mut Limits) {
    for length in
        [0, 1, 2, 7, 8, 9, 254, 255, 256, 509, 510, 511, 768, 65_535, 65_536, 65_537, 70_000]
    {
        limits.randomize(&vec![0; length]);
        let bytes = limits.dice.bytes(length);
        limits.randomize(&bytes);
    }
    // A last part of every length behind no period, one, two, and the most.
    for length in (0..3 * PERIOD).chain(MOST_BYTES - PERIOD..=MOST_BYTES) {
        let bytes = limits.dice.bytes(length);
        limits.randomize(&bytes);
    }
    for length in 0..8 {
        limits.open_burst(&MARKER_BYTES[..length]);
    }
    let whole = |codeblocks: usize| 8 + CODEBLOCK_BYTES * codeblocks;
    let mut lengths = vec![8, 9, 775, 777, 65_535, 65_536, 65_537, 65_544];
    lengths.extend((1..=85).map(whole));
    for codeblocks in [1, 2, 3, 79, 80, 81, 82, 83, 84, 85] {
        lengths.extend([whole(codeblocks) - 1, whole(codeblocks) + 1]);
    }
    for length in lengths {
        let mut burst = limits.dice.bytes(length);
        burst[..8].copy_from_slice(&MARKER_BYTES);
        limits.open_burst(&burst);
        // Another marker comes before a bad number of codeblocks.
        burst[7] ^= 1;
        limits.open_burst(&burst);
    }
    for bit in 0..64 {
        let mut burst = vec![0; whole(1)];
        burst[..8].copy_from_slice(&MARKER_BYTES);
        burst[bit / 8] ^= 0x80 >> (bit % 8);
        limits.open_burst(&burst);
    }
}

/// Each kind of pair at least once.
fn demand_3(limits: &mut Limits) {
    for kind in 0..WITHHELD.len() {
        limits.begin();
        withheld(limits.judge, &mut limits.dice, kind);
    }
    for kind in 0..CHANGED.len() {
        limits.begin();
        changed(limits.judge, &mut limits.dice, kind);
    }
}

/// Each kind of round trip at least once.
fn round_trips(limits: &mut Limits) {
    for kind in 0..TRIPS.len() {
        limits.begin();
        trip(limits.judge, &mut limits.dice, kind);
    }
}
