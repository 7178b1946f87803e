//! Inputs for the verbs of ./bench, and the second program's answers to them.
//!
//! bench_second FOLDER: for case K, what goes in is FOLDER/K.in, a sheet FOLDER/K.sheet, and what comes out FOLDER/K.out. A line of standard output is
//! a case: its number, the verb, the verb's other words; behind a bar what is told, parted by semicolons, or how it is refused.

use second::dice::Dice;
use second::generate::*;
use second::orders::*;
use second::parse::{message_at, Placed};
use second::refusal::*;
use second::render::{render, rendered, rendered_length};
use second::sheet::{read_sheet, Row};
use second::*;
use std::path::PathBuf;

const WINDOW: usize = 65_536;

/// What comes out, and what is told.
type Answer = Result<(Vec<u8>, String), Refusal>;

struct Cases {
    folder: PathBuf,
    count: usize,
}

impl Cases {
    fn put(&mut self, verb: &str, words: &str, input: &[u8], sheet: &[u8], answer: Answer) {
        let write = |kind: &str, bytes: &[u8]| {
            std::fs::write(self.folder.join(format!("{}.{kind}", self.count)), bytes).expect("a file is written");
        };
        write("in", input);
        write("sheet", sheet);
        let told = match answer {
            Ok((output, told)) => {
                write("out", &output);
                told
            }
            Err(Refusal { number, place }) => format!("refused {number} {place}"),
        };
        println!("{} {verb} {words}|{told}", self.count);
        self.count += 1;
    }

    fn purge(&mut self, recording: &[u8], sheet: &[u8]) {
        self.put("purge", "", recording, sheet, purged(recording, sheet));
    }

    fn clean(&mut self, recording: &[u8]) {
        self.put("clean", "", recording, &[], cleaned(recording));
    }

    fn salvage(&mut self, damaged: &[u8]) {
        let mut out = vec![0; damaged.len()];
        let answer = salvage::salvage(damaged, &mut out).map(|told| {
            let stretches: String = told.stretches.iter().map(|one| format!(";stretch {} {}", one.start, one.length)).collect();
            (out[..told.bytes].to_vec(), format!("bytes {};messages {};stretches {}{stretches}", told.bytes, told.messages, told.stretches.len()))
        });
        self.put("salvage", "", damaged, &[], answer);
    }

    fn cut(&mut self, message: &[u8], size: usize) {
        let mut out = vec![0; 1 << 20];
        let answer = fragments::cut(message, size, &mut out);
        let answer = answer.map(|told| (out[..told.bytes].to_vec(), format!("bytes {};fragments {}", told.bytes, told.fragments)));
        self.put("cut", &size.to_string(), message, &[], answer);
    }

    fn join(&mut self, fragments: &[u8]) {
        let mut out = vec![0; fragments.len()];
        let answer = fragments::join(fragments, &mut out).map(|bytes| (out[..bytes].to_vec(), format!("bytes {bytes}")));
        self.put("join", "", fragments, &[], answer);
    }

    fn read_capture(&mut self, file: &[u8], port: u16) {
        let mut out = vec![0; file.len()];
        let answer = capture::read_capture(file, port, &mut out).map(|told| {
            let counts = format!("kept {};not_for_us {};cut_short {};bad {}", told.kept, told.not_for_us, told.cut_short, told.bad);
            (out[..told.bytes].to_vec(), format!("bytes {};{counts}", told.bytes))
        });
        self.put("capture-read", &port.to_string(), file, &[], answer);
    }

    fn write_capture(&mut self, recording: &[u8], port: u16) {
        let mut out = vec![0; 1 << 20];
        let answer = capture::write_capture(recording, port, &mut out);
        let answer = answer.map(|told| (out[..told.bytes].to_vec(), format!("bytes {};messages {}", told.bytes, told.messages)));
        self.put("capture-write", &port.to_string(), recording, &[], answer);
    }

    fn radio(&mut self, message: &[u8]) {
        let answer = radio::read_radio(message).map(|read| {
            let mut out = vec![0; message.len()];
            let bytes = radio::write_radio(&read, &mut out).expect("what was read is written");
            let mut told = format!("destination {};source {};sequence {}", read.destination, read.source, read.sequence);
            for tlv in &read.tlvs {
                let mut fields: Vec<i64> = tlv.told().iter().map(|&field| field as i64).collect();
                let name = match tlv {
                    radio::Tlv::TxOp(_) => "txop",
                    radio::Tlv::Heartbeat { .. } => "heartbeat",
                    radio::Tlv::LinkMetric(metric) => {
                        (fields[3], fields[4]) = (metric.rssi.into(), metric.cinr.into());
                        "link"
                    }
                    radio::Tlv::TeQueues(_) => "queues",
                };
                let fields: String = fields.iter().map(|field| format!(" {field}")).collect();
                told += &format!(";tlv {name}{fields}");
            }
            (out[..bytes].to_vec(), told)
        });
        self.put("radio", "", message, &[], answer);
    }

    fn bursts(&mut self, bytes: &[u8]) {
        let mut out = bytes.to_vec();
        let answer = burst::open_burst(&mut out).map(|blocks| (out.clone(), format!("codeblocks {blocks}")));
        self.put("burst-open", "", bytes, &[], answer);
        let mut out = bytes.to_vec();
        let answer = burst::randomize(&mut out).map(|()| (out.clone(), format!("bytes {}", bytes.len())));
        self.put("burst-randomize", "", bytes, &[], answer);
    }
}

/// The messages of a recording of any length. One whose end is not within a window, although the recording goes on, is LARGE.
fn messages_of(recording: &[u8]) -> Result<Vec<Placed<'_>>, Refusal> {
    let (mut place, mut messages) = (0, Vec::new());
    while place < recording.len() {
        let end = recording.len().min(place + WINDOW);
        match message_at(&recording[..end], place) {
            Err(Refusal { number: CUT, .. }) if end < recording.len() => return Err(Refusal { number: LARGE, place }),
            other => messages.push(other?),
        }
        place = messages.last().map_or(0, |placed| placed.end);
    }
    Ok(messages)
}

fn packages_of(messages: &[Placed]) -> usize {
    messages.iter().map(|placed| placed.message.packages.len()).sum()
}

fn purged(recording: &[u8], sheet: &[u8]) -> Answer {
    let rows = read_sheet(sheet)?;
    let messages = messages_of(recording)?;
    let mut left = Vec::new();
    for kept in purge::kept_records(messages.clone(), &rows) {
        let message = second::parse::Message { option_run: &kept.option_run, ..kept.message };
        let start = left.len();
        left.resize(start + rendered_length(&message), 0);
        render(&message, &mut left[start..]);
    }
    let stays = messages_of(&left)?;
    let (packages, packages_left) = (packages_of(&messages), packages_of(&stays));
    let was = format!("bytes {};messages {};packages {packages};packages_purged {}", recording.len(), messages.len(), packages - packages_left);
    let told = format!("{was};bytes_left {};messages_left {};packages_left {packages_left}", left.len(), stays.len());
    Ok((left, told))
}

fn cleaned(recording: &[u8]) -> Answer {
    let messages = messages_of(recording)?;
    let clean: Vec<u8> = messages.iter().flat_map(|placed| rendered(&placed.message)).collect();
    let told = format!("bytes {};messages {};packages {}", clean.len(), messages.len(), packages_of(&messages));
    Ok((clean, told))
}

/// A row for message ids from 0 up to this one.
fn up_to(id: u32) -> Row {
    Row { message_last: id, ..everything() }
}

/// A recording of so many bytes in which every second message, as a rule, has an id that `up_to(7)` has.
fn of_two(dice: &mut Dice, size: usize, style: Style) -> Vec<DirtyMessage> {
    let mut world = World::new(dice);
    world.message_ids = vec![3, 7, 8, 0xFFFF_FFFF];
    messages_of_size(dice, &world, size, style)
}

fn purges(cases: &mut Cases) {
    let sheet = pack_sheet(&[up_to(7)]);
    for (seed, size, style) in [(1, 230_000, Style::Mixed), (2, 140_004, Style::OnePackageEach), (3, 300_000, Style::FewLarge), (4, 600, Style::Mixed)] {
        let recording = lay_all(&of_two(&mut Dice::new(seed, 0), size, style)).0;
        cases.purge(&recording, &sheet);
    }
    // All of it goes, and what is left ends where a block does.
    let mut of_blocks = of_two(&mut Dice::new(5, 0), 36 * 5_000, Style::OnePackageEach);
    of_blocks.iter_mut().for_each(|one| one.message_id = 7);
    cases.purge(&lay_all(&of_blocks).0, &sheet);
    let dice = &mut Dice::new(6, 0);
    let world = World::new(dice);
    let mut of_blocks: Vec<DirtyMessage> = (0..40).map(|_| message_of_size(dice, &world, 4_096)).collect();
    of_blocks.iter_mut().enumerate().for_each(|(at, one)| one.message_id = 7 + (at % 2) as u32);
    cases.purge(&lay_all(&of_blocks).0, &sheet);
    // Clean, and the first granted package stands in the third window.
    let mut late = of_two(&mut Dice::new(7, 0), 200_000, Style::FewLarge);
    let mut place = 0;
    for one in &mut late {
        one.message_id = if place < 140_000 { 8 } else { one.message_id };
        place += one.laid().len();
    }
    let late = cleaned(&lay_all(&late).0).expect("a good recording").0;
    cases.purge(&late, &sheet);
    // Messages as large as a window.
    let dice = &mut Dice::new(8, 0);
    let mut large: Vec<DirtyMessage> = [WINDOW, 36, WINDOW, WINDOW - 4, 40].map(|size| message_of_size(dice, &world, size)).into();
    large.iter_mut().enumerate().for_each(|(at, one)| one.message_id = [8, 7, 8, 7, 8][at]);
    let (mut large, places) = lay_all(&large);
    cases.purge(&large, &sheet);
    // Refused, in the last window too, by the sheet first.
    cases.purge(&late[..late.len() - 4], &sheet);
    cases.purge(&late[..late.len() - 4], &sheet[..31]);
    cases.purge(&[], &[0; 32]);
    large[places[2] + 12..places[2] + 16].copy_from_slice(&(WINDOW as u32 + 4).to_be_bytes());
    cases.purge(&large, &sheet);
}

fn others(cases: &mut Cases) {
    for (seed, size, style) in [(11, 150_000, Style::Mixed), (12, 400, Style::Mixed)] {
        let recording = lay_all(&of_two(&mut Dice::new(seed, 0), size, style)).0;
        cases.clean(&recording);
        cases.clean(&recording[..recording.len() - 4]);
    }
    for seed in 0..6 {
        let dice = &mut Dice::new(20 + seed, 0);
        let world = World::new(dice);
        cases.salvage(&blocks::bad_blocks(dice));
        let message = pieces::message_to_cut(dice, &world).laid();
        let size = pieces::any_size(dice);
        cases.cut(&message, size);
        cases.cut(&message, 4 * dice.within(1, 20));
        let split = pieces::message_to_split(dice, &world);
        let parts = pieces::split(dice, &world, &split);
        cases.join(&pieces::lay_fragments(&parts).0);
        cases.join(&pieces::broken_fragments(dice, parts, seed as usize));
        let port = packets::any_port(dice);
        cases.read_capture(&packets::any_file(dice, port), port);
        cases.read_capture(&packets::mixed_file(dice, port).laid(), port);
        cases.write_capture(&packets::recording_to_write(dice), port);
        let radio = tlvs::good_message(dice);
        cases.radio(&tlvs::lay_dirty(dice, &radio));
        cases.radio(&tlvs::any_bytes(dice));
        let mut marked = burst::MARKER_BYTES.to_vec();
        let codeblocks = dice.within(1, 80);
        marked.extend(dice.bytes(768 * codeblocks));
        cases.bursts(&marked);
        cases.bursts(&marked[..marked.len() - seed as usize]);
    }
    // More than 64 stretches, and one byte more than an entry point takes.
    let dice = &mut Dice::new(30, 0);
    cases.salvage(&blocks::with_holes(dice, 65));
    let long = lay_all(&of_two(dice, WINDOW + 4, Style::Mixed)).0;
    cases.salvage(&long);
    cases.cut(&long, 8);
    cases.join(&long);
    cases.read_capture(&long, 1);
    cases.write_capture(&long, 1);
    cases.radio(&long);
    cases.bursts(&long);
}

fn main() {
    let folder = std::env::args().nth(1).expect("bench_second FOLDER");
    let mut cases = Cases { folder: folder.into(), count: 0 };
    purges(&mut cases);
    others(&mut cases);
}
