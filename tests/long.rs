//! What `release_long` and `listing` write for recordings longer than one window, beside the second program's copy of the whole and its packages. What
//! the second program's own streaming copy writes and says must be the same.
//!
//! long FOLDER RELEASE_LONG STREAM LISTING: the commands of the programs, words with blanks between; files are made in FOLDER.

use second::dice::Dice;
use second::generate::*;
use second::orders::*;
use second::refusal::{Refusal, CUT, IDS, LARGE, ROW, SHORT, VERSION};
use second::steps::long_copy;
use std::collections::HashSet;
use std::path::Path;
use std::process::{Command, Output, Stdio};

const WINDOW: usize = 65_536;

/// What the program is to write: a copy, or the refused line.
enum Expected {
    Copy(Vec<u8>),
    Refused(u32, usize),
}

struct Tried<'a> {
    folder: &'a Path,
    /// The programs that copy: `release_long` and `stream`.
    copying: [Vec<&'a str>; 2],
    listing: Vec<&'a str>,
    cases: usize,
    bytes: usize,
    refusals: HashSet<u32>,
}

fn line(number: u32, place: usize) -> Vec<u8> {
    format!("refused {number} {place}\n").into_bytes()
}

impl Tried<'_> {
    /// What each program that copies gives, and its name.
    fn call(&self, recording: &[u8], sheet: &[u8]) -> [(&str, Output); 2] {
        let names = [self.folder.join("recording"), self.folder.join("sheet")];
        std::fs::write(&names[0], recording).expect("a recording is written");
        std::fs::write(&names[1], sheet).expect("a sheet is written");
        self.copying.each_ref().map(|words| {
            let mut command = Command::new(words[0]);
            command.args(&words[1..]).args(&names).stdin(Stdio::null());
            (words[words.len() - 1], command.output().expect("the program runs"))
        })
    }

    fn compare(&mut self, what: &str, recording: &[u8], sheet: &[u8], expected: Expected) {
        let (written, summary) = match expected {
            Expected::Copy(copy) => {
                let summary = summary(recording, &copy);
                (copy, summary)
            }
            Expected::Refused(number, place) => {
                self.refusals.insert(number);
                (line(number, place), String::new())
            }
        };
        self.cases += 1;
        self.bytes += recording.len();
        for (program, output) in self.call(recording, sheet) {
            let said = String::from_utf8_lossy(&output.stderr).into_owned();
            let first = output.stdout.iter().zip(&written).position(|(a, b)| a != b);
            if output.stdout != written {
                let head = String::from_utf8_lossy(&output.stdout[..output.stdout.len().min(60)]).into_owned();
                let (one, other) = (output.stdout.len(), written.len());
                panic!("{what}, {program}: {one} bytes are written in place of {other}, they differ from {first:?} on; {head:?}; said: {said}");
            }
            if said != summary {
                panic!("{what}, {program}: said is {said:?} in place of {summary:?}");
            }
        }
    }

    /// By document 01's rule for the whole, and LARGE where a message's end is not within a window although the recording goes on.
    fn as_whole(&mut self, what: &str, recording: &[u8], sheet: &[u8]) {
        let expected = match long_copy(&[], recording, sheet) {
            Ok(copy) => Expected::Copy(copy),
            Err(Refusal { number: CUT, place }) if recording.len() - place > WINDOW => Expected::Refused(LARGE, place),
            Err(refusal) => Expected::Refused(refusal.number, refusal.place),
        };
        let listed = match &expected {
            Expected::Copy(_) => listing(recording),
            Expected::Refused(number, place) => line(*number, *place),
        };
        self.compare(what, recording, sheet, expected);
        let mut command = Command::new(self.listing[0]);
        command.args(&self.listing[1..]).arg(self.folder.join("recording")).stdin(Stdio::null());
        let output = command.output().expect("the program runs");
        assert!(output.stderr.is_empty(), "{what}: the listing says {}", String::from_utf8_lossy(&output.stderr));
        let first = output.stdout.iter().zip(&listed).position(|(a, b)| a != b);
        assert!(output.stdout == listed, "{what}: the listing has {} bytes in place of {}, they differ from {first:?} on", output.stdout.len(), listed.len());
    }
}

/// How many messages and packages a good recording has.
fn counted(recording: &[u8]) -> (usize, usize) {
    let (mut place, mut messages, mut packages) = (0, 0, 0);
    while place < recording.len() {
        let placed = second::parse::message_at(recording, place).expect("a good recording");
        (place, messages, packages) = (placed.end, messages + 1, packages + placed.message.packages.len());
    }
    (messages, packages)
}

/// A line for each package of a good recording, its place counted in the whole.
fn listing(recording: &[u8]) -> Vec<u8> {
    let mut lines = String::from("at mdid pdid sec nsec len\n");
    let mut place = 0;
    while place < recording.len() {
        let placed = second::parse::message_at(recording, place).expect("a good recording");
        let (message, mut at) = (&placed.message, placed.payload_place);
        for package in &message.packages {
            let time = second::parse::package_time(message.seconds, message.nanoseconds, package.delta);
            let (seconds, nanoseconds) = (time / 1_000_000_000, time % 1_000_000_000);
            lines += &format!("{at} {} {} {seconds} {nanoseconds} {}\n", message.message_id, package.id, package.length());
            at += package.padded();
        }
        place = placed.end;
    }
    let (messages, packages) = counted(recording);
    lines += &format!("end {messages} {packages}\n");
    lines.into_bytes()
}

fn summary(recording: &[u8], copy: &[u8]) -> String {
    let (handled, (messages, packages)) = (counted(recording).0, counted(copy));
    let (read, written) = (recording.len(), copy.len());
    format!("{handled} messages handled, {read} bytes; written: {messages} messages, {packages} packages, {written} bytes\n")
}

/// Messages of these many bytes each, and where they begin.
fn of_sizes(dice: &mut Dice, sizes: &[usize]) -> (Vec<u8>, Vec<usize>) {
    let mut world = World::new(dice);
    world.message_ids.truncate(40);
    let messages: Vec<DirtyMessage> = sizes.iter().map(|&size| message_of_size(dice, &world, size)).collect();
    lay_all(&messages)
}

fn main() {
    let arguments: Vec<String> = std::env::args().collect();
    let [_, folder, release_long, stream, listing] = &arguments[..] else { panic!("long FOLDER RELEASE_LONG STREAM LISTING") };
    let copying = [release_long, stream].map(|command| command.split(' ').collect());
    let listing = listing.split(' ').collect();
    let mut tried = Tried { folder: Path::new(folder), copying, listing, cases: 0, bytes: 0, refusals: HashSet::new() };
    let everything = pack_sheet(&[everything()]);

    // Several tenants, dirty, ids that recur; of each way to make up a recording.
    for (case, style) in [Style::Mixed, Style::FewLarge, Style::OnePackageEach].into_iter().enumerate() {
        let dice = &mut Dice::new(1, case as u64);
        let mut world = World::new(dice);
        world.message_ids = (0..dice.within(1, 60) as u32).map(|id| id.wrapping_mul(0x0101_0101)).collect();
        let messages = messages_of_size(dice, &world, 800_000, style);
        let recording = lay_all(&messages).0;
        let sheet = pack_sheet(&rows(dice, &targets(&messages)));
        tried.as_whole(&format!("{style:?}"), &recording, &sheet);
        tried.as_whole(&format!("{style:?}, everything"), &recording, &everything);
        tried.as_whole(&format!("{style:?}, nothing"), &recording, &[]);
    }

    // Exactly one window, two and three, and some bytes more; each whole, and cut.
    for windows in 1..=3 {
        for (more, what) in [(0, "exactly"), (36, "one message more"), (4, "four bytes more")] {
            let dice = &mut Dice::new(2, windows as u64);
            let world = World::new(dice);
            let recording = lay_all(&messages_of_size(dice, &world, windows * WINDOW + more, Style::Mixed)).0;
            tried.as_whole(&format!("{windows} windows, {what}"), &recording, &everything);
            tried.as_whole(&format!("{windows} windows, {what}, cut by four"), &recording[..recording.len() - 4], &everything);
        }
    }

    // A message of 40 bytes that begins 0, 4 .. 40 bytes before the window's edge.
    for before in (0..=40).step_by(4) {
        let small = (WINDOW - before - 36) / 40;
        let mut sizes = vec![WINDOW - before - 40 * small];
        sizes.resize(1 + small + 4, 40);
        let (recording, _) = of_sizes(&mut Dice::new(3, before as u64), &sizes);
        tried.as_whole(&format!("a message {before} bytes before the edge"), &recording, &everything);
    }

    // Messages of the largest size, alone, behind others, and in a row; one of four bytes more is LARGE.
    for sizes in [&[WINDOW][..], &[WINDOW, 36], &[36, WINDOW], &[36, WINDOW, WINDOW, 24, WINDOW - 4, 40, WINDOW]] {
        let (recording, _) = of_sizes(&mut Dice::new(4, sizes.len() as u64), sizes);
        tried.as_whole(&format!("messages of {sizes:?} bytes"), &recording, &everything);
    }
    // Copies that leave just room for one window in the buffer of eight in which they are gathered, or four bytes less, fill it, and fill it again.
    for sizes in [&[WINDOW; 7][..], &[WINDOW; 8], &[WINDOW; 9], &[WINDOW; 17]] {
        for first in [WINDOW, WINDOW - 4, 36] {
            let (recording, _) = of_sizes(&mut Dice::new(9, sizes.len() as u64), &[&[first], &sizes[1..]].concat());
            tried.as_whole(&format!("{} messages of 65,536 bytes, the first of {first}", sizes.len()), &recording, &everything);
        }
    }
    let (recording, places) = of_sizes(&mut Dice::new(5, 0), &[36, 400, WINDOW, 40]);
    let mut longer = recording.clone();
    let length = places[2] + 12;
    longer[length..length + 4].copy_from_slice(&(WINDOW as u32 + 4).to_be_bytes());
    tried.compare("a message of 65,540 bytes", &longer, &everything, Expected::Refused(LARGE, places[2]));
    longer[length..length + 4].copy_from_slice(&(1u32 << 31).to_be_bytes());
    tried.as_whole("a message of 2,147,483,648 bytes", &longer, &everything);
    tried.as_whole("the same within a window of the end", &longer[..places[2] + WINDOW], &everything);

    // A message of the last window is damaged, and one of each other window.
    let (recording, places) = of_sizes(&mut Dice::new(6, 0), &[1_000; 300]);
    for at in [299, 298, 150, 66, 65, 64, 0] {
        let mut damaged = recording.clone();
        damaged[places[at]] = 0x20;
        tried.as_whole(&format!("message {at} has another version"), &damaged, &everything);
        damaged[places[at]] = recording[places[at]];
        damaged[places[at] + 3] ^= 0x30;
        tried.as_whole(&format!("message {at} is a fragment"), &damaged, &everything);
        let end = places[at] + 1_000;
        for less in [4, 976, 980] {
            tried.as_whole(&format!("cut {less} bytes before the end of message {at}"), &recording[..end - less], &everything);
        }
    }

    // 64 ids, and one more in the last window; a sheet that is refused comes first.
    for ids in [64, 65, 66] {
        let dice = &mut Dice::new(7, ids as u64);
        let world = World::new(dice);
        let mut messages: Vec<DirtyMessage> = (0..4_000).map(|_| message_of_size(dice, &world, 36)).collect();
        for (at, one) in messages.iter_mut().enumerate() {
            one.message_id = if at < 3_900 { (at % 64) as u32 } else { (at % ids) as u32 };
        }
        let (recording, places) = lay_all(&messages);
        match messages.iter().position(|one| one.message_id == 64) {
            Some(at) => tried.compare("a 65th id", &recording, &everything, Expected::Refused(IDS, places[at])),
            None => tried.as_whole("64 ids", &recording, &everything),
        }
        tried.compare("a sheet of 31 bytes", &recording, &everything[..31], Expected::Refused(ROW, 31));
    }
    tried.as_whole("nothing at all", &[], &everything);

    // Each message of 1,000 bytes has an id of its own. The 65th is told before a bad message of a later window, and behind one of its own: the first
    // window has 65 whole messages, and the header of the next.
    let dice = &mut Dice::new(8, 0);
    let world = World::new(dice);
    let mut messages: Vec<DirtyMessage> = (0..200).map(|_| message_of_size(dice, &world, 1_000)).collect();
    messages.iter_mut().enumerate().for_each(|(id, one)| one.message_id = id as u32);
    let (recording, places) = lay_all(&messages);
    for (bad, number, at) in [(0, VERSION, 0), (64, VERSION, 64), (65, VERSION, 65), (66, IDS, 64), (199, IDS, 64)] {
        let mut damaged = recording.clone();
        damaged[places[bad]] = 0x20;
        tried.compare(&format!("65 ids, message {bad} is bad"), &damaged, &everything, Expected::Refused(number, places[at]));
    }

    for number in [SHORT, VERSION, CUT, LARGE, IDS, ROW] {
        assert!(tried.refusals.contains(&number), "no case is refused with {number}");
    }
    println!("tests/long: {} recordings, {} bytes, copied, by stream too, and listed as the second program has it", tried.cases, tried.bytes);
}
