//! Programs that copy a recording of any length from file to file: the second program's
//! `stream`, and the proved one if its command is named, beside `cp` of the recording.

use crate::scenes::*;
use crate::timing::in_turn;
use crate::Settings;
use second::steps::long_copy;
use std::fs::{self, File};
use std::path::{Path, PathBuf};
use std::process::{Command, Stdio};

/// The recording has at most so many bytes: 64 MiB.
const BYTES: usize = 1 << 26;
/// Each program is timed at most so often.
const MOST_REPETITIONS: usize = 9;

/// A folder for files of ours, which goes when it is no longer held.
struct Folder(PathBuf);

impl Drop for Folder {
    fn drop(&mut self) {
        // What can not be removed is the folder's owner's to remove.
        let _ = fs::remove_dir_all(&self.0);
    }
}

/// A program: its name, and the words of its command.
struct Way {
    name: &'static str,
    words: Vec<String>,
}

pub fn streams(settings: &Settings) {
    let name = format!("hibernaxo-bench-{}", std::process::id());
    let folder = Folder(std::env::temp_dir().join(name));
    fs::create_dir(&folder.0).expect("a folder for temporary files is made");
    let repetitions = settings.repetitions.min(MOST_REPETITIONS);
    println!(
        "\nlong recordings from file to file in {}; processor time, medians of {repetitions}",
        std::env::temp_dir().display()
    );
    println!(
        "{:<44}{:>10}{:>11}{:>11}{:>11}{:>11}",
        "", "bytes", "ms", "MB/s", "to cp", "to stream"
    );
    for shape in SHAPES {
        time_streams(&folder.0, shape, repetitions, settings);
    }
}

fn text(path: &Path) -> String {
    path.to_str().expect("a name of our own is text").to_string()
}

fn time_streams(folder: &Path, shape: Shape, repetitions: usize, settings: &Settings) {
    let [input, order, out] = ["recording", "sheet", "out"].map(|name| folder.join(name));
    let (recording, sheet) = (recording(shape, Kind::ManyIds, BYTES), sheet(Kind::ManyIds));
    fs::write(&input, &recording).expect("the recording is written");
    fs::write(&order, &sheet).expect("the sheet is written");
    let stream = std::env::current_exe().expect("a program has a path").with_file_name("stream");
    let copying = |mut words: Vec<String>| {
        words.extend([text(&input), text(&order)]);
        words
    };
    let mut ways = vec![
        Way { name: "cp", words: vec!["cp".into(), text(&input), text(&out)] },
        Way { name: "stream", words: copying(vec![text(&stream)]) },
    ];
    if !settings.release_long.is_empty() {
        let words = copying(settings.release_long.clone());
        ways.push(Way { name: "release_long", words });
    }
    // What the programs write is compared before they are timed.
    let copy = long_copy(&[], &recording, &sheet).expect("the recording is good");
    for way in &ways {
        run(way, &out);
        let expected = if way.name == "cp" { &recording } else { &copy };
        let written = fs::read(&out).expect("the copy is read");
        assert!(written == *expected, "{} writes another copy", way.name);
    }
    let medians = in_turn(repetitions, ways.len(), |way| run(&ways[way], &out));
    for (way, seconds) in ways.iter().zip(&medians) {
        println!(
            "{:<44}{:>10}{:>11.1}{:>11.0}{:>11.2}{:>11.2}",
            format!("{}, {}, 16 ids", way.name, shape.name()),
            recording.len(),
            1e3 * seconds,
            recording.len() as f64 / seconds / 1e6,
            seconds / medians[0],
            seconds / medians[1]
        );
    }
}

/// Runs a program whose standard output is a new file, and gives its processor time.
fn run(way: &Way, out: &Path) -> f64 {
    if out.exists() {
        fs::remove_file(out).expect("the last copy is removed");
    }
    let file = if way.name == "cp" {
        Stdio::null()
    } else {
        File::create(out).expect("a file is made").into()
    };
    let mut command = Command::new(&way.words[0]);
    command.args(&way.words[1..]).stdin(Stdio::null()).stdout(file).stderr(Stdio::null());
    let before = children_seconds();
    let status = command.status().expect("the program runs");
    assert!(status.success(), "{} ends with {status}", way.name);
    children_seconds() - before
}

/// The processor time of all children that have ended, their own and the system's.
fn children_seconds() -> f64 {
    extern "C" {
        fn getrusage(who: i32, usage: *mut i64) -> i32;
    }
    const CHILDREN: i32 = -1;
    // Two times, each in seconds and microseconds, and fourteen numbers behind them.
    let mut usage = [0; 18];
    // The pointer is that of as many words as the system's struct has.
    let answer = unsafe { getrusage(CHILDREN, usage.as_mut_ptr()) };
    assert_eq!(answer, 0);
    (usage[0] + usage[2]) as f64 + (usage[1] + usage[3]) as f64 / 1e6
}
