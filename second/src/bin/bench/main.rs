//! Times the library's exports against the second program, which is plain, against its quick
//! forms, which are made for speed alone, and against a plain copy of as many bytes as are
//! written. Bursts have no quick form, and are timed against a bytewise loop; measuring a
//! copy is timed beside writing it. Purging is timed beside moving the same bytes, a step
//! beside the single copy of the same input, and a run of steps over up to 64 MiB.
//! Salvage is timed with a slow input, too; radio messages, captures, fragments and
//! lines of ids are read and written. Of the programs that copy a recording of any
//! length the processor time is taken. The ways take turns; medians are shown.

mod bursts;
mod captures;
mod checks;
mod copies;
mod fragments;
mod ids;
mod purging;
mod radio;
mod rows;
mod salvaging;
mod scenes;
mod steps;
mod streams;
mod timing;

use std::hint::black_box;
use std::process::ExitCode;

struct Settings {
    repetitions: usize,
    /// The parts that are timed, by their names.
    only: Vec<String>,
    /// The words of the command that runs the proved program for long recordings, if any.
    release_long: Vec<String>,
}

/// A part's name, and what times it.
type Part = (&'static str, fn(&Settings));

/// The parts, in their order.
const PARTS: [Part; 15] = [
    ("checks", checks::checks),
    ("cleaning", checks::cleaning),
    ("copies", copies::copies),
    ("rows", rows::rows),
    ("measuring", copies::measuring),
    ("bursts", bursts::bursts),
    ("purging", purging::purging),
    ("steps", steps::steps),
    ("runs", steps::runs),
    ("salvage", salvaging::salvaging),
    ("captures", captures::captures),
    ("radio", radio::radio_messages),
    ("fragments", fragments::fragments),
    ("ids", ids::ids),
    ("streams", streams::streams),
];

fn main() -> ExitCode {
    let settings = match settings(std::env::args().skip(1)) {
        Ok(settings) => settings,
        Err(wrong) => {
            let names = PARTS.map(|(name, _)| name).join(", ");
            eprintln!("{wrong}; usage: bench [--repetitions N] [--only PART,..] [--release-long COMMAND..]");
            eprintln!("the parts: {names}");
            return ExitCode::from(2);
        }
    };
    keep_memory();
    println!("medians of {} samples; the ways take turns", settings.repetitions);
    for (name, time) in PARTS {
        if settings.only.iter().any(|only| only == name) {
            time(&settings);
        }
    }
    ExitCode::SUCCESS
}

/// The C library gives large pieces of memory back to the system, and asks for them
/// anew, until a piece as large as this was freed once. The second program would
/// otherwise be faster or slower by what was timed before.
fn keep_memory() {
    const PIECE: usize = 16 << 20;
    drop(black_box(vec![1_u8; PIECE]));
}

fn settings(mut words: impl Iterator<Item = String>) -> Result<Settings, String> {
    let mut settings = Settings {
        repetitions: 401,
        only: PARTS.map(|(name, _)| name.to_string()).to_vec(),
        release_long: Vec::new(),
    };
    while let Some(word) = words.next() {
        if word == "--release-long" {
            settings.release_long = words.by_ref().collect();
            continue;
        }
        let value = words.next().ok_or(format!("{word} needs a value"))?;
        match word.as_str() {
            "--repetitions" => {
                let number = value.parse().ok().filter(|&number| number > 0);
                settings.repetitions = number.ok_or(format!("{word} needs a number from 1 up"))?;
            }
            "--only" => {
                settings.only = value.split(',').map(String::from).collect();
                let known = |only: &&String| PARTS.iter().any(|(name, _)| name == only);
                if let Some(other) = settings.only.iter().find(|only| !known(only)) {
                    return Err(format!("there is no part {other}"));
                }
            }
            _ => return Err(format!("{word} is not known")),
        }
    }
    Ok(settings)
}
