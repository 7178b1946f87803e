//! Compares what the two programs print with the second program's texts.

use crate::dice::Dice;
use crate::generate::{lay_all, messages, messages_of_size, style, World};
use crate::judge::{dump, Judge};
use crate::orders::{bad_sheet, pack_sheet, rows, targets};
use crate::paper::{message_m, row_r};
use crate::{damage, text};
use std::fs::{self, File};
use std::io::{self, Write};
use std::path::PathBuf;
use std::process::{Command, Output, Stdio};

/// The command lines of the two programs.
#[derive(Clone, Debug, Default)]
pub struct Commands {
    pub listing: Option<String>,
    pub release_copy: Option<String>,
}

/// Two files for a program to read; they go when this goes.
struct Files {
    recording: PathBuf,
    sheet: PathBuf,
}

impl Files {
    fn new() -> Files {
        let name =
            |part: &str| std::env::temp_dir().join(format!("second-{}-{part}", std::process::id()));
        Files { recording: name("recording"), sheet: name("sheet") }
    }
}

impl Drop for Files {
    fn drop(&mut self) {
        // A file that was never written need not go.
        let _ = fs::remove_file(&self.recording);
        let _ = fs::remove_file(&self.sheet);
    }
}

/// Compares so many cases of each program that has a command.
pub fn run(judge: &mut Judge, commands: &Commands, seed: u64, cases: u64) {
    let files = Files::new();
    for case in 0..cases {
        let dice = &mut Dice::new(seed ^ 0x70_72_6F_67, case);
        let (recording, sheet) = input(dice, case);
        if let Some(command) = &commands.listing {
            judge.begin(format!("program case {case} of seed {seed}, listing"));
            judge.kind("program: listing");
            let expected = text::listing(&recording).into_bytes();
            let output = listing_output(dice, &files, command, &recording);
            compare(judge, output, &expected, &[("recording", &recording)]);
        }
        if let Some(command) = &commands.release_copy {
            judge.begin(format!("program case {case} of seed {seed}, release copy"));
            judge.kind("program: release copy");
            let expected = text::release_copy(&recording, &sheet);
            let output = release_copy_output(&files, command, &recording, &sheet);
            compare(judge, output, &expected, &[("recording", &recording), ("sheet", &sheet)]);
        }
    }
    if let Some(command) = &commands.release_copy {
        bad_calls(judge, &files, command);
    }
}

/// The first cases are at the limits; the others are thrown.
fn input(dice: &mut Dice, case: u64) -> (Vec<u8>, Vec<u8>) {
    let world = World::new(dice);
    let (m, r) = (message_m(), row_r());
    match case {
        0 => (m, r),
        1 => (Vec::new(), r),
        2 => (m[..23].to_vec(), r),
        3 => (m, Vec::new()),
        4 => (m, vec![0; 100_000]),
        5 => (vec![0; 65_537], r),
        6 => (vec![0; 200_000], vec![0; 33]),
        7..=9 => {
            let style = style(dice);
            let messages = messages_of_size(dice, &world, 65_536, style);
            let sheet = pack_sheet(&rows(dice, &targets(&messages)));
            (lay_all(&messages).0, sheet)
        }
        _ => {
            let messages = messages(dice, &world);
            let targets = targets(&messages);
            let sheet = match dice.below(6) {
                0 => bad_sheet(dice, &targets),
                _ => pack_sheet(&rows(dice, &targets)),
            };
            let recording = match dice.below(5) {
                0 | 1 => damage::damaged(dice, messages),
                _ => lay_all(&messages).0,
            };
            (recording, sheet)
        }
    }
}

/// Runs the listing: from a file, or from a pipe that is filled bit by bit.
fn listing_output(
    dice: &mut Dice,
    files: &Files,
    command: &str,
    recording: &[u8],
) -> io::Result<Output> {
    let mut shell = Command::new("sh");
    shell.arg("-c").arg(command).stdout(Stdio::piped()).stderr(Stdio::piped());
    if dice.chance(1, 2) {
        fs::write(&files.recording, recording)?;
        return shell.stdin(File::open(&files.recording)?).output();
    }
    let mut child = shell.stdin(Stdio::piped()).spawn()?;
    let mut pipe = child.stdin.take().expect("the pipe was asked for");
    let bytes = recording.to_vec();
    let piece = dice.pick(&[1_000, 4_096, 5_001, 70_000]);
    let feeder = std::thread::spawn(move || {
        for part in bytes.chunks(piece) {
            // A program that has seen enough may close its input.
            if pipe.write_all(part).and_then(|()| pipe.flush()).is_err() {
                return;
            }
        }
    });
    let output = child.wait_with_output();
    feeder.join().expect("the feeder does not panic");
    output
}

fn release_copy_output(
    files: &Files,
    command: &str,
    recording: &[u8],
    sheet: &[u8],
) -> io::Result<Output> {
    fs::write(&files.recording, recording)?;
    fs::write(&files.sheet, sheet)?;
    call_with(command, &[&files.recording, &files.sheet])
}

/// Runs a command line with these file names behind it.
fn call_with(command: &str, names: &[&PathBuf]) -> io::Result<Output> {
    let line = format!("{command} \"$@\"");
    Command::new("sh").arg("-c").arg(line).arg("sh").args(names).stdin(Stdio::null()).output()
}

fn compare(
    judge: &mut Judge,
    output: io::Result<Output>,
    expected: &[u8],
    inputs: &[(&str, &[u8])],
) {
    let output = match output {
        Ok(output) => output,
        Err(error) => return judge.differs(|| format!("  the program did not run: {error}\n")),
    };
    let given = output.stdout;
    judge.claim(given == expected, || {
        let at = given.iter().zip(expected).take_while(|(one, other)| one == other).count();
        let from = at / 32 * 32;
        let mut told = format!(
            "  standard output first differs at {at}\n  given, {} bytes:\n{}  expected, {} bytes:\n{}",
            given.len(),
            dump(&given, from),
            expected.len(),
            dump(expected, from)
        );
        for (name, bytes) in inputs {
            told.push_str(&format!("  {name}, {} bytes:\n{}", bytes.len(), dump(bytes, 0)));
        }
        told.push_str(&format!("  standard error: {}\n", String::from_utf8_lossy(&output.stderr)));
        told
    });
}

/// A missing name, a surplus one, or a file that is not there: something on
/// standard error and nothing on standard output.
fn bad_calls(judge: &mut Judge, files: &Files, command: &str) {
    let written =
        fs::write(&files.recording, message_m()).and_then(|()| fs::write(&files.sheet, row_r()));
    let (recording, sheet) = (&files.recording, &files.sheet);
    let absent = &files.recording.with_extension("absent");
    let calls: [(&str, &[&PathBuf]); 5] = [
        ("no name", &[]),
        ("one name", &[recording]),
        ("three names", &[recording, sheet, sheet]),
        ("no such recording", &[absent, sheet]),
        ("no such sheet", &[recording, absent]),
    ];
    for (name, names) in calls {
        judge.begin(format!("release copy called with {name}"));
        judge.kind("program: release copy called wrongly");
        judge.claim(written.is_ok(), || "  the files could not be written\n".to_string());
        match call_with(command, names) {
            Ok(output) => {
                let good = output.stdout.is_empty() && !output.stderr.is_empty();
                judge.claim(good, || {
                    let told = String::from_utf8_lossy(&output.stderr);
                    format!(
                        "  standard output:\n{}  standard error: {told}\n",
                        dump(&output.stdout, 0)
                    )
                });
            }
            Err(error) => judge.differs(|| format!("  the program did not run: {error}\n")),
        }
    }
}
