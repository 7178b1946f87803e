//! Writes the release copy of a recording of any length to standard output, in constant
//! memory.
//!
//! stream RECORDING SHEET
//!
//! Status 0: the copy is written; what was done is said on standard error. Status 1:
//! refused, and standard output has the line 'refused NUMBER PLACE' alone. Status 2: a
//! file could not be read, the copy not be written, or the recording changed meanwhile.

use second::stream::{self, Failure, Streamed};
use second::text::refused_line;
use std::ffi::OsStr;
use std::fs::File;
use std::io::{self, Write};
use std::os::fd::AsFd;
use std::process::ExitCode;

fn main() -> ExitCode {
    let names: Vec<_> = std::env::args_os().skip(1).collect();
    let [recording, sheet] = &names[..] else {
        eprintln!("usage: stream RECORDING SHEET");
        return ExitCode::from(2);
    };
    // Standard output as a file: nothing of it is held back, and no line's end is looked for.
    let copied = io::stdout().as_fd().try_clone_to_owned().map_err(Failure::Writing);
    let copied = copied.and_then(|out| write_copy(recording, sheet, &mut File::from(out)));
    match copied {
        Ok(status) => status,
        Err(failure) => {
            eprintln!("{}", said(failure));
            ExitCode::from(2)
        }
    }
}

/// Writes the copy, or the line of a refusal.
fn write_copy(recording: &OsStr, sheet: &OsStr, out: &mut File) -> Result<ExitCode, Failure> {
    let mut recording = File::open(recording).map_err(Failure::Reading)?;
    let mut sheet = File::open(sheet).map_err(Failure::Reading)?;
    let copied =
        stream::rows_of(&mut sheet).and_then(|rows| stream::copy(&mut recording, &rows, out));
    match copied {
        Ok(Streamed { handled, consumed, messages, packages, bytes }) => {
            eprintln!(
                "{handled} messages handled, {consumed} bytes; \
                 written: {messages} messages, {packages} packages, {bytes} bytes"
            );
            Ok(ExitCode::SUCCESS)
        }
        Err(Failure::Refused(refusal)) => {
            out.write_all(refused_line(refusal).as_bytes()).map_err(Failure::Writing)?;
            Ok(ExitCode::from(1))
        }
        Err(failure) => Err(failure),
    }
}

fn said(failure: Failure) -> String {
    match failure {
        Failure::Refused(refusal) => refused_line(refusal),
        Failure::Changed => {
            "the recording changed while it was copied; the copy is not whole".into()
        }
        Failure::Reading(error) => format!("a file can not be read: {error}"),
        Failure::Writing(error) => format!("the copy can not be written: {error}"),
    }
}
