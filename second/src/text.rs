//! What the two programs print.

use crate::copy;
use crate::parse::{package_time, read_recording};
use crate::refusal::Refusal;
use std::fmt::Write;

/// The one line of a refusal.
pub fn refused_line(refusal: Refusal) -> String {
    format!("refused {} {}\n", refusal.number, refusal.place)
}

/// The listing of a recording.
pub fn listing(recording: &[u8]) -> String {
    let messages = match read_recording(recording) {
        Ok(messages) => messages,
        Err(refusal) => return refused_line(refusal),
    };
    let mut text = String::from("at mdid pdid sec nsec len\n");
    let mut packages = 0;
    for placed in &messages {
        let message = &placed.message;
        let mut at = placed.payload_place;
        for package in &message.packages {
            let time = package_time(message.seconds, message.nanoseconds, package.delta);
            let (sec, nsec) = (time / 1_000_000_000, time % 1_000_000_000);
            let (mdid, pdid, len) = (message.message_id, package.id, package.length());
            writeln!(text, "{at} {mdid} {pdid} {sec} {nsec} {len}").unwrap();
            at += package.padded();
            packages += 1;
        }
    }
    writeln!(text, "end {} {}", messages.len(), packages).unwrap();
    text
}

/// What the command program writes: the copy, which it measures first, or the
/// refused line.
pub fn release_copy(recording: &[u8], sheet: &[u8]) -> Vec<u8> {
    match measured_and_written(recording, sheet) {
        Ok(copy) => copy,
        Err(refusal) => refused_line(refusal).into_bytes(),
    }
}

fn measured_and_written(recording: &[u8], sheet: &[u8]) -> Result<Vec<u8>, Refusal> {
    let mut buffer = vec![0; copy::measure(recording, sheet)?.bytes];
    copy::write(recording, sheet, &mut buffer)?;
    Ok(buffer)
}
