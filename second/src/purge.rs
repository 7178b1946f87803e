//! The purge: what a sheet grants goes, and the rest slides down in its buffer.

use crate::copy::is_among;
use crate::parse::*;
use crate::refusal::*;
use crate::render::render;
use crate::sheet::{read_sheet, Row, Rows};
use std::mem::take;

/// What stays of a message: its record with the packages that stay, and its
/// option run with the new count.
#[derive(Clone, Debug, PartialEq, Eq)]
pub struct Kept<'a> {
    /// The record without its option run.
    pub message: Message<'a>,
    pub option_run: Vec<u8>,
}

/// Purges the recording that fills the buffer, and reports the bytes in use:
/// ROW, LARGE, 1 to 10 and COUNT for the first bad message. Every byte behind
/// those in use is zero.
pub fn purge(buffer: &mut [u8], sheet: &[u8]) -> Result<usize, Refusal> {
    let rows = read_sheet(sheet)?;
    let recording = read_recording(buffer)?;
    let mut second = vec![0; buffer.len()];
    let mut used = 0;
    for kept in kept_records(recording, &rows) {
        let message = Message { option_run: &kept.option_run, ..kept.message };
        used += render(&message, &mut second[used..]);
    }
    buffer.copy_from_slice(&second);
    Ok(used)
}

/// What stays of a recording under these rows.
pub fn kept_records<'a>(recording: Vec<Placed<'a>>, rows: &[Row]) -> Vec<Kept<'a>> {
    let mut rows = Rows::of(rows);
    recording.into_iter().filter_map(|placed| kept_of(placed.message, &mut rows)).collect()
}

/// What stays of a message, unless it loses its last package.
fn kept_of<'a>(mut message: Message<'a>, rows: &mut Rows) -> Option<Kept<'a>> {
    let grants = rows.grants_for(message.message_id, message.simulated());
    let mut packages = take(&mut message.packages);
    let had_packages = !packages.is_empty();
    packages.retain(|package| !is_among(grants, &message, package));
    if packages.is_empty() && had_packages {
        return None;
    }
    let option_run = recounted(message.option_run, packages.len());
    Some(Kept { message: Message { option_run: &[], packages, ..message }, option_run })
}

/// The option run with its package count, where it has one, set to this number.
fn recounted(run: &[u8], packages: usize) -> Vec<u8> {
    let mut recounted = run.to_vec();
    if let Some(at) = count_place(run) {
        recounted[at + 2..at + 6].copy_from_slice(&(packages as u32).to_be_bytes());
    }
    recounted
}
