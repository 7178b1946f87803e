//! The rules that have a quick form, by both forms: they must agree in what they give and in
//! every byte that they leave.

use crate::capture::{self, Captured, Written};
use crate::copy::{self, Copied};
use crate::fragments::{self, Cut};
use crate::ids::{self, IdRange};
use crate::quick::{self, radio::Radio};
use crate::radio::{self, RadioMessage};
use crate::refusal::Refusal;
use crate::render::{self, Draft};
use crate::salvage::{self, Salvaged};
use crate::steps::{self, State, Stepped};
use crate::{parse, purge};
use std::fmt::Debug;

/// The outcome of the plain form. The quick form gets a copy of the buffer.
fn both<T: Debug + PartialEq>(
    buffer: &mut [u8],
    plain: impl FnOnce(&mut [u8]) -> T,
    quick: impl FnOnce(&mut [u8]) -> T,
) -> T {
    let mut quick_buffer = buffer.to_vec();
    let quick_outcome = quick(&mut quick_buffer);
    let outcome = plain(buffer);
    assert_eq!(quick_outcome, outcome, "the quick form has another outcome");
    assert!(quick_buffer == buffer, "the quick form leaves other bytes");
    outcome
}

/// Checks a recording.
pub fn check(recording: &[u8]) -> Result<(usize, usize), Refusal> {
    both(&mut [], |_| parse::check(recording), |_| quick::parse::check(recording))
}

/// The writer.
pub fn write(draft: &Draft, buffer: &mut [u8]) -> Result<usize, Refusal> {
    both(buffer, |out| render::write(draft, out), |out| quick::render::write(draft, out))
}

/// The cleaner.
pub fn clean(input: &[u8], buffer: &mut [u8]) -> Result<usize, Refusal> {
    both(buffer, |out| render::clean(input, out), |out| quick::render::clean(input, out))
}

/// Measures a copy.
pub fn copy_measure(recording: &[u8], sheet: &[u8]) -> Result<Copied, Refusal> {
    let quick = |_: &mut [u8]| quick::copy::measure(recording, sheet);
    both(&mut [], |_| copy::measure(recording, sheet), quick)
}

/// Writes a copy.
pub fn copy_write(recording: &[u8], sheet: &[u8], buffer: &mut [u8]) -> Result<Copied, Refusal> {
    let quick = |out: &mut [u8]| quick::copy::write(recording, sheet, out);
    both(buffer, |out| copy::write(recording, sheet, out), quick)
}

/// Purges the recording that fills the buffer.
pub fn purge(buffer: &mut [u8], sheet: &[u8]) -> Result<usize, Refusal> {
    both(buffer, |out| purge::purge(out, sheet), |out| quick::purge::purge(out, sheet))
}

/// One step; the two states behind it must agree, too.
pub fn step(
    state: &mut State,
    input: &[u8],
    sheet: &[u8],
    quota: usize,
    buffer: &mut [u8],
) -> Result<Stepped, Refusal> {
    let mut quick_state = state.clone();
    let quick = |out: &mut [u8]| quick::steps::step(&mut quick_state, input, sheet, quota, out);
    let outcome = both(buffer, |out| steps::step(state, input, sheet, quota, out), quick);
    assert_eq!(quick_state, *state, "the quick form leaves another state");
    outcome
}

/// Writes the messages of a damaged recording that pass.
pub fn salvage(input: &[u8], buffer: &mut [u8]) -> Result<Salvaged, Refusal> {
    let quick = |out: &mut [u8]| quick::salvage::salvage(input, out);
    both(buffer, |out| salvage::salvage(input, out), quick)
}

/// Reads a capture.
pub fn read_capture(file: &[u8], port: u16, buffer: &mut [u8]) -> Result<Captured, Refusal> {
    let quick = |out: &mut [u8]| quick::capture::read_capture(file, port, out);
    both(buffer, |out| capture::read_capture(file, port, out), quick)
}

/// Writes a capture.
pub fn write_capture(recording: &[u8], port: u16, buffer: &mut [u8]) -> Result<Written, Refusal> {
    let quick = |out: &mut [u8]| quick::capture::write_capture(recording, port, out);
    both(buffer, |out| capture::write_capture(recording, port, out), quick)
}

/// Cuts a message.
pub fn cut(input: &[u8], size: usize, buffer: &mut [u8]) -> Result<Cut, Refusal> {
    let quick = |out: &mut [u8]| quick::fragments::cut(input, size, out);
    both(buffer, |out| fragments::cut(input, size, out), quick)
}

/// Joins fragments.
pub fn join(input: &[u8], buffer: &mut [u8]) -> Result<usize, Refusal> {
    let quick = |out: &mut [u8]| quick::fragments::join(input, out);
    both(buffer, |out| fragments::join(input, out), quick)
}

/// Reads an RF network message, of which the quick form tells no more than its header and
/// how many TLVs it has.
pub fn read_radio(input: &[u8]) -> Result<RadioMessage, Refusal> {
    let outcome = radio::read_radio(input);
    let told = outcome.as_ref().map(Radio::of).map_err(|refusal| *refusal);
    assert_eq!(quick::radio::read_radio(input), told, "the quick form has another outcome");
    outcome
}

/// Writes an RF network message from a run of TLVs.
pub fn write_run(header: (u16, u16, u32), run: &[u8], buffer: &mut [u8]) -> Result<usize, Refusal> {
    let quick = |out: &mut [u8]| quick::radio::write_run(header, run, out);
    both(buffer, |out| radio::write_run(header, run, out), quick)
}

/// Reads a line of ids.
pub fn read_ids(line: &[u8]) -> Result<Vec<IdRange>, Refusal> {
    both(&mut [], |_| ids::read_ids(line), |_| quick::ids::read_ids(line))
}

/// Writes a line of ids.
pub fn write_ids(ranges: &[IdRange], buffer: &mut [u8]) -> Result<usize, Refusal> {
    both(buffer, |out| ids::write_ids(ranges, out), |out| quick::ids::write_ids(ranges, out))
}
