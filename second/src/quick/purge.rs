//! The purge in one walk over each message; what stays is put behind what stayed before.

use super::copy::{each_package, put_package};
use super::parse::{front_at, padded};
use super::render::{clean_header, put_clean, put_options};
use super::sheet::Grants;
use crate::parse::HEADER_BYTES;
use crate::refusal::*;

/// Purges the recording that fills the buffer, and reports the bytes in use:
/// ROW, LARGE, 1 to 10 and COUNT for the first bad message. Every byte behind
/// those in use is zero.
pub fn purge(buffer: &mut [u8], sheet: &[u8]) -> Result<usize, Refusal> {
    let grants = Grants::read(sheet)?;
    ask_not_large(buffer.len())?;
    let mut out = Vec::with_capacity(buffer.len());
    let mut place = 0;
    while place < buffer.len() {
        place = keep_at(buffer, place, &grants, &mut out)?;
    }
    let (used, freed) = buffer.split_at_mut(out.len());
    used.copy_from_slice(&out);
    freed.fill(0);
    Ok(out.len())
}

/// Makes every check of the message at this place, and puts what stays of it behind the
/// bytes of `out`. Gives its end.
#[inline(always)]
fn keep_at(
    input: &[u8],
    place: usize,
    grants: &Grants,
    out: &mut Vec<u8>,
) -> Result<usize, Refusal> {
    let front = front_at(input, place)?;
    let rows = grants.rows_for(front.message_id, front.simulated());
    if rows == 0 {
        put_clean(&front, place, out)?;
        return Ok(front.end);
    }
    let start = out.len();
    out.extend_from_slice(&[0; HEADER_BYTES]);
    put_options(front.options.run, out);
    let mut kept = 0_u32;
    let packages = each_package(&front, place, grants, rows, |package, length, granted| {
        if !granted {
            kept += 1;
            put_package(package, length, out);
        }
    })?;
    if packages > 0 && kept == 0 {
        out.truncate(start);
        return Ok(front.end);
    }
    let message = &mut out[start..];
    let header = clean_header(&front, padded(front.options.run.len()), message.len());
    message[..HEADER_BYTES].copy_from_slice(&header);
    if let Some(at) = front.options.count {
        let at = HEADER_BYTES + at + 2;
        message[at..at + 4].copy_from_slice(&kept.to_be_bytes());
    }
    Ok(front.end)
}
