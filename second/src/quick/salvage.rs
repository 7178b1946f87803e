//! Salvage: what is kept lies between the stretches that are skipped.

use super::parse::passed_at;
use crate::refusal::*;
use crate::salvage::{Salvaged, Stretch, MOST_STRETCHES, SKIPPED_BYTES};

/// Writes the kept messages unchanged: LARGE, HOLES at the 65th stretch, ROOM.
pub fn salvage(input: &[u8], buffer: &mut [u8]) -> Result<Salvaged, Refusal> {
    ask_not_large(input.len())?;
    let mut salvaged = Salvaged::default();
    let mut at = 0;
    while at < input.len() {
        if let Ok(passed) = passed_at(input, at) {
            salvaged.messages += 1;
            salvaged.bytes += passed.front.end - at;
            at = passed.front.end;
            continue;
        }
        let length = SKIPPED_BYTES.min(input.len() - at);
        skip(at, length, &mut salvaged.stretches)?;
        at += length;
    }
    ask(salvaged.bytes <= buffer.len(), ROOM, salvaged.bytes)?;
    let (mut written, mut kept_from) = (0, 0);
    let behind = Stretch { start: input.len(), length: 0 };
    for stretch in salvaged.stretches.iter().chain([&behind]) {
        let kept = &input[kept_from..stretch.start];
        buffer[written..written + kept.len()].copy_from_slice(kept);
        written += kept.len();
        kept_from = stretch.end();
    }
    Ok(salvaged)
}

/// Skips these bytes: the stretch before runs on, or a new one starts, if it may.
fn skip(start: usize, length: usize, stretches: &mut Vec<Stretch>) -> Result<(), Refusal> {
    match stretches.last_mut() {
        Some(stretch) if stretch.end() == start => stretch.length += length,
        _ => {
            ask(stretches.len() < MOST_STRETCHES, HOLES, start)?;
            stretches.push(Stretch { start, length });
        }
    }
    Ok(())
}
