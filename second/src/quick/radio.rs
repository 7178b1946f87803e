//! RF network messages: TLVs are checked and counted where they lie, with their fields
//! taken from the bytes by shifts.

use crate::radio::*;
use crate::refusal::*;

/// What is told of a message: its header, and how many TLVs it has.
#[derive(Clone, Copy, Debug, PartialEq, Eq)]
pub struct Radio {
    pub destination: u16,
    pub source: u16,
    pub sequence: u32,
    pub tlvs: usize,
}

impl Radio {
    /// What is told of a message of which the TLVs are listed.
    pub fn of(message: &RadioMessage) -> Radio {
        let &RadioMessage { destination, source, sequence, ref tlvs } = message;
        Radio { destination, source, sequence, tlvs: tlvs.len() }
    }
}

const TXOP_BYTES: usize = 13;
const HEARTBEAT_BYTES: usize = 4;
const LINK_METRIC_BYTES: usize = 11;
const TE_QUEUES_BYTES: usize = 27;

/// The lowest 20 bits, which are a time below a second.
fn is_subseconds(bits: u32) -> bool {
    bits & 0xF_FFFF <= MOST_SUBSECONDS
}

/// The length of the TLV at the start of these bytes, if it keeps the rules.
#[inline(always)]
fn tlv_length(left: &[u8]) -> Option<usize> {
    let &[kind, length, ..] = left else {
        return None;
    };
    let length = usize::from(length);
    let good = match (kind, length) {
        (TXOP, TXOP_BYTES) => {
            let tlv = left.first_chunk::<TXOP_BYTES>()?;
            // Two times of 20 bits.
            let start = u32::from_be_bytes([0, tlv[8], tlv[9], tlv[10]]) >> 4;
            let stop = u32::from_be_bytes([0, tlv[10], tlv[11], tlv[12]]);
            u64::from(tlv[4]) == TXOP_BYTE && is_subseconds(start) && is_subseconds(stop)
        }
        (HEARTBEAT, HEARTBEAT_BYTES) => left.len() >= HEARTBEAT_BYTES,
        (LINK_METRIC, LINK_METRIC_BYTES) => {
            let tlv = left.first_chunk::<LINK_METRIC_BYTES>()?;
            is_subseconds(u32::from_be_bytes([0, tlv[3], tlv[4], tlv[5]]))
        }
        (TE_QUEUES, TE_QUEUES_BYTES) => {
            let tlv = left.first_chunk::<TE_QUEUES_BYTES>()?;
            // The version of a TE report is 0.
            is_subseconds(u32::from_be_bytes([0, tlv[3], tlv[4], tlv[5]])) && tlv[10] == 0
        }
        _ => false,
    };
    good.then_some(length)
}

/// How many TLVs a run has; the error is the place of the first bad one.
#[inline(always)]
fn count_tlvs(run: &[u8]) -> Result<usize, usize> {
    let (mut left, mut tlvs) = (run, 0);
    while !left.is_empty() {
        let Some(length) = tlv_length(left) else {
            return Err(run.len() - left.len());
        };
        left = &left[length..];
        tlvs += 1;
    }
    Ok(tlvs)
}

/// Makes the reserved bits of good TLVs zero.
fn clean_tlvs(run: &mut [u8]) {
    let mut left = run;
    while let Some(length) = tlv_length(left) {
        match left[0] {
            // Six reserved bits before the seconds.
            LINK_METRIC => left[2] &= 0x03,
            // Two before the seconds, and four before the sub-seconds.
            TE_QUEUES => (left[2], left[3]) = (left[2] & 0x3F, left[3] & 0x0F),
            _ => {}
        }
        left = &mut left[length..];
    }
}

/// Reads an RF network message: LARGE, RADIO at the header, RADIO at the first
/// bad TLV.
pub fn read_radio(input: &[u8]) -> Result<Radio, Refusal> {
    ask_not_large(input.len())?;
    let Some((header, run)) = input.split_first_chunk::<RADIO_HEADER_BYTES>() else {
        return refuse(RADIO, 0);
    };
    let short = |at: usize| u16::from_be_bytes([header[at], header[at + 1]]);
    // The message ends where the input does, and it has a payload.
    let ends = LENGTH_FIELD_BYTES + usize::from(short(0)) == input.len();
    ask(ends && !run.is_empty(), RADIO, 0)?;
    match count_tlvs(run) {
        Ok(tlvs) => Ok(Radio {
            destination: short(2),
            source: short(4),
            sequence: u32::from_be_bytes([header[6], header[7], header[8], header[9]]),
            tlvs,
        }),
        Err(bad) => refuse(RADIO, RADIO_HEADER_BYTES + bad),
    }
}

/// Writes an RF network message with this header from a run of TLVs: LARGE, RADIO at 0
/// for an empty run, RADIO at the place where the first bad TLV would stand, ROOM.
pub fn write_run(
    (destination, source, sequence): (u16, u16, u32),
    run: &[u8],
    buffer: &mut [u8],
) -> Result<usize, Refusal> {
    let length = run.len().saturating_add(RADIO_HEADER_BYTES);
    ask_not_large(length)?;
    ask(!run.is_empty(), RADIO, 0)?;
    if let Err(bad) = count_tlvs(run) {
        return refuse(RADIO, RADIO_HEADER_BYTES + bad);
    }
    ask(length <= buffer.len(), ROOM, length)?;
    let (header, payload) = buffer[..length].split_at_mut(RADIO_HEADER_BYTES);
    header[..2].copy_from_slice(&((length - LENGTH_FIELD_BYTES) as u16).to_be_bytes());
    header[2..4].copy_from_slice(&destination.to_be_bytes());
    header[4..6].copy_from_slice(&source.to_be_bytes());
    header[6..].copy_from_slice(&sequence.to_be_bytes());
    payload.copy_from_slice(run);
    clean_tlvs(payload);
    Ok(length)
}
