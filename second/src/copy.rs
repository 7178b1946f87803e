//! The released list and the copy, which is measured and written.

use crate::parse::*;
use crate::refusal::*;
use crate::render::render;
use crate::sheet::{granted, read_sheet, Grant, Row, Rows};
use std::collections::HashMap;
use std::mem::take;

/// The flag bits that the released list has: 3, 2 and 1.
pub const RELEASED_FLAGS: u8 = 0b0000_1110;

/// One entry of the released list.
#[derive(Clone, Debug, PartialEq, Eq)]
pub struct Entry<'a> {
    pub message_id: u32,
    pub seconds: u32,
    pub nanoseconds: u32,
    pub flags: u8,
    pub packages: Vec<Package<'a>>,
}

/// What a copy has: as measured, what it needs, and as written, what it took.
#[derive(Clone, Copy, Debug, PartialEq, Eq)]
pub struct Copied {
    pub bytes: usize,
    pub messages: usize,
    pub packages: usize,
}

/// Do these rows grant this package of the message?
pub fn is_granted(rows: &[Row], message: &Message, package: &Package) -> bool {
    let time = package_time(message.seconds, message.nanoseconds, package.delta);
    granted(rows, message.message_id, package.id, time, message.simulated())
}

/// The released list of a recording under these rows.
pub fn released_list<'a>(recording: Vec<Placed<'a>>, rows: &[Row]) -> Vec<Entry<'a>> {
    let mut rows = Rows::of(rows);
    recording.into_iter().filter_map(|placed| released_entry(placed.message, &mut rows)).collect()
}

/// The list of all packages of a recording that are to be released.
pub fn list_of<'a>(
    recording: Vec<Placed<'a>>,
    released: impl Fn(&Message, &Package) -> bool,
) -> Vec<Entry<'a>> {
    recording.into_iter().filter_map(|placed| entry_of(placed.message, &released)).collect()
}

/// The message's entry, if these rows grant one of its packages.
pub fn released_entry<'a>(message: Message<'a>, rows: &mut Rows) -> Option<Entry<'a>> {
    let grants = rows.grants_for(message.message_id, message.simulated());
    entry_of(message, |message, package| is_among(grants, message, package))
}

/// Does one of these grants, which are for the message, have this package of it?
pub fn is_among(grants: &[Grant], message: &Message, package: &Package) -> bool {
    let time = package_time(message.seconds, message.nanoseconds, package.delta);
    grants.iter().any(|grant| grant.has(package.id, time))
}

/// The message's entry, if one of its packages is to be released.
fn entry_of<'a>(
    mut message: Message<'a>,
    released: impl Fn(&Message, &Package) -> bool,
) -> Option<Entry<'a>> {
    let mut packages = take(&mut message.packages);
    packages.retain(|package| released(&message, package));
    (!packages.is_empty()).then_some(Entry {
        message_id: message.message_id,
        seconds: message.seconds,
        nanoseconds: message.nanoseconds,
        flags: message.flags & RELEASED_FLAGS,
        packages,
    })
}

/// The message that the copy writes for an entry, with this sequence number.
pub fn message_of(entry: Entry, sequence: u32) -> Message {
    Message {
        flags: PLAYBACK_FLAG | entry.flags,
        message_id: entry.message_id,
        sequence,
        seconds: entry.seconds,
        nanoseconds: entry.nanoseconds,
        option_run: &[],
        packages: entry.packages,
    }
}

/// What the copy of a released list needs: a header for each entry, and its
/// packages with their padding.
fn measured(entries: &[Entry]) -> Copied {
    let packages = || entries.iter().flat_map(|entry| &entry.packages);
    Copied {
        bytes: HEADER_BYTES * entries.len() + packages().map(Package::padded).sum::<usize>(),
        messages: entries.len(),
        packages: packages().count(),
    }
}

/// The released list of a recording under a sheet: ROW, LARGE, 1 to 10 and
/// COUNT for the first bad message.
fn released<'a>(recording: &'a [u8], sheet: &[u8]) -> Result<Vec<Entry<'a>>, Refusal> {
    let rows = read_sheet(sheet)?;
    Ok(released_list(read_recording(recording)?, &rows))
}

/// Measures the copy; it takes no buffer, so there is no ROOM.
pub fn measure(recording: &[u8], sheet: &[u8]) -> Result<Copied, Refusal> {
    Ok(measured(&released(recording, sheet)?))
}

/// Writes the copy: what measuring refuses, then ROOM.
pub fn write(recording: &[u8], sheet: &[u8], buffer: &mut [u8]) -> Result<Copied, Refusal> {
    write_list(released(recording, sheet)?, buffer)
}

/// Writes the copy of a released list, if the buffer has room.
pub fn write_list(entries: Vec<Entry>, buffer: &mut [u8]) -> Result<Copied, Refusal> {
    let needed = measured(&entries).bytes;
    ask(needed <= buffer.len(), ROOM, needed)?;
    let mut written = Copied { bytes: 0, messages: 0, packages: 0 };
    let mut earlier: HashMap<u32, u32> = HashMap::new();
    for entry in entries {
        let count = earlier.entry(entry.message_id).or_insert(0);
        let message = message_of(entry, *count);
        *count += 1;
        written.bytes += render(&message, &mut buffer[written.bytes..]);
        written.messages += 1;
        written.packages += message.packages.len();
    }
    Ok(written)
}
