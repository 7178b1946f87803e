//! The copy in one walk over each message, which is checked and of which the granted
//! packages are taken over on the way.

use super::parse::*;
use super::render::{clean_package, header_bytes, put};
use super::sheet::Grants;
use crate::copy::{Copied, RELEASED_FLAGS};
use crate::parse::*;
use crate::refusal::*;
use crate::steps::Running;
use std::collections::HashMap;
use std::hash::{BuildHasherDefault, Hasher};

/// What a walk over a message found: its front, the packages granted, and the bytes of
/// the message that the copy has for it.
pub struct Released<'a> {
    pub front: Front<'a>,
    pub packages: usize,
    pub bytes: usize,
}

/// Makes every check of the message at this place, and puts its granted packages behind
/// the bytes of `out`, if they are to be written, with room for a header before them. Of a
/// message without granted packages nothing is put.
#[inline(always)]
pub fn released_at<'a, const WRITING: bool>(
    input: &'a [u8],
    place: usize,
    grants: &Grants,
    out: &mut Vec<u8>,
) -> Result<Released<'a>, Refusal> {
    let front = front_at(input, place)?;
    let rows = grants.rows_for(front.message_id, front.simulated());
    let start = out.len();
    if WRITING {
        out.extend_from_slice(&[0; HEADER_BYTES]);
    }
    let (mut packages, mut bytes) = (0, HEADER_BYTES);
    each_package(&front, place, grants, rows, |package, length, granted| {
        if granted {
            packages += 1;
            bytes += package.len();
            if WRITING {
                put_package(package, length, out);
            }
        }
    })?;
    if packages == 0 {
        out.truncate(start);
    }
    Ok(Released { front, packages, bytes })
}

/// Shows each package of a message with its length and whether one of these rows grants it,
/// and gives how many there are: PACKAGE, COUNT.
#[inline(always)]
pub fn each_package<'a>(
    front: &Front<'a>,
    place: usize,
    grants: &Grants,
    rows: u32,
    mut show: impl FnMut(&'a [u8], usize, bool),
) -> Result<usize, Refusal> {
    let base = package_time(front.seconds, front.nanoseconds, 0);
    let (mut left, mut packages) = (front.payload, 0);
    while !left.is_empty() {
        let Some((length, padded)) = package_lengths(left) else {
            return refuse(PACKAGE, front.end - left.len());
        };
        let (package, behind) = left.split_at(padded);
        let time = base + u64::from(number_at(package, 8));
        show(package, length, grants.have(rows, number_at(package, 0), time));
        packages += 1;
        left = behind;
    }
    ask(front.options.counts(packages), COUNT, place)?;
    Ok(packages)
}

/// Takes a package over as it stands, its reserved byte and its padding zero.
#[inline(always)]
pub fn put_package(package: &[u8], length: usize, out: &mut Vec<u8>) {
    let start = out.len();
    out.extend_from_slice(package);
    clean_package(&mut out[start..], length);
}

/// Puts the header of a copy's message before its packages, the last bytes of `out`. It has
/// no options, and of the flags those that are released.
#[inline(always)]
pub fn put_front(released: &Released, sequence: u32, out: &mut [u8]) {
    let flags = STANDARD_FLAG | PLAYBACK_FLAG | released.front.flags & RELEASED_FLAGS;
    let front = Front { flags, sequence, ..released.front };
    let start = out.len() - released.bytes;
    out[start..start + HEADER_BYTES].copy_from_slice(&header_bytes(&front, 0, released.bytes));
}

/// So many ids are searched one by one.
const FEW_IDS: usize = 16;

/// The next sequence number of each id: of the first few ids in a list, and of the others
/// in a map.
struct Numbers {
    few: Vec<Running>,
    /// How many ids there are at most.
    most: usize,
    others: HashMap<u32, u32, BuildHasherDefault<IdHasher>>,
}

impl Numbers {
    /// No numbers yet, for a recording of so many bytes.
    fn new(bytes: usize) -> Numbers {
        let most = bytes / (HEADER_BYTES + PACKAGE_HEADER_BYTES);
        Numbers { few: Vec::with_capacity(FEW_IDS), most, others: HashMap::default() }
    }

    #[inline(always)]
    fn number_for(&mut self, message_id: u32) -> u32 {
        let found = self.few.iter_mut().find(|running| running.message_id == message_id);
        let next = match found {
            Some(running) => &mut running.next,
            None => self.other(message_id),
        };
        *next += 1;
        *next - 1
    }

    /// The next number of an id that is not one of the first few.
    fn other(&mut self, message_id: u32) -> &mut u32 {
        if self.few.len() == FEW_IDS {
            if self.others.is_empty() {
                self.others.reserve(self.most);
            }
            return self.others.entry(message_id).or_insert(0);
        }
        self.few.push(Running { message_id, next: 0 });
        &mut self.few.last_mut().expect("an id was put there").next
    }
}

/// Hashes an id by one multiplication, of which the high bits are moved down.
#[derive(Default)]
struct IdHasher(u64);

impl Hasher for IdHasher {
    fn write(&mut self, bytes: &[u8]) {
        bytes.iter().for_each(|&byte| self.write_u32(byte.into()));
    }

    fn write_u32(&mut self, id: u32) {
        let sum = self.0 ^ u64::from(id);
        self.0 = sum.wrapping_mul(0x9E37_79B9_7F4A_7C15).rotate_left(32);
    }

    fn finish(&self) -> u64 {
        self.0
    }
}

/// Goes over the recording once: ROW, LARGE, 1 to 10 and COUNT for the first bad message.
fn walk<const WRITING: bool>(recording: &[u8], sheet: &[u8]) -> Result<(Copied, Vec<u8>), Refusal> {
    let grants = Grants::read(sheet)?;
    ask_not_large(recording.len())?;
    let mut out = Vec::with_capacity(if WRITING { recording.len() } else { 0 });
    let mut numbers = Numbers::new(recording.len());
    let mut copied = Copied { bytes: 0, messages: 0, packages: 0 };
    let mut place = 0;
    while place < recording.len() {
        let released = released_at::<WRITING>(recording, place, &grants, &mut out)?;
        place = released.front.end;
        if released.packages > 0 {
            copied.bytes += released.bytes;
            copied.messages += 1;
            copied.packages += released.packages;
            if WRITING {
                let number = numbers.number_for(released.front.message_id);
                put_front(&released, number, &mut out);
            }
        }
    }
    Ok((copied, out))
}

/// Measures the copy; it takes no buffer, so there is no ROOM.
pub fn measure(recording: &[u8], sheet: &[u8]) -> Result<Copied, Refusal> {
    Ok(walk::<false>(recording, sheet)?.0)
}

/// Writes the copy: what measuring refuses, then ROOM.
pub fn write(recording: &[u8], sheet: &[u8], buffer: &mut [u8]) -> Result<Copied, Refusal> {
    let (copied, out) = walk::<true>(recording, sheet)?;
    put(&out, buffer)?;
    Ok(copied)
}
