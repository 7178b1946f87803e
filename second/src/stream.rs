//! The copy of a recording of any length, in constant memory: two passes over it in
//! windows, of which the first checks and measures and the second writes.
//!
//! It is made of the quick forms' parts, and makes no records: messages are checked, and
//! their granted packages taken over, where they lie.

use crate::quick::copy::{put_front, released_at};
use crate::quick::sheet::Grants;
use crate::refusal::*;
use crate::sheet::{read_sheet, Row, MOST_ROWS, ROW_BYTES};
use crate::steps::{number_for, State};
use std::io::{self, ErrorKind, Read, Seek, Write};

/// A window has at most so many bytes.
pub const WINDOW: usize = MOST_BYTES;
/// As much of the recording is held at once: a window, and the byte that tells
/// whether the recording goes on.
const HELD: usize = WINDOW + 1;
/// The copy is written as soon as it has so many bytes; a window adds at most one.
const WRITTEN_FROM: usize = WINDOW;

/// What a pass did: messages handled and bytes consumed of the recording, then the
/// numbers of the copy.
#[derive(Clone, Copy, Debug, Default, PartialEq, Eq)]
pub struct Streamed {
    pub handled: u64,
    pub consumed: u64,
    pub messages: u64,
    pub packages: u64,
    pub bytes: u64,
}

/// Why there is no copy, or none that is whole.
#[derive(Debug)]
pub enum Failure {
    /// Nothing is written; the place is counted in the whole recording.
    Refused(Refusal),
    /// The second pass did not find what the first one checked.
    Changed,
    Reading(io::Error),
    Writing(io::Error),
}

/// Reads a sheet, of which no more is kept than a good one has.
pub fn rows_of(sheet: &mut impl Read) -> Result<Vec<Row>, Failure> {
    let most = MOST_ROWS * ROW_BYTES;
    let mut bytes = Vec::with_capacity(most + 1);
    sheet.take(most as u64 + 1).read_to_end(&mut bytes).map_err(Failure::Reading)?;
    let behind = io::copy(sheet, &mut io::sink()).map_err(Failure::Reading)?;
    let place = bytes.len() + behind as usize;
    match read_sheet(&bytes) {
        Err(_) if bytes.len() > most => Err(Failure::Refused(Refusal { number: ROW, place })),
        other => other.map_err(Failure::Refused),
    }
}

/// Writes the copy. A refused recording has nothing written.
pub fn copy(
    recording: &mut (impl Read + Seek),
    rows: &[Row],
    out: &mut impl Write,
) -> Result<Streamed, Failure> {
    let grants = Grants::of(rows);
    let mut held = Held { bytes: vec![0; HELD], from: 0, to: 0, ended: false };
    let measured = pass(recording, &mut held, Pass::<false>::new(&grants), &mut io::sink())?;
    recording.rewind().map_err(Failure::Reading)?;
    held = Held { from: 0, to: 0, ended: false, ..held };
    match pass(recording, &mut held, Pass::<true>::new(&grants), out) {
        Ok(written) if written == measured => Ok(written),
        Ok(_) | Err(Failure::Refused(_)) => Err(Failure::Changed),
        failed => failed,
    }
}

/// The bytes of the recording that are held: what is read and not consumed yet.
struct Held {
    bytes: Vec<u8>,
    from: usize,
    to: usize,
    ended: bool,
}

impl Held {
    /// Reads until a window and a byte more are held, or the recording ends.
    fn fill(&mut self, recording: &mut impl Read) -> io::Result<()> {
        if self.ended || self.to - self.from > WINDOW {
            return Ok(());
        }
        self.bytes.copy_within(self.from..self.to, 0);
        (self.from, self.to) = (0, self.to - self.from);
        while self.to < self.bytes.len() {
            match recording.read(&mut self.bytes[self.to..]) {
                Ok(0) => {
                    self.ended = true;
                    return Ok(());
                }
                Ok(read) => self.to += read,
                Err(error) if error.kind() == ErrorKind::Interrupted => {}
                Err(error) => return Err(error),
            }
        }
        Ok(())
    }

    /// The window, and whether the recording goes on behind it.
    fn window(&self) -> (&[u8], bool) {
        let left = &self.bytes[self.from..self.to];
        (&left[..left.len().min(WINDOW)], left.len() > WINDOW)
    }
}

/// Goes over the recording once, window by window.
fn pass<const WRITING: bool>(
    recording: &mut impl Read,
    held: &mut Held,
    mut pass: Pass<WRITING>,
    out: &mut impl Write,
) -> Result<Streamed, Failure> {
    loop {
        held.fill(recording).map_err(Failure::Reading)?;
        let (window, goes_on) = held.window();
        let consumed = pass.step(window, goes_on).map_err(|Refusal { number, place }| {
            Failure::Refused(Refusal { number, place: pass.done.consumed as usize + place })
        })?;
        let ends = consumed == 0;
        held.from += consumed;
        pass.done.consumed += consumed as u64;
        if pass.out.len() >= WRITTEN_FROM || ends {
            out.write_all(&pass.out).map_err(Failure::Writing)?;
            pass.out.clear();
        }
        if ends {
            return Ok(pass.done);
        }
    }
}

/// A pass that measures alone, or writes too.
struct Pass<'a, const WRITING: bool> {
    grants: &'a Grants,
    state: State,
    done: Streamed,
    /// The part of the copy that is not written yet.
    out: Vec<u8>,
}

impl<'a, const WRITING: bool> Pass<'a, WRITING> {
    fn new(grants: &'a Grants) -> Self {
        let room = if WRITING { WRITTEN_FROM + WINDOW } else { 0 };
        let out = Vec::with_capacity(room);
        Pass { grants, state: State::new(), done: Streamed::default(), out }
    }

    /// One step over the whole messages of a window, and the bytes it consumes.
    /// Where the recording goes on, a message that the window cuts is left to the next.
    /// A 65th id is told only if all messages of the window are good.
    fn step(&mut self, window: &[u8], goes_on: bool) -> Result<usize, Refusal> {
        let mut place = 0;
        let mut without_number = None;
        while place < window.len() {
            match self.message(window, place) {
                Ok((end, numbered)) => {
                    if !numbered {
                        without_number.get_or_insert(place);
                    }
                    place = end;
                }
                Err(Refusal { number: SHORT | CUT, .. }) if goes_on => break,
                Err(refusal) => return Err(refusal),
            }
        }
        if let Some(place) = without_number {
            return refuse(IDS, place);
        }
        ask(place > 0 || window.is_empty(), LARGE, 0)?;
        Ok(place)
    }

    /// Makes every check of the message at this place, and delivers what is granted of
    /// it. Gives its end, and whether there is a number for it.
    fn message(&mut self, window: &[u8], place: usize) -> Result<(usize, bool), Refusal> {
        let released = released_at::<WRITING>(window, place, self.grants, &mut self.out)?;
        self.done.handled += 1;
        if released.packages == 0 {
            return Ok((released.front.end, true));
        }
        let Some(number) = number_for(&mut self.state, released.front.message_id) else {
            return Ok((released.front.end, false));
        };
        self.done.messages += 1;
        self.done.packages += released.packages as u64;
        self.done.bytes += released.bytes as u64;
        if WRITING {
            put_front(&released, number, &mut self.out);
        }
        Ok((released.front.end, true))
    }
}
