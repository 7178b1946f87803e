//! The second program's answers in the form of the library's exports: the
//! refusal number, and values that begin with the place. Where a rule has a quick
//! form, both forms answer and must agree.

use crate::copy::Copied;
use crate::ids::{IdRange, MOST_RANGES};
use crate::radio::{self, LinkMetric, Measured, MOST_FIELDS};
use crate::refusal::Refusal;
use crate::render::Draft;
use crate::steps::{Running, State, MOST_IDS};
use crate::{both, burst, parse, sheet};

#[derive(Clone, Copy, Debug, PartialEq, Eq)]
pub struct Answer<const N: usize> {
    pub number: u32,
    pub values: [u64; N],
}

/// What an export gave: its answer, and whether it wrote beside its values.
#[derive(Clone, Copy, Debug)]
pub struct Given<const N: usize> {
    pub answer: Answer<N>,
    pub strayed: bool,
}

impl<const N: usize> Answer<N> {
    /// Success: place 0, then these values, then zeros.
    fn success(told: &[usize]) -> Self {
        let mut values = [0; N];
        for (value, number) in values[1..].iter_mut().zip(told) {
            *value = *number as u64;
        }
        Answer { number: 0, values }
    }

    /// A refusal: its place, and zero in every other value.
    fn refused(refusal: Refusal) -> Self {
        let mut values = [0; N];
        values[0] = refusal.place as u64;
        Answer { number: refusal.number, values }
    }
}

pub fn header(bytes: &[u8]) -> Answer<10> {
    match parse::read_header(bytes) {
        Ok(header) => Answer::success(&[
            header.option_words,
            header.flags as usize,
            header.message_id as usize,
            header.sequence as usize,
            header.length,
            header.seconds as usize,
            header.nanoseconds as usize,
            parse::HEADER_BYTES,
            header.option_run.len(),
        ]),
        Err(refusal) => Answer::refused(refusal),
    }
}

pub fn package(run: &[u8], at: usize) -> Answer<9> {
    match parse::package_step(run, at) {
        Ok(Some(package)) => Answer::success(&[
            1,
            package.id as usize,
            package.length(),
            package.status as usize,
            package.delta as usize,
            at + parse::PACKAGE_HEADER_BYTES,
            package.data.len(),
            at + package.padded(),
        ]),
        Ok(None) => Answer::success(&[0, 0, 0, 0, 0, 0, 0, at]),
        Err(refusal) => {
            // Only a walk comes back as it was handed in.
            let mut answer = Answer::refused(refusal);
            answer.values[8] = at as u64;
            answer
        }
    }
}

pub fn check(recording: &[u8]) -> Answer<3> {
    match both::check(recording) {
        Ok((messages, packages)) => Answer::success(&[messages, packages]),
        Err(refusal) => Answer::refused(refusal),
    }
}

pub fn write(draft: &Draft, out: &mut [u8]) -> Answer<2> {
    match both::write(draft, out) {
        Ok(bytes) => Answer::success(&[bytes]),
        Err(refusal) => Answer::refused(refusal),
    }
}

pub fn clean(bytes: &[u8], out: &mut [u8]) -> Answer<2> {
    match both::clean(bytes, out) {
        Ok(bytes) => Answer::success(&[bytes]),
        Err(refusal) => Answer::refused(refusal),
    }
}

pub fn sheet(bytes: &[u8]) -> Answer<290> {
    match sheet::read_sheet(bytes) {
        Ok(rows) => {
            let mut told = vec![rows.len()];
            for row in &rows {
                let fields = [
                    row.message_first,
                    row.message_last,
                    row.package_first,
                    row.package_last,
                    row.start_seconds,
                    row.start_nanoseconds,
                    row.end_seconds,
                    row.end_nanoseconds,
                    row.acquired_only.into(),
                ];
                told.extend(fields.map(|field| field as usize));
            }
            Answer::success(&told)
        }
        Err(refusal) => Answer::refused(refusal),
    }
}

fn copied(outcome: Result<Copied, Refusal>) -> Answer<4> {
    match outcome {
        Ok(copied) => Answer::success(&[copied.bytes, copied.messages, copied.packages]),
        Err(refusal) => Answer::refused(refusal),
    }
}

pub fn copy_measure(recording: &[u8], sheet: &[u8]) -> Answer<4> {
    copied(both::copy_measure(recording, sheet))
}

pub fn copy_write(recording: &[u8], sheet: &[u8], out: &mut [u8]) -> Answer<4> {
    copied(both::copy_write(recording, sheet, out))
}

pub fn purge(buffer: &mut [u8], sheet: &[u8]) -> Answer<2> {
    match both::purge(buffer, sheet) {
        Ok(bytes) => Answer::success(&[bytes]),
        Err(refusal) => Answer::refused(refusal),
    }
}

pub fn randomize(buffer: &mut [u8]) -> Answer<1> {
    match burst::randomize(buffer) {
        Ok(()) => Answer::success(&[]),
        Err(refusal) => Answer::refused(refusal),
    }
}

pub fn open_burst(buffer: &mut [u8]) -> Answer<2> {
    match burst::open_burst(buffer) {
        Ok(codeblocks) => Answer::success(&[codeblocks]),
        Err(refusal) => Answer::refused(refusal),
    }
}

pub fn read_ids(line: &[u8]) -> Answer<66> {
    match both::read_ids(line) {
        Ok(ranges) => {
            let ends = ranges.iter().flat_map(|range| [range.first as usize, range.last as usize]);
            let told: Vec<usize> = [ranges.len()].into_iter().chain(ends).collect();
            Answer::success(&told)
        }
        Err(refusal) => Answer::refused(refusal),
    }
}

/// The first `count` of these ranges are written. The 33rd is refused, whatever
/// it may be.
pub fn write_ids(ranges: &[IdRange; MOST_RANGES], count: usize, out: &mut [u8]) -> Answer<2> {
    let mut counted: Vec<IdRange> = ranges.iter().take(count).copied().collect();
    if count > MOST_RANGES {
        counted.push(IdRange::default());
    }
    match both::write_ids(&counted, out) {
        Ok(bytes) => Answer::success(&[bytes]),
        Err(refusal) => Answer::refused(refusal),
    }
}

/// The state in its words: how many ids are held, 64 ids, and the next number of
/// each. Of more than 64 ids the 65th is no other than the first.
fn state_in(words: &[u32]) -> State {
    let held = (words[0] as usize).min(MOST_IDS + 1);
    let running = |at: usize| Running {
        message_id: words[1 + at % MOST_IDS],
        next: words[1 + MOST_IDS + at % MOST_IDS],
    };
    (0..held).map(running).collect()
}

/// One step; the state is lent as the bytes of its words, and those behind the ids
/// held stay.
pub fn step(
    input: &[u8],
    sheet: &[u8],
    quota: usize,
    state: &mut [u8],
    out: &mut [u8],
) -> Answer<6> {
    let four_bytes = state.as_chunks_mut().0;
    let words: Vec<u32> = four_bytes.iter().map(|four| u32::from_ne_bytes(*four)).collect();
    let mut after = state_in(&words);
    match both::step(&mut after, input, sheet, quota, out) {
        Ok(done) => {
            four_bytes[0] = (after.len() as u32).to_ne_bytes();
            for (at, running) in after.iter().enumerate() {
                four_bytes[1 + at] = running.message_id.to_ne_bytes();
                four_bytes[1 + MOST_IDS + at] = running.next.to_ne_bytes();
            }
            Answer::success(&[
                done.handled,
                done.consumed,
                done.bytes,
                done.messages,
                done.packages,
            ])
        }
        Err(refusal) => Answer::refused(refusal),
    }
}

pub fn salvage(input: &[u8], out: &mut [u8]) -> Answer<132> {
    match both::salvage(input, out) {
        Ok(salvaged) => {
            let stretches = salvaged.stretches;
            let mut told = vec![salvaged.bytes, salvaged.messages, stretches.len()];
            told.extend(stretches.iter().flat_map(|stretch| [stretch.start, stretch.length]));
            Answer::success(&told)
        }
        Err(refusal) => Answer::refused(refusal),
    }
}

pub fn read_capture(file: &[u8], port: u16, out: &mut [u8]) -> Answer<6> {
    match both::read_capture(file, port, out) {
        Ok(told) => {
            Answer::success(&[told.bytes, told.kept, told.not_for_us, told.cut_short, told.bad])
        }
        Err(refusal) => Answer::refused(refusal),
    }
}

pub fn write_capture(recording: &[u8], port: u16, out: &mut [u8]) -> Answer<3> {
    match both::write_capture(recording, port, out) {
        Ok(written) => Answer::success(&[written.bytes, written.messages]),
        Err(refusal) => Answer::refused(refusal),
    }
}

pub fn cut(message: &[u8], size: usize, out: &mut [u8]) -> Answer<3> {
    match both::cut(message, size, out) {
        Ok(cut) => Answer::success(&[cut.bytes, cut.fragments]),
        Err(refusal) => Answer::refused(refusal),
    }
}

pub fn join(fragments: &[u8], out: &mut [u8]) -> Answer<2> {
    match both::join(fragments, out) {
        Ok(bytes) => Answer::success(&[bytes]),
        Err(refusal) => Answer::refused(refusal),
    }
}

pub fn read_radio(bytes: &[u8]) -> Answer<5> {
    match both::read_radio(bytes) {
        Ok(message) => Answer::success(&[
            message.destination.into(),
            message.source.into(),
            message.sequence as usize,
            message.tlvs.len(),
        ]),
        Err(refusal) => Answer::refused(refusal),
    }
}

pub fn radio_tlv(message: &[u8], at: usize) -> Answer<14> {
    match radio::tlv_step(message, at) {
        Ok(Some(tlv)) => {
            let mut told = vec![tlv.kind().into(), at + tlv.length()];
            told.extend(tlv.told().iter().map(|field| *field as usize));
            Answer::success(&told)
        }
        Ok(None) => Answer::success(&[0, at]),
        Err(refusal) => {
            // As with every walk, the place comes back as it was handed in.
            let mut answer = Answer::refused(refusal);
            answer.values[2] = at as u64;
            answer
        }
    }
}

pub fn put_radio_tlv(
    kind: u32,
    fields: &[u64; MOST_FIELDS],
    out: &mut [u8],
    at: usize,
) -> Answer<2> {
    match radio::put_tlv(kind, fields, out, at) {
        Ok(bytes) => Answer::success(&[bytes]),
        Err(refusal) => Answer::refused(refusal),
    }
}

pub fn write_radio(header: (u16, u16, u32), run: &[u8], out: &mut [u8]) -> Answer<2> {
    match both::write_run(header, run, out) {
        Ok(bytes) => Answer::success(&[bytes]),
        Err(refusal) => Answer::refused(refusal),
    }
}

/// The row of a link metric; there is no place. The values are the bits of its four
/// doubles, then what RSSI, CINR and error rate are.
pub fn link_row(frequency: u16, rssi: i8, cinr: i8, error_rate: u8) -> Answer<7> {
    let metric = LinkMetric { seconds: 0, microseconds: 0, frequency, rssi, cinr, error_rate };
    let row = radio::plot_row(&metric);
    let mut values = [0; 7];
    values[0] = row.megahertz.to_bits();
    for (index, measured) in [row.rssi, row.cinr, row.error_rate].into_iter().enumerate() {
        (values[4 + index], values[1 + index]) = match measured {
            Measured::Missing => (0, 0.0_f64.to_bits()),
            Measured::Level(level) => (1, level.to_bits()),
            Measured::Rate(rate) => (2, rate.to_bits()),
        };
    }
    Answer { number: 0, values }
}
