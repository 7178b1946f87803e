//! The library's exports and safe wrappers for them.
//!
//! A wrapper takes every slice as one that may be written, so that a library
//! that writes to its input is caught and not undefined. The values are filled
//! with junk before a call, and stand between two words that must stay; so do
//! words that are lent.

use crate::answers::{Answer, Given};
use crate::radio::MOST_FIELDS;
use crate::render::Draft;

/// The functions as the library hands them out.
pub mod raw {
    extern "C" {
        pub fn hibernaxo_header(bytes: *const u8, len: usize, values: *mut u64) -> u32;
        pub fn hibernaxo_package(run: *const u8, len: usize, at: usize, values: *mut u64) -> u32;
        pub fn hibernaxo_check(recording: *const u8, len: usize, values: *mut u64) -> u32;
        pub fn hibernaxo_write(
            flags: u8,
            message_id: u32,
            sequence: u32,
            seconds: u32,
            nanoseconds: u32,
            options: *const u8,
            options_len: usize,
            packages: *const u8,
            packages_len: usize,
            out: *mut u8,
            out_len: usize,
            values: *mut u64,
        ) -> u32;
        pub fn hibernaxo_clean(
            bytes: *const u8,
            len: usize,
            out: *mut u8,
            out_len: usize,
            values: *mut u64,
        ) -> u32;
        pub fn hibernaxo_sheet(sheet: *const u8, len: usize, values: *mut u64) -> u32;
        pub fn hibernaxo_copy_measure(
            recording: *const u8,
            recording_len: usize,
            sheet: *const u8,
            sheet_len: usize,
            values: *mut u64,
        ) -> u32;
        pub fn hibernaxo_copy_write(
            recording: *const u8,
            recording_len: usize,
            sheet: *const u8,
            sheet_len: usize,
            out: *mut u8,
            out_len: usize,
            values: *mut u64,
        ) -> u32;
        pub fn hibernaxo_purge(
            buffer: *mut u8,
            buffer_len: usize,
            sheet: *const u8,
            sheet_len: usize,
            values: *mut u64,
        ) -> u32;
        pub fn hibernaxo_randomize(buf: *mut u8, len: usize, values: *mut u64) -> u32;
        pub fn hibernaxo_open_burst(buf: *mut u8, len: usize, values: *mut u64) -> u32;
        pub fn hibernaxo_read_ids(line: *const u8, len: usize, values: *mut u64) -> u32;
        pub fn hibernaxo_write_ids(
            ends: *const u32,
            count: usize,
            out: *mut u8,
            out_len: usize,
            values: *mut u64,
        ) -> u32;
        pub fn hibernaxo_step(
            input: *const u8,
            len: usize,
            sheet: *const u8,
            sheet_len: usize,
            quota: usize,
            state: *mut u32,
            out: *mut u8,
            out_len: usize,
            values: *mut u64,
        ) -> u32;
        pub fn hibernaxo_salvage(
            input: *const u8,
            len: usize,
            out: *mut u8,
            out_len: usize,
            values: *mut u64,
        ) -> u32;
        pub fn hibernaxo_read_capture(
            file: *const u8,
            len: usize,
            port: u16,
            out: *mut u8,
            out_len: usize,
            values: *mut u64,
        ) -> u32;
        pub fn hibernaxo_write_capture(
            recording: *const u8,
            len: usize,
            port: u16,
            out: *mut u8,
            out_len: usize,
            values: *mut u64,
        ) -> u32;
        pub fn hibernaxo_cut(
            message: *const u8,
            len: usize,
            size: usize,
            out: *mut u8,
            out_len: usize,
            values: *mut u64,
        ) -> u32;
        pub fn hibernaxo_join(
            fragments: *const u8,
            len: usize,
            out: *mut u8,
            out_len: usize,
            values: *mut u64,
        ) -> u32;
        pub fn hibernaxo_read_radio(bytes: *const u8, len: usize, values: *mut u64) -> u32;
        pub fn hibernaxo_radio_tlv(
            bytes: *const u8,
            len: usize,
            at: usize,
            values: *mut u64,
        ) -> u32;
        pub fn hibernaxo_put_radio_tlv(
            kind: u32,
            fields: *const u64,
            out: *mut u8,
            out_len: usize,
            at: usize,
            values: *mut u64,
        ) -> u32;
        pub fn hibernaxo_write_radio(
            destination: u16,
            source: u16,
            sequence: u32,
            run: *const u8,
            run_len: usize,
            out: *mut u8,
            out_len: usize,
            values: *mut u64,
        ) -> u32;
        pub fn hibernaxo_link_row(
            frequency: u16,
            rssi: i8,
            cinr: i8,
            errors: u8,
            kinds: *mut u8,
            values: *mut f64,
        );
    }
}

const JUNK: u64 = 0xA5C3_5A3C_0FF0_9669;

#[repr(C)]
struct Values<const N: usize> {
    before: u64,
    values: [u64; N],
    behind: u64,
}

fn call<const N: usize>(export: impl FnOnce(*mut u64) -> u32) -> Given<N> {
    let mut values = Values { before: JUNK, values: [JUNK; N], behind: JUNK };
    // The pointer reaches over the whole struct, so that a stray word is seen.
    let whole: *mut Values<N> = &mut values;
    let first = whole.cast::<u64>().wrapping_add(1);
    let number = export(first);
    Given {
        answer: Answer { number, values: values.values },
        strayed: values.before != JUNK || values.behind != JUNK,
    }
}

#[repr(C)]
struct Words<const N: usize> {
    before: u32,
    words: [u32; N],
    behind: u32,
}

/// Lends these bytes as words, which have another alignment.
fn with_words<const W: usize, const N: usize>(
    bytes: &mut [u8],
    export: impl FnOnce(*mut u32) -> Given<N>,
) -> Given<N> {
    let junk = JUNK as u32;
    let mut words = Words { before: junk, words: [junk; W], behind: junk };
    for (word, four) in words.words.iter_mut().zip(bytes.as_chunks().0) {
        *word = u32::from_ne_bytes(*four);
    }
    let whole: *mut Words<W> = &mut words;
    let mut given = export(whole.cast::<u32>().wrapping_add(1));
    for (word, four) in words.words.iter().zip(bytes.as_chunks_mut().0) {
        *four = word.to_ne_bytes();
    }
    given.strayed |= words.before != junk || words.behind != junk;
    given
}

// In each call below the pointers and lengths are those of a live slice, and
// the values have the length that the export asks for.

pub fn header(bytes: &mut [u8]) -> Given<10> {
    call(|values| unsafe { raw::hibernaxo_header(bytes.as_mut_ptr(), bytes.len(), values) })
}

pub fn package(run: &mut [u8], at: usize) -> Given<9> {
    call(|values| unsafe { raw::hibernaxo_package(run.as_mut_ptr(), run.len(), at, values) })
}

pub fn check(recording: &mut [u8]) -> Given<3> {
    call(|values| unsafe { raw::hibernaxo_check(recording.as_mut_ptr(), recording.len(), values) })
}

/// The draft gives the numbers; its two runs come in as slices of their own.
pub fn write(draft: &Draft, options: &mut [u8], packages: &mut [u8], out: &mut [u8]) -> Given<2> {
    call(|values| unsafe {
        raw::hibernaxo_write(
            draft.flags,
            draft.message_id,
            draft.sequence,
            draft.seconds,
            draft.nanoseconds,
            options.as_mut_ptr(),
            options.len(),
            packages.as_mut_ptr(),
            packages.len(),
            out.as_mut_ptr(),
            out.len(),
            values,
        )
    })
}

pub fn clean(bytes: &mut [u8], out: &mut [u8]) -> Given<2> {
    call(|values| unsafe {
        raw::hibernaxo_clean(bytes.as_mut_ptr(), bytes.len(), out.as_mut_ptr(), out.len(), values)
    })
}

pub fn sheet(sheet: &mut [u8]) -> Given<290> {
    call(|values| unsafe { raw::hibernaxo_sheet(sheet.as_mut_ptr(), sheet.len(), values) })
}

pub fn copy_measure(recording: &mut [u8], sheet: &mut [u8]) -> Given<4> {
    call(|values| unsafe {
        raw::hibernaxo_copy_measure(
            recording.as_mut_ptr(),
            recording.len(),
            sheet.as_mut_ptr(),
            sheet.len(),
            values,
        )
    })
}

pub fn copy_write(recording: &mut [u8], sheet: &mut [u8], out: &mut [u8]) -> Given<4> {
    call(|values| unsafe {
        raw::hibernaxo_copy_write(
            recording.as_mut_ptr(),
            recording.len(),
            sheet.as_mut_ptr(),
            sheet.len(),
            out.as_mut_ptr(),
            out.len(),
            values,
        )
    })
}

pub fn purge(buffer: &mut [u8], sheet: &mut [u8]) -> Given<2> {
    call(|values| unsafe {
        raw::hibernaxo_purge(
            buffer.as_mut_ptr(),
            buffer.len(),
            sheet.as_mut_ptr(),
            sheet.len(),
            values,
        )
    })
}

pub fn randomize(buffer: &mut [u8]) -> Given<1> {
    call(|values| unsafe { raw::hibernaxo_randomize(buffer.as_mut_ptr(), buffer.len(), values) })
}

pub fn open_burst(buffer: &mut [u8]) -> Given<2> {
    call(|values| unsafe { raw::hibernaxo_open_burst(buffer.as_mut_ptr(), buffer.len(), values) })
}

pub fn read_ids(line: &mut [u8]) -> Given<66> {
    call(|values| unsafe { raw::hibernaxo_read_ids(line.as_mut_ptr(), line.len(), values) })
}

/// The ends are 64 words, first and last of each range in turn.
pub fn write_ids(ends: &mut [u8], count: usize, out: &mut [u8]) -> Given<2> {
    with_words::<64, 2>(ends, |ends| {
        call(|values| unsafe {
            raw::hibernaxo_write_ids(ends, count, out.as_mut_ptr(), out.len(), values)
        })
    })
}

/// The state is 129 words: how many ids are held, 64 ids, and 64 next numbers.
pub fn step(
    input: &mut [u8],
    sheet: &mut [u8],
    quota: usize,
    state: &mut [u8],
    out: &mut [u8],
) -> Given<6> {
    with_words::<129, 6>(state, |state| {
        call(|values| unsafe {
            raw::hibernaxo_step(
                input.as_mut_ptr(),
                input.len(),
                sheet.as_mut_ptr(),
                sheet.len(),
                quota,
                state,
                out.as_mut_ptr(),
                out.len(),
                values,
            )
        })
    })
}

pub fn salvage(input: &mut [u8], out: &mut [u8]) -> Given<132> {
    call(|values| unsafe {
        raw::hibernaxo_salvage(input.as_mut_ptr(), input.len(), out.as_mut_ptr(), out.len(), values)
    })
}

pub fn read_capture(file: &mut [u8], port: u16, out: &mut [u8]) -> Given<6> {
    call(|values| unsafe {
        raw::hibernaxo_read_capture(
            file.as_mut_ptr(),
            file.len(),
            port,
            out.as_mut_ptr(),
            out.len(),
            values,
        )
    })
}

pub fn write_capture(recording: &mut [u8], port: u16, out: &mut [u8]) -> Given<3> {
    call(|values| unsafe {
        raw::hibernaxo_write_capture(
            recording.as_mut_ptr(),
            recording.len(),
            port,
            out.as_mut_ptr(),
            out.len(),
            values,
        )
    })
}

pub fn cut(message: &mut [u8], size: usize, out: &mut [u8]) -> Given<3> {
    call(|values| unsafe {
        raw::hibernaxo_cut(
            message.as_mut_ptr(),
            message.len(),
            size,
            out.as_mut_ptr(),
            out.len(),
            values,
        )
    })
}

pub fn join(fragments: &mut [u8], out: &mut [u8]) -> Given<2> {
    call(|values| unsafe {
        raw::hibernaxo_join(
            fragments.as_mut_ptr(),
            fragments.len(),
            out.as_mut_ptr(),
            out.len(),
            values,
        )
    })
}

pub fn read_radio(bytes: &mut [u8]) -> Given<5> {
    call(|values| unsafe { raw::hibernaxo_read_radio(bytes.as_mut_ptr(), bytes.len(), values) })
}

pub fn radio_tlv(message: &mut [u8], at: usize) -> Given<14> {
    call(|values| unsafe {
        raw::hibernaxo_radio_tlv(message.as_mut_ptr(), message.len(), at, values)
    })
}

/// The fields stand between two words, and all of them must stay.
pub fn put_radio_tlv(
    kind: u32,
    fields: &[u64; MOST_FIELDS],
    out: &mut [u8],
    at: usize,
) -> Given<2> {
    let mut lent = [JUNK; MOST_FIELDS + 2];
    lent[1..=MOST_FIELDS].copy_from_slice(fields);
    let before = lent;
    let first = lent.as_mut_ptr().wrapping_add(1);
    let mut given = call(|values| unsafe {
        raw::hibernaxo_put_radio_tlv(kind, first, out.as_mut_ptr(), out.len(), at, values)
    });
    given.strayed |= lent != before;
    given
}

pub fn write_radio(
    (destination, source, sequence): (u16, u16, u32),
    run: &mut [u8],
    out: &mut [u8],
) -> Given<2> {
    call(|values| unsafe {
        raw::hibernaxo_write_radio(
            destination,
            source,
            sequence,
            run.as_mut_ptr(),
            run.len(),
            out.as_mut_ptr(),
            out.len(),
            values,
        )
    })
}

/// The doubles are handed out as their bits; behind them stands what the readings are.
pub fn link_row(frequency: u16, rssi: i8, cinr: i8, errors: u8) -> Given<7> {
    let junk = JUNK as u8;
    let mut kinds = [junk; 5];
    let first = kinds.as_mut_ptr().wrapping_add(1);
    let row: Given<4> = call(|values| {
        let doubles = values.cast::<f64>();
        unsafe { raw::hibernaxo_link_row(frequency, rssi, cinr, errors, first, doubles) };
        0
    });
    let mut values = [0; 7];
    values[..4].copy_from_slice(&row.answer.values);
    values[4..].copy_from_slice(&[kinds[1], kinds[2], kinds[3]].map(u64::from));
    let strayed = row.strayed || kinds[0] != junk || kinds[4] != junk;
    Given { answer: Answer { number: 0, values }, strayed }
}
