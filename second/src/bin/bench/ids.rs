//! Ids as a line of text, read and written.

use crate::timing::*;
use crate::Settings;
use second::answers::{self, Answer};
use second::dice::Dice;
use second::exports::raw;
use second::ids::{self, IdRange, MOST_RANGES};
use second::quick;
use std::hint::black_box;

/// A line has so many ranges.
const RANGES: [usize; 3] = [1, 8, 32];
/// The longest line: 32 ranges of two ids with 10 digits, and the commas.
const LONGEST: usize = MOST_RANGES * 22 - 1;

pub fn ids(settings: &Settings) {
    heading("ids as a line of text", "ns", "memcpy");
    for count in RANGES {
        show(&time_read_ids(count, settings.repetitions));
    }
    for count in RANGES {
        show(&time_write_ids(count, settings.repetitions));
    }
}

/// So many ranges, every third of them one id alone, of ids of all sizes.
fn ranges_of(count: usize) -> [IdRange; MOST_RANGES] {
    let dice = &mut Dice::new(12, count as u64);
    let mut ranges = [IdRange::default(); MOST_RANGES];
    for (at, range) in ranges.iter_mut().take(count).enumerate() {
        let first = dice.word() >> dice.below(32);
        let more = if at % 3 == 2 { 0 } else { dice.within(1, 1_000) as u32 };
        *range = IdRange { first, last: first.saturating_add(more) };
    }
    ranges
}

/// The line of so many ranges, by the second program.
fn line_of(count: usize) -> Vec<u8> {
    let mut line = vec![0; LONGEST];
    let written = answers::write_ids(&ranges_of(count), count, &mut line);
    assert_eq!(written.number, 0);
    line.truncate(written.values[1] as usize);
    line
}

fn name_of(what: &str, count: usize) -> String {
    let plural = if count == 1 { "" } else { "s" };
    format!("{what}, {count} range{plural}")
}

fn time_read_ids(count: usize, repetitions: usize) -> Line {
    let line = line_of(count);
    let mut target = vec![0; line.len()];
    // The values are lent, as buffers are, and not cleared between.
    let read = |line: &[u8], values: &mut [u64; 66]| {
        // The pointers are those of the line, whose length this is, and of 66 values.
        unsafe { raw::hibernaxo_read_ids(line.as_ptr(), line.len(), values.as_mut_ptr()) }
    };
    let mut values = [0; 66];
    let number = read(&line, &mut values);
    assert_eq!(Answer { number, values }, answers::read_ids(&line));
    assert_eq!(values[1], count as u64);
    let mut export = || {
        black_box(read(black_box(&line), black_box(&mut values)));
    };
    let mut second = || good(ids::read_ids(black_box(&line)), &mut []);
    let mut quick = || good(quick::ids::read_ids(black_box(&line)), &mut []);
    let mut plain = || memcpy(&line, &mut target);
    let medians = medians(repetitions, [&mut export, &mut second, &mut quick, &mut plain]);
    Line { name: name_of("read ids", count), bytes: line.len(), medians }
}

fn time_write_ids(count: usize, repetitions: usize) -> Line {
    let (all, line) = (ranges_of(count), line_of(count));
    let ranges = &all[..count];
    let ends: Vec<u32> = all.iter().flat_map(|range| [range.first, range.last]).collect();
    let mut outs = [(); 4].map(|()| vec![0; line.len()]);
    let [export_out, second_out, quick_out, target] = &mut outs;
    let write = |ends: &[u32], out: &mut [u8]| {
        let mut values = [0; 2];
        // The pointers are those of 64 ends and of the buffer, whose length this is.
        let number = unsafe {
            raw::hibernaxo_write_ids(
                ends.as_ptr(),
                count,
                out.as_mut_ptr(),
                out.len(),
                values.as_mut_ptr(),
            )
        };
        Answer { number, values }
    };
    assert_eq!(write(&ends, export_out), Answer { number: 0, values: [0, line.len() as u64] });
    assert!(*export_out == line, "the two lines differ");
    let mut export = || {
        black_box(write(black_box(&ends), black_box(export_out)));
    };
    let mut second = || good(ids::write_ids(black_box(ranges), second_out), second_out);
    let mut quick = || good(quick::ids::write_ids(black_box(ranges), quick_out), quick_out);
    let mut plain = || memcpy(&line, target);
    let medians = medians(repetitions, [&mut export, &mut second, &mut quick, &mut plain]);
    ask_equal(&outs);
    Line { name: name_of("write ids", count), bytes: line.len(), medians }
}
