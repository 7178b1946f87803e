//! Bursts, beside a bytewise loop over the table too.

use crate::timing::*;
use crate::Settings;
use second::answers::{self, Answer};
use second::burst::{CODEBLOCK_BYTES, MARKER_BYTES, PERIOD, SEQUENCE};
use second::dice::Dice;
use second::exports::raw;
use std::hint::black_box;

const CODEBLOCKS: [usize; 4] = [1, 5, 21, 80];

/// The medians of randomizing the same bytes, in nanoseconds: the export, a
/// bytewise loop over the table, the second program, the plain copy.
struct BurstLine {
    name: String,
    bytes: usize,
    medians: [f64; 4],
}

pub fn bursts(settings: &Settings) {
    println!("\nbursts beside a bytewise loop over the table");
    println!(
        "{:<28}{:>7}{:>11}{:>13}{:>11}{:>11}{:>17}{:>15}{:>15}",
        "",
        "bytes",
        "export ns",
        "bytewise ns",
        "second ns",
        "memcpy ns",
        "export/bytewise",
        "export/second",
        "export/memcpy"
    );
    for codeblocks in CODEBLOCKS {
        show_burst(&time_open_burst(codeblocks, settings.repetitions));
    }
    for codeblocks in CODEBLOCKS {
        show_burst(&time_randomize(codeblocks, settings.repetitions));
    }
}

fn show_burst(line: &BurstLine) {
    let [export, bytewise, second, memcpy] = line.medians;
    println!(
        "{:<28}{:>7}{export:>11.0}{bytewise:>13.0}{second:>11.0}{memcpy:>11.0}{:>17.3}{:>15.2}{:>15.2}",
        line.name,
        line.bytes,
        export / bytewise,
        export / second,
        export / memcpy
    );
}

/// Exclusive-ors byte k with byte k of the table's repetition, one by one.
fn bytewise(bytes: &mut [u8]) {
    for (k, byte) in bytes.iter_mut().enumerate() {
        *byte ^= SEQUENCE[k % PERIOD];
    }
}

/// A burst of so many codeblocks.
fn burst_of(codeblocks: usize) -> Vec<u8> {
    let mut burst = MARKER_BYTES.to_vec();
    burst.extend(Dice::new(9, codeblocks as u64).bytes(CODEBLOCK_BYTES * codeblocks));
    burst
}

fn burst_name(what: &str, codeblocks: usize) -> String {
    let plural = if codeblocks == 1 { "" } else { "s" };
    format!("{what}, {codeblocks} codeblock{plural}")
}

/// Times opening a burst; the bytewise loop gets its codeblocks and checks nothing.
fn time_open_burst(codeblocks: usize, repetitions: usize) -> BurstLine {
    let export = |bytes: &mut [u8], told: Told<2>| {
        let mut answer = Answer { number: 0, values: [0; 2] };
        let values = answer.values.as_mut_ptr();
        // The pointer and the length are those of the burst.
        answer.number =
            unsafe { raw::hibernaxo_open_burst(bytes.as_mut_ptr(), bytes.len(), values) };
        told(&answer);
    };
    let good = Answer { number: 0, values: [0, codeblocks as u64] };
    let bytewise = |bytes: &mut [u8], told: Told<2>| {
        bytewise(&mut bytes[MARKER_BYTES.len()..]);
        told(&good);
    };
    let second = |bytes: &mut [u8], told: Told<2>| told(&answers::open_burst(bytes));
    let ways: [Randomizing<2>; 3] = [&export, &bytewise, &second];
    let name = burst_name("open burst", codeblocks);
    time_burst(name, &burst_of(codeblocks), good, ways, repetitions)
}

/// Times randomizing the bytes of so many codeblocks.
fn time_randomize(codeblocks: usize, repetitions: usize) -> BurstLine {
    let export = |bytes: &mut [u8], told: Told<1>| {
        let mut answer = Answer { number: 0, values: [0; 1] };
        let values = answer.values.as_mut_ptr();
        // The pointer and the length are those of the buffer.
        answer.number =
            unsafe { raw::hibernaxo_randomize(bytes.as_mut_ptr(), bytes.len(), values) };
        told(&answer);
    };
    let good = Answer { number: 0, values: [0] };
    let bytewise = |bytes: &mut [u8], told: Told<1>| {
        bytewise(bytes);
        told(&good);
    };
    let second = |bytes: &mut [u8], told: Told<1>| told(&answers::randomize(bytes));
    let ways: [Randomizing<1>; 3] = [&export, &bytewise, &second];
    let name = burst_name("randomize", codeblocks);
    let bytes = &burst_of(codeblocks)[MARKER_BYTES.len()..];
    time_burst(name, bytes, good, ways, repetitions)
}

/// The bytes of a memory page. A store that lies across two pages takes longer.
const PAGE: usize = 4096;

/// Puts these bytes at the start of a page, so that no way has a better place.
fn at_page<'a>(room: &'a mut [u8], bytes: &[u8]) -> &'a mut [u8] {
    let start = room.as_ptr().align_offset(PAGE);
    let out = &mut room[start..start + bytes.len()];
    out.copy_from_slice(bytes);
    out
}

/// Where a way shows its answer.
type Told<'a, const N: usize> = &'a mut dyn FnMut(&Answer<N>);

/// A way to randomize the bytes of a buffer. It shows its answer, in the export's
/// form, where it stands: to hand it on would be to read values in pairs that were
/// just stored one by one, for which a processor may wait longer than for a period.
type Randomizing<'a, const N: usize> = &'a dyn Fn(&mut [u8], Told<N>);

/// Times three ways to randomize the same bytes, and the plain copy. Twice gives
/// the bytes back, so a buffer is randomized again and again. Each way shows its
/// answer while it is timed; what it did and said is compared before.
fn time_burst<const N: usize>(
    name: String,
    bytes: &[u8],
    good: Answer<N>,
    ways: [Randomizing<N>; 3],
    repetitions: usize,
) -> BurstLine {
    let mut rooms = [(); 3].map(|()| vec![0; bytes.len() + PAGE]);
    let mut outs = rooms.each_mut().map(|room| at_page(room, bytes));
    for turn in 0..2 {
        for (way, out) in ways.iter().zip(&mut outs) {
            let mut answers = 0;
            way(out, &mut |answer| {
                assert_eq!(*answer, good);
                answers += 1;
            });
            assert_eq!(answers, 1);
        }
        assert!(outs[0] == outs[1] && outs[0] == outs[2], "the ways differ");
        assert!((*outs[0] == *bytes) == (turn == 1), "twice does not give the bytes back");
    }
    let [export_out, bytewise_out, second_out] = &mut outs;
    let randomize = |way: usize, out: &mut [u8]| {
        ways[way](black_box(out), &mut |answer| {
            black_box(answer);
        });
    };
    let mut export = || randomize(0, export_out);
    let mut bytewise = || randomize(1, bytewise_out);
    let mut second = || randomize(2, second_out);
    let mut target = vec![0; bytes.len()];
    let mut plain = || memcpy(bytes, &mut target);
    let medians = medians(repetitions, [&mut export, &mut bytewise, &mut second, &mut plain]);
    BurstLine { name, bytes: bytes.len(), medians }
}
