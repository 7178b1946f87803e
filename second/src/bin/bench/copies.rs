//! Copies: written, and measured beside that.

use crate::scenes::*;
use crate::timing::*;
use crate::Settings;
use second::exports::raw;
use second::{copy, quick};
use std::hint::black_box;

/// The medians of measuring and of writing the same copy, in nanoseconds: by
/// the export, by the second program, by its quick form.
struct Beside {
    name: String,
    bytes: usize,
    measuring: [f64; 3],
    writing: [f64; 3],
}

/// Writing copies, and how the cost of a byte grows with them.
pub fn copies(settings: &Settings) {
    heading("writing a copy; half of the packages are granted", "ns", "memcpy");
    let mut copies = Vec::new();
    for shape in SHAPES {
        for kind in KINDS {
            let lines = SIZES.map(|size| time_copy_write(shape, kind, size, settings.repetitions));
            lines.iter().for_each(show);
            copies.push(lines);
        }
    }
    println!("\ncost per byte at 64 KiB over that at 4 KiB");
    println!("{:<44}{:>11}{:>11}{:>11}", "", "export", "second", "quick");
    for [least, _, most] in &copies {
        let [export, second, quick] = [0, 1, 2].map(|way| growth(least, most, way));
        println!("{:<44}{export:>11.2}{second:>11.2}{quick:>11.2}", least.name);
    }
}

pub fn measuring(settings: &Settings) {
    println!("\nmeasuring a copy beside writing it");
    println!(
        "{:<44}{:>7}{:>11}{:>11}{:>19}{:>19}{:>23}",
        "",
        "bytes",
        "measure ns",
        "write ns",
        "measuring/writing",
        "the second's own",
        "the quick form's own"
    );
    for shape in SHAPES {
        for kind in KINDS {
            for size in SIZES {
                show_beside(&time_beside(shape, kind, size, settings.repetitions));
            }
        }
    }
}

fn show_beside(beside: &Beside) {
    let ratio = |way: usize| beside.measuring[way] / beside.writing[way];
    println!(
        "{:<44}{:>7}{:>11.0}{:>11.0}{:>19.2}{:>19.2}{:>23.2}",
        beside.name,
        beside.bytes,
        beside.measuring[0],
        beside.writing[0],
        ratio(0),
        ratio(1),
        ratio(2)
    );
}

fn growth(least: &Line, most: &Line, way: usize) -> f64 {
    let per_byte = |line: &Line| line.medians[way] / line.bytes as f64;
    per_byte(most) / per_byte(least)
}

/// Writes the copy with the export; a buffer as long as the recording has room.
pub fn export_write(recording: &[u8], sheet: &[u8], out: &mut [u8]) -> [u64; 4] {
    let (recording, sheet, out) = (black_box(recording), black_box(sheet), black_box(out));
    let mut values = [0; 4];
    // The pointers and the lengths are those of the inputs and the buffer.
    let number = unsafe {
        raw::hibernaxo_copy_write(
            recording.as_ptr(),
            recording.len(),
            sheet.as_ptr(),
            sheet.len(),
            out.as_mut_ptr(),
            out.len(),
            values.as_mut_ptr(),
        )
    };
    assert_eq!(black_box(number), 0);
    black_box(out);
    black_box(values)
}

/// Measures the copy with the export.
fn export_measure(recording: &[u8], sheet: &[u8]) -> [u64; 4] {
    let (recording, sheet) = (black_box(recording), black_box(sheet));
    let mut values = [0; 4];
    // The pointers and the lengths are those of the inputs.
    let number = unsafe {
        raw::hibernaxo_copy_measure(
            recording.as_ptr(),
            recording.len(),
            sheet.as_ptr(),
            sheet.len(),
            values.as_mut_ptr(),
        )
    };
    assert_eq!(black_box(number), 0);
    black_box(values)
}

/// Writes the copy with the second program.
fn second_write(recording: &[u8], sheet: &[u8], out: &mut [u8]) {
    good(copy::write(black_box(recording), black_box(sheet), out), out);
}

/// And with its quick form.
fn quick_write(recording: &[u8], sheet: &[u8], out: &mut [u8]) {
    good(quick::copy::write(black_box(recording), black_box(sheet), out), out);
}

fn time_copy_write(shape: Shape, kind: Kind, size: usize, repetitions: usize) -> Line {
    let name = format!("copy write, {}, {}", shape.name(), kind.name());
    time_copy_of(name, &recording(shape, kind, size), &sheet(kind), repetitions)
}

pub fn time_copy_of(name: String, recording: &[u8], sheet: &[u8], repetitions: usize) -> Line {
    let length = recording.len();
    let mut outs = [(); 4].map(|()| vec![0; length]);
    let [export_out, second_out, quick_out, target] = &mut outs;
    let written = export_write(recording, sheet, export_out)[1] as usize;
    let mut export = || {
        export_write(recording, sheet, export_out);
    };
    let mut second = || second_write(recording, sheet, second_out);
    let mut quick = || quick_write(recording, sheet, quick_out);
    let mut plain = || memcpy(&recording[..written], target);
    let medians = medians(repetitions, [&mut export, &mut second, &mut quick, &mut plain]);
    ask_equal(&outs);
    Line { name, bytes: length, medians }
}

/// Times measuring and writing of one copy, by the export and by both forms of the second
/// program.
fn time_beside(shape: Shape, kind: Kind, size: usize, repetitions: usize) -> Beside {
    let recording = recording(shape, kind, size);
    let sheet = sheet(kind);
    let length = recording.len();
    let mut outs = [(); 3].map(|()| vec![0; length]);
    let [export_out, second_out, quick_out] = &mut outs;
    let measured = export_measure(&recording, &sheet);
    assert_eq!(measured, export_write(&recording, &sheet, export_out));
    let mut export_measuring = || {
        export_measure(&recording, &sheet);
    };
    let mut second_measuring =
        || good(copy::measure(black_box(&recording), black_box(&sheet)), &mut []);
    let mut quick_measuring =
        || good(quick::copy::measure(black_box(&recording), black_box(&sheet)), &mut []);
    let mut export_writing = || {
        export_write(&recording, &sheet, export_out);
    };
    let mut second_writing = || second_write(&recording, &sheet, second_out);
    let mut quick_writing = || quick_write(&recording, &sheet, quick_out);
    let [export, second, quick, writing @ ..] = medians(
        repetitions,
        [
            &mut export_measuring,
            &mut second_measuring,
            &mut quick_measuring,
            &mut export_writing,
            &mut second_writing,
            &mut quick_writing,
        ],
    );
    ask_equal(&outs);
    Beside {
        name: format!("{}, {}", shape.name(), kind.name()),
        bytes: length,
        measuring: [export, second, quick],
        writing,
    }
}
