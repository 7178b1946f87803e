//! Captures, read and written.

use crate::scenes::*;
use crate::timing::*;
use crate::Settings;
use second::exports::raw;
use second::{capture, quick};
use std::hint::black_box;

/// The port of the captures.
const PORT: u16 = 5_555;

pub fn captures(settings: &Settings) {
    heading("captures; bytes are those of the file", "ns", "memcpy");
    for shape in SHAPES {
        for size in SIZES {
            show(&time_read_capture(shape, size, settings.repetitions));
        }
        for size in SIZES {
            show(&time_write_capture(shape, size, settings.repetitions));
        }
    }
}

/// A recording and its capture of at most `size` bytes.
fn captured(shape: Shape, size: usize) -> (Vec<u8>, Vec<u8>) {
    let mut goal = size;
    loop {
        let recording = recording(shape, Kind::OneId, goal);
        let mut file = vec![0; 4 * size];
        let written = capture::write_capture(&recording, PORT, &mut file);
        file.truncate(written.expect("the recording is good").bytes);
        if file.len() <= size {
            return (recording, file);
        }
        goal = goal * size / file.len();
    }
}

/// Times reading a capture in which every packet is kept.
fn time_read_capture(shape: Shape, size: usize, repetitions: usize) -> Line {
    let (recording, file) = captured(shape, size);
    let length = file.len();
    let mut outs = [(); 4].map(|()| vec![0; length]);
    let [export_out, second_out, quick_out, target] = &mut outs;
    let mut export = || {
        let (bytes, mut values) = (black_box(&file), [0; 6]);
        // The pointers and the lengths are those of the file and the buffer.
        let number = unsafe {
            raw::hibernaxo_read_capture(
                bytes.as_ptr(),
                length,
                PORT,
                export_out.as_mut_ptr(),
                length,
                values.as_mut_ptr(),
            )
        };
        assert_eq!((number, black_box(values)[1]), (0, recording.len() as u64));
        black_box(&mut *export_out);
    };
    let mut second = || good(capture::read_capture(black_box(&file), PORT, second_out), second_out);
    let mut quick =
        || good(quick::capture::read_capture(black_box(&file), PORT, quick_out), quick_out);
    let mut plain = || memcpy(&recording, target);
    let medians = medians(repetitions, [&mut export, &mut second, &mut quick, &mut plain]);
    ask_equal(&outs);
    Line { name: format!("read capture, {}", shape.name()), bytes: length, medians }
}

/// Times writing a capture.
fn time_write_capture(shape: Shape, size: usize, repetitions: usize) -> Line {
    let (recording, file) = captured(shape, size);
    let length = file.len();
    let mut outs = [(); 4].map(|()| vec![0; length]);
    let [export_out, second_out, quick_out, target] = &mut outs;
    let mut export = || {
        let (bytes, mut values) = (black_box(&recording), [0; 3]);
        // The pointers and the lengths are those of the recording and the buffer.
        let number = unsafe {
            raw::hibernaxo_write_capture(
                bytes.as_ptr(),
                bytes.len(),
                PORT,
                export_out.as_mut_ptr(),
                length,
                values.as_mut_ptr(),
            )
        };
        assert_eq!((number, black_box(values)[1]), (0, length as u64));
        black_box(&mut *export_out);
    };
    let mut second =
        || good(capture::write_capture(black_box(&recording), PORT, second_out), second_out);
    let mut quick =
        || good(quick::capture::write_capture(black_box(&recording), PORT, quick_out), quick_out);
    let mut plain = || memcpy(&file, target);
    let medians = medians(repetitions, [&mut export, &mut second, &mut quick, &mut plain]);
    ask_equal(&outs);
    assert!(outs[0] == file, "the file differs");
    Line { name: format!("write capture, {}", shape.name()), bytes: length, medians }
}
