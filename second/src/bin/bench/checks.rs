//! Checking a recording, and cleaning one message.

use crate::scenes::*;
use crate::timing::*;
use crate::Settings;
use second::exports::raw;
use second::{parse, quick, render};
use std::hint::black_box;

pub fn checks(settings: &Settings) {
    heading("checking a recording", "ns", "memcpy");
    for shape in SHAPES {
        for size in SIZES {
            show(&time_check(shape, size, settings.repetitions));
        }
    }
}

pub fn cleaning(settings: &Settings) {
    heading("cleaning one message", "ns", "memcpy");
    for shape in SHAPES {
        for size in SIZES {
            show(&time_clean(shape, size, settings.repetitions));
        }
    }
}

fn time_check(shape: Shape, size: usize, repetitions: usize) -> Line {
    let recording = recording(shape, Kind::OneId, size);
    let length = recording.len();
    let mut values = [0; 3];
    let mut target = vec![0; length];
    let mut export = || {
        let bytes = black_box(&recording);
        // The pointer and the length are those of the recording.
        let number = unsafe { raw::hibernaxo_check(bytes.as_ptr(), length, values.as_mut_ptr()) };
        assert_eq!(black_box(number), 0);
    };
    let mut second = || good(parse::check(black_box(&recording)), &mut []);
    let mut quick = || good(quick::parse::check(black_box(&recording)), &mut []);
    let mut plain = || memcpy(&recording, &mut target);
    let medians = medians(repetitions, [&mut export, &mut second, &mut quick, &mut plain]);
    let told = parse::check(&recording).map(|(messages, packages)| [0, messages, packages]);
    assert!(told == Ok(values.map(|value| value as usize)), "the ways differ");
    assert_eq!(parse::check(&recording), quick::parse::check(&recording));
    Line { name: format!("check, {}", shape.name()), bytes: length, medians }
}

fn time_clean(shape: Shape, size: usize, repetitions: usize) -> Line {
    let input = long_message(shape, size);
    let length = input.len();
    let mut values = [0; 2];
    let mut outs = [(); 4].map(|()| vec![0; length]);
    let [export_out, second_out, quick_out, target] = &mut outs;
    let mut export = || {
        let bytes = black_box(&input);
        // The pointers and the lengths are those of the input and the buffer.
        let number = unsafe {
            raw::hibernaxo_clean(
                bytes.as_ptr(),
                length,
                export_out.as_mut_ptr(),
                length,
                values.as_mut_ptr(),
            )
        };
        assert_eq!(black_box(number), 0);
        black_box(&mut *export_out);
    };
    let mut second = || good(render::clean(black_box(&input), second_out), second_out);
    let mut quick = || good(quick::render::clean(black_box(&input), quick_out), quick_out);
    let mut plain = || memcpy(&input, target);
    let medians = medians(repetitions, [&mut export, &mut second, &mut quick, &mut plain]);
    ask_equal(&outs);
    Line { name: format!("clean, {}", shape.name()), bytes: length, medians }
}
