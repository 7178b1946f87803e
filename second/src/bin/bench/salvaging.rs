//! Salvage, of a slow input too.

use crate::scenes::*;
use crate::timing::*;
use crate::Settings;
use second::blocks::slow;
use second::exports::raw;
use second::{quick, salvage};
use std::hint::black_box;

/// A slow salvage is timed at most so often.
const SLOW_REPETITIONS: usize = 9;

pub fn salvaging(settings: &Settings) {
    heading("salvage", "ns", "memcpy");
    for shape in SHAPES {
        for size in SIZES {
            let mut input = recording(shape, Kind::OneId, size);
            show(&time_salvage("whole", shape.name(), &input, settings.repetitions));
            input[0] = 0x20;
            show(&time_salvage("first message bad", shape.name(), &input, settings.repetitions));
        }
    }
    for size in SIZES {
        let few = settings.repetitions.min(SLOW_REPETITIONS);
        show(&time_salvage("slow", "nothing passes", &slow(size / 4), few));
    }
}

/// Times the salvage of an input.
fn time_salvage(what: &str, of: &str, input: &[u8], repetitions: usize) -> Line {
    let length = input.len();
    let mut values = [0; 132];
    let mut outs = [(); 4].map(|()| vec![0; length]);
    let [export_out, second_out, quick_out, target] = &mut outs;
    let mut export = || {
        let bytes = black_box(input);
        // The pointers and the lengths are those of the input and the buffer.
        let number = unsafe {
            raw::hibernaxo_salvage(
                bytes.as_ptr(),
                length,
                export_out.as_mut_ptr(),
                length,
                values.as_mut_ptr(),
            )
        };
        assert_eq!(black_box(number), 0);
        black_box(&mut *export_out);
    };
    let mut second = || good(salvage::salvage(black_box(input), second_out), second_out);
    let mut quick = || good(quick::salvage::salvage(black_box(input), quick_out), quick_out);
    let mut plain = || memcpy(input, target);
    let medians = medians(repetitions, [&mut export, &mut second, &mut quick, &mut plain]);
    ask_equal(&outs);
    Line { name: format!("salvage, {what}, {of}"), bytes: length, medians }
}
