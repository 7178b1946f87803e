//! A step beside the single copy of the same input, and runs of steps.

use crate::copies::export_write;
use crate::scenes::*;
use crate::timing::*;
use crate::Settings;
use second::exports::raw;
use second::quick;
use second::refusal::Refusal;
use second::runs::STATE_WORDS;
use second::steps::{self, State, Stepped};
use std::hint::black_box;

/// A run has so many steps of 64 KiB.
const STEPS: [usize; 3] = [16, 128, 1_024];
/// How many samples of a step are as dear as one of a run.
const SAMPLES_OF_A_RUN: usize = 16;

pub fn steps(settings: &Settings) {
    heading("a step beside the single copy of the same input", "ns", "copy");
    for shape in SHAPES {
        for kind in [Kind::OneId, Kind::ManyIds, Kind::LastOf32Rows] {
            for size in SIZES {
                show(&time_step(shape, kind, size, settings.repetitions));
            }
        }
    }
}

pub fn runs(settings: &Settings) {
    heading("a run of steps of 64 KiB each, in picoseconds for each byte", "ps", "memcpy");
    for shape in SHAPES {
        for steps in STEPS {
            show(&time_run(shape, steps, settings.repetitions.div_ceil(SAMPLES_OF_A_RUN)));
        }
    }
}

/// One step of the export over all of an input, from a state and to it.
fn export_step(
    input: &[u8],
    sheet: &[u8],
    state: &mut [u32; STATE_WORDS],
    out: &mut [u8],
) -> [u64; 6] {
    let (input, sheet, out) = (black_box(input), black_box(sheet), black_box(out));
    let mut values = [0; 6];
    // The pointers and the lengths are those of the inputs, the state and the buffer.
    let number = unsafe {
        raw::hibernaxo_step(
            input.as_ptr(),
            input.len(),
            sheet.as_ptr(),
            sheet.len(),
            usize::MAX,
            state.as_mut_ptr(),
            out.as_mut_ptr(),
            out.len(),
            values.as_mut_ptr(),
        )
    };
    assert_eq!(black_box(number), 0);
    black_box(out);
    black_box(values)
}

/// A step of the second program, by one of its forms.
type Step = fn(&mut State, &[u8], &[u8], usize, &mut [u8]) -> Result<Stepped, Refusal>;

/// So many steps of the second program, from no ids, each over all of an input.
fn own_steps(step: Step, steps: usize, input: &[u8], sheet: &[u8], out: &mut [u8]) {
    let mut state = State::new();
    for _ in 0..steps {
        let stepped = step(&mut state, black_box(input), black_box(sheet), usize::MAX, out);
        good(stepped, out);
    }
}

/// Times a first step over all of an input, by the export and by both forms of the second
/// program, beside the export's single copy of it.
fn time_step(shape: Shape, kind: Kind, size: usize, repetitions: usize) -> Line {
    let recording = recording(shape, kind, size);
    let sheet = sheet(kind);
    let length = recording.len();
    let mut outs = [(); 4].map(|()| vec![0; length]);
    let [export_out, second_out, quick_out, copy_out] = &mut outs;
    let mut export = || {
        export_step(&recording, &sheet, &mut [0; STATE_WORDS], export_out);
    };
    let mut second = || own_steps(steps::step, 1, &recording, &sheet, second_out);
    let mut quick = || own_steps(quick::steps::step, 1, &recording, &sheet, quick_out);
    let mut copy = || {
        export_write(&recording, &sheet, copy_out);
    };
    let medians = medians(repetitions, [&mut export, &mut second, &mut quick, &mut copy]);
    ask_equal(&outs);
    assert!(outs[0] == outs[3], "the step and the copy differ");
    let name = format!("step, {}, {}", shape.name(), kind.name());
    Line { name, bytes: length, medians }
}

/// Times a run of so many steps, each over 64 KiB of 16 ids, beside a plain copy
/// of the bytes written.
fn time_run(shape: Shape, steps: usize, repetitions: usize) -> Line {
    let recording = recording(shape, Kind::ManyIds, 65_536);
    let sheet = sheet(Kind::ManyIds);
    let length = recording.len();
    let mut outs = [(); 4].map(|()| vec![0; length]);
    let [export_out, second_out, quick_out, target] = &mut outs;
    let written = export_write(&recording, &sheet, export_out)[1] as usize;
    let mut export = || {
        let mut state = [0; STATE_WORDS];
        for _ in 0..steps {
            export_step(&recording, &sheet, &mut state, export_out);
        }
    };
    let mut second = || own_steps(steps::step, steps, &recording, &sheet, second_out);
    let mut quick = || own_steps(quick::steps::step, steps, &recording, &sheet, quick_out);
    let mut plain = || {
        for _ in 0..steps {
            memcpy(&recording[..written], target);
        }
    };
    let medians = medians(repetitions, [&mut export, &mut second, &mut quick, &mut plain]);
    ask_equal(&outs);
    let bytes = steps * length;
    let medians = medians.map(|median| 1_000.0 * median / bytes as f64);
    Line { name: format!("run, {}", shape.name()), bytes, medians }
}
