//! Purging, beside moving the same bytes.

use crate::scenes::*;
use crate::timing::*;
use crate::Settings;
use second::exports::raw;
use second::{purge, quick};
use std::hint::black_box;

/// A plain move goes down by so many bytes.
const MOVED_BY: usize = 64;

pub fn purging(settings: &Settings) {
    let title = "purging half of the packages; making the buffer anew is taken out of all ways";
    heading(title, "ns", "memmove");
    for shape in SHAPES {
        for size in SIZES {
            show(&time_purge(shape, size, settings.repetitions));
        }
    }
}

/// Purges with the export, and gives the bytes in use.
fn export_purge(buffer: &mut [u8], sheet: &[u8]) -> usize {
    let (buffer, sheet) = (black_box(buffer), black_box(sheet));
    let mut values = [0; 2];
    // The pointers and the lengths are those of the buffer and the sheet.
    let number = unsafe {
        raw::hibernaxo_purge(
            buffer.as_mut_ptr(),
            buffer.len(),
            sheet.as_ptr(),
            sheet.len(),
            values.as_mut_ptr(),
        )
    };
    assert_eq!(black_box(number), 0);
    values[1] as usize
}

/// Times purging every second package. A purge changes its buffer, so each way
/// begins with a fresh copy of the recording, and what that takes by itself is
/// taken out again.
fn time_purge(shape: Shape, size: usize, repetitions: usize) -> Line {
    let recording = recording(shape, Kind::OneId, size);
    let sheet = sheet(Kind::OneId);
    let length = recording.len();
    let mut outs = [(); 4].map(|()| recording.clone());
    let used = export_purge(&mut outs[0], &sheet);
    assert_eq!(purge::purge(&mut outs[1], &sheet), Ok(used));
    assert_eq!(quick::purge::purge(&mut outs[2], &sheet), Ok(used));
    assert!(0 < used && used < length, "nothing or all of it goes");
    ask_equal(&outs);
    let [export_out, second_out, quick_out, target] = &mut outs;
    let mut moved = vec![0; MOVED_BY + length];
    let mut export = || {
        memcpy(&recording, export_out);
        export_purge(export_out, &sheet);
    };
    let mut second = || {
        memcpy(&recording, second_out);
        good(purge::purge(black_box(second_out), black_box(&sheet)), second_out);
    };
    let mut quick = || {
        memcpy(&recording, quick_out);
        good(quick::purge::purge(black_box(quick_out), black_box(&sheet)), quick_out);
    };
    let mut memmove = || {
        memcpy(&recording, &mut moved[MOVED_BY..]);
        black_box(&mut moved).copy_within(MOVED_BY.., 0);
    };
    let mut fresh = || memcpy(&recording, target);
    let [ways @ .., fresh] =
        medians(repetitions, [&mut export, &mut second, &mut quick, &mut memmove, &mut fresh]);
    let medians = ways.map(|median| median - fresh);
    Line { name: format!("purge half, {}", shape.name()), bytes: length, medians }
}
