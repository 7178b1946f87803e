//! Fragments: one message cut, and what was cut joined again.

use crate::scenes::*;
use crate::timing::*;
use crate::Settings;
use second::answers::{self, Answer};
use second::exports::raw;
use second::{fragments, quick};
use std::hint::black_box;

/// A fragment has so many bytes of payload, which a datagram on Ethernet holds.
const PAYLOAD: usize = 1_400;
/// And so many in front of it.
const FRONT: usize = 32;

pub fn fragments(settings: &Settings) {
    heading("fragments of 1,400 bytes of payload; bytes are those of the input", "ns", "memcpy");
    for shape in SHAPES {
        for size in SIZES {
            show(&time_cut(shape, size, settings.repetitions));
        }
        for size in SIZES {
            show(&time_join(shape, size, settings.repetitions));
        }
    }
}

/// Cuts with the export.
fn export_cut(message: &[u8], out: &mut [u8]) -> Answer<3> {
    let mut values = [0; 3];
    // The pointers and the lengths are those of the message and the buffer.
    let number = unsafe {
        raw::hibernaxo_cut(
            message.as_ptr(),
            message.len(),
            PAYLOAD,
            out.as_mut_ptr(),
            out.len(),
            values.as_mut_ptr(),
        )
    };
    Answer { number, values }
}

/// Joins with the export.
fn export_join(fragments: &[u8], out: &mut [u8]) -> Answer<2> {
    let mut values = [0; 2];
    // The pointers and the lengths are those of the fragments and the buffer.
    let number = unsafe {
        raw::hibernaxo_join(
            fragments.as_ptr(),
            fragments.len(),
            out.as_mut_ptr(),
            out.len(),
            values.as_mut_ptr(),
        )
    };
    Answer { number, values }
}

/// A message of nearly `size` bytes and the answer of cutting it, with its fragments.
fn cut_message(shape: Shape, size: usize) -> (Vec<u8>, Answer<3>, Vec<u8>) {
    let message = long_message(shape, size);
    let mut fragments = vec![0; 2 * size];
    let answer = answers::cut(&message, PAYLOAD, &mut fragments);
    fragments.truncate(answer.values[1] as usize);
    assert!(answer.number == 0 && answer.values[2] > 1, "the message is not cut");
    (message, answer, fragments)
}

fn time_cut(shape: Shape, size: usize, repetitions: usize) -> Line {
    let (message, answer, fragments) = cut_message(shape, size);
    let mut outs = [(); 4].map(|()| vec![0; fragments.len()]);
    let [export_out, second_out, quick_out, target] = &mut outs;
    assert_eq!(export_cut(&message, export_out), answer);
    assert!(*export_out == fragments, "the two cut otherwise");
    let mut export = || {
        black_box(export_cut(black_box(&message), black_box(export_out)));
    };
    let mut second = || good(fragments::cut(black_box(&message), PAYLOAD, second_out), second_out);
    let mut quick =
        || good(quick::fragments::cut(black_box(&message), PAYLOAD, quick_out), quick_out);
    let mut plain = || memcpy(&fragments, target);
    let medians = medians(repetitions, [&mut export, &mut second, &mut quick, &mut plain]);
    ask_equal(&outs);
    Line { name: format!("cut, {}", shape.name()), bytes: message.len(), medians }
}

/// The fragments have at most `size` bytes together, as an input must.
fn time_join(shape: Shape, size: usize, repetitions: usize) -> Line {
    let (_, _, fragments) = cut_message(shape, size * PAYLOAD / (PAYLOAD + FRONT) - FRONT);
    assert!(fragments.len() <= size, "too many fragments");
    let mut outs = [(); 4].map(|()| vec![0; fragments.len()]);
    let [export_out, second_out, quick_out, target] = &mut outs;
    let answer = export_join(&fragments, export_out);
    assert!(answer.number == 0 && answer == answers::join(&fragments, second_out));
    assert!(export_out == second_out, "the two join otherwise");
    let mut export = || {
        black_box(export_join(black_box(&fragments), black_box(export_out)));
    };
    let mut second = || good(fragments::join(black_box(&fragments), second_out), second_out);
    let mut quick = || good(quick::fragments::join(black_box(&fragments), quick_out), quick_out);
    let written = answer.values[1] as usize;
    let mut plain = || memcpy(&fragments[..written], target);
    let medians = medians(repetitions, [&mut export, &mut second, &mut quick, &mut plain]);
    ask_equal(&outs);
    Line { name: format!("join, {}", shape.name()), bytes: fragments.len(), medians }
}
