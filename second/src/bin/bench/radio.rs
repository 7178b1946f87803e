//! Radio messages, read and written.

use crate::scenes::SIZES;
use crate::timing::*;
use crate::Settings;
use second::dice::Dice;
use second::exports::raw;
use second::quick::radio::Radio;
use second::radio::RadioMessage;
use second::tlvs::{good_tlv, lay, lay_tlv, plain};
use second::{quick, radio};
use std::hint::black_box;

pub fn radio_messages(settings: &Settings) {
    heading("radio messages", "ns", "memcpy");
    for size in SIZES {
        show(&time_read_radio(size, settings.repetitions));
    }
    for size in SIZES {
        show(&time_write_radio(size, settings.repetitions));
    }
}

/// A radio message of TLVs of all types, reserved bits set, that is as long as it can be.
fn radio_message(size: usize) -> (RadioMessage, Vec<u8>) {
    let mut dice = Dice::new(11, size as u64);
    let (mut message, mut length) = (plain(), 10);
    loop {
        let tlv = good_tlv(&mut dice);
        length += tlv.length();
        if length > size {
            break;
        }
        message.tlvs.push(tlv);
    }
    let tlvs: Vec<_> = message.tlvs.iter().map(|tlv| lay_tlv(tlv, 0xFF)).collect();
    let bytes = lay(&message, &tlvs);
    (message, bytes)
}

/// Times reading a radio message: the second program lists its TLVs, and the others count
/// them.
fn time_read_radio(size: usize, repetitions: usize) -> Line {
    let (message, bytes) = radio_message(size);
    let length = bytes.len();
    let mut target = vec![0; length];
    let mut export = || {
        let (bytes, mut values) = (black_box(&bytes), [0; 5]);
        // The pointer and the length are those of the message.
        let number =
            unsafe { raw::hibernaxo_read_radio(bytes.as_ptr(), length, values.as_mut_ptr()) };
        assert_eq!((number, black_box(values)[4]), (0, message.tlvs.len() as u64));
    };
    let mut second = || good(radio::read_radio(black_box(&bytes)), &mut []);
    let mut quick = || good(quick::radio::read_radio(black_box(&bytes)), &mut []);
    let mut plain = || memcpy(&bytes, &mut target);
    let medians = medians(repetitions, [&mut export, &mut second, &mut quick, &mut plain]);
    assert_eq!(radio::read_radio(&bytes).as_ref(), Ok(&message));
    assert_eq!(quick::radio::read_radio(&bytes), Ok(Radio::of(&message)));
    Line { name: "read radio message".into(), bytes: length, medians }
}

/// Times writing a radio message from a run of TLVs whose reserved bits are set.
fn time_write_radio(size: usize, repetitions: usize) -> Line {
    let (message, bytes) = radio_message(size);
    let (length, run) = (bytes.len(), &bytes[10..]);
    let mut outs = [(); 4].map(|()| vec![0; length]);
    let [export_out, second_out, quick_out, target] = &mut outs;
    let mut export = || {
        let (run, mut values) = (black_box(run), [0; 2]);
        // The pointers and the lengths are those of the run and the buffer.
        let number = unsafe {
            raw::hibernaxo_write_radio(
                message.destination,
                message.source,
                message.sequence,
                run.as_ptr(),
                run.len(),
                export_out.as_mut_ptr(),
                length,
                values.as_mut_ptr(),
            )
        };
        assert_eq!((number, black_box(values)[1]), (0, length as u64));
        black_box(&mut *export_out);
    };
    let head = (message.destination, message.source, message.sequence);
    let mut second = || good(radio::write_run(head, black_box(run), second_out), second_out);
    let mut quick = || good(quick::radio::write_run(head, black_box(run), quick_out), quick_out);
    let mut plain = || memcpy(&bytes, target);
    let medians = medians(repetitions, [&mut export, &mut second, &mut quick, &mut plain]);
    ask_equal(&outs);
    Line { name: "write radio message".into(), bytes: length, medians }
}
