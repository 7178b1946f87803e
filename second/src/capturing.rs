//! Captures, asked of the exports directly: what was written is read again, each packet
//! counts by itself, and both byte orders are read as one.

use crate::answers::Answer;
use crate::capture::{ones_sum, ETHERNET_BYTES, FILE_HEADER_BYTES, IP_BYTES, RECORD_HEADER_BYTES};
use crate::dice::Dice;
use crate::judge::{dump, Judge};
use crate::packets::{twin, DirtyFile};
use crate::refusal::{LARGE, MOST_BYTES};
use crate::side_by_side;

/// No file of a recording is longer: it has at most 2,730 messages, with 58 bytes for each.
const LONGEST: usize = 24 + 2_730 * 58 + MOST_BYTES;

fn told(what: &str, input: &[u8]) -> String {
    format!("  {what}\n{}", dump(input, 0))
}

/// The answer to reading a file, and the recording that was written.
fn read(judge: &mut Judge, dice: &mut Dice, file: &[u8], port: u16) -> (Answer<6>, Vec<u8>) {
    let (answer, mut out) = side_by_side::read_capture(judge, dice, file, port, file.len());
    out.truncate(answer.values[1] as usize);
    (answer, out)
}

/// Tries every claim of reading on a file of these packets.
pub fn reading(judge: &mut Judge, dice: &mut Dice, file: &DirtyFile, port: u16) {
    let bytes = file.laid();
    let (answer, recording) = read(judge, dice, &bytes, port);
    if answer.number != 0 {
        return;
    }
    let [_, _, kept, not_for_us, cut_short, bad] = answer.values;
    let packets = kept + not_for_us + cut_short + bad;
    judge.claim(packets == file.packets.len() as u64, || {
        told("the counts do not add up to the packets", &bytes)
    });
    let counts = [kept, not_for_us, cut_short, bad].iter().filter(|count| **count > 0).count();
    judge.trial("the four counts add up to the packets", counts > 1);
    let checked = side_by_side::check(judge, dice, &recording);
    judge.claim(checked.number == 0 && checked.values[1] == kept, || {
        told("what is read is not a recording of the kept messages", &bytes)
    });
    judge.trial("what is read passes every check", kept > 0);
    one_by_one(judge, dice, file, port, (answer, recording));
    both_orders(judge, dice, &bytes, port);
}

/// A packet alone in its file counts as it does among the others, and all recordings
/// one behind the other are the one of the file.
fn one_by_one(
    judge: &mut Judge,
    dice: &mut Dice,
    file: &DirtyFile,
    port: u16,
    (answer, recording): (Answer<6>, Vec<u8>),
) {
    let (mut sums, mut joined) = ([0; 6], Vec::new());
    for packet in &file.packets {
        let alone = DirtyFile { packets: vec![packet.clone()], ..file.clone() };
        let (answer, message) = read(judge, dice, &alone.laid(), port);
        sums.iter_mut().zip(answer.values).for_each(|(sum, value)| *sum += value);
        joined.extend(message);
    }
    let same = sums == answer.values && joined == recording;
    judge.claim(same, || told("a packet alone counts otherwise", &file.laid()));
    judge.trial("each packet counts by itself", file.packets.len() > 1 && answer.values[2] > 0);
}

/// A file and its twin in the other byte order give the same answer.
pub fn both_orders(judge: &mut Judge, dice: &mut Dice, file: &[u8], port: u16) {
    let (one, other) = (read(judge, dice, file, port), read(judge, dice, &twin(file), port));
    judge.claim(one == other, || told("the two byte orders are not read as one", file));
    judge.trial("both byte orders are read as one", file.len() > FILE_HEADER_BYTES);
}

/// Writes a good recording and reads it again.
pub fn written_and_read(judge: &mut Judge, dice: &mut Dice, recording: &[u8], port: u16) {
    let (asked, _) = side_by_side::write_capture(judge, dice, recording, port, 0);
    let room = (asked.values[0] as usize).min(LONGEST);
    let (answer, mut file) = side_by_side::write_capture(judge, dice, recording, port, room);
    file.truncate(answer.values[1] as usize);
    if answer.number != 0 {
        return;
    }
    let clean = clean_messages(judge, dice, recording);
    let messages = answer.values[2];
    let length = FILE_HEADER_BYTES + 58 * messages as usize + clean.len();
    judge.claim(file.len() == length && good_sums(&file, messages), || {
        told("a file has another length, or a checksum is wrong", recording)
    });
    judge.trial("a file's length and checksums are right", messages > 0);
    let (again, read_back) = read(judge, dice, &file, port);
    if file.len() > MOST_BYTES {
        judge.claim(again.number == LARGE, || told("a long file is read", recording));
        return;
    }
    let whole = [0, clean.len() as u64, messages, 0, 0, 0];
    let same = again == Answer { number: 0, values: whole } && read_back == clean;
    judge.claim(same, || told("what was written is not read as the clean messages", recording));
    judge.trial("what was written is read as the clean messages", clean != recording);
    let other_port = port ^ 1 << dice.below(16);
    let (other, _) = read(judge, dice, &file, other_port);
    let none = Answer { number: 0, values: [0, 0, 0, messages, 0, 0] };
    judge.claim(other == none, || told("a message is kept by another port", recording));
    judge.trial("to another port nothing is kept", messages > 0);
    both_orders(judge, dice, &file, port);
}

/// What the cleaner makes of each message of a good recording.
fn clean_messages(judge: &mut Judge, dice: &mut Dice, recording: &[u8]) -> Vec<u8> {
    let (mut rest, mut clean) = (recording, Vec::new());
    while !rest.is_empty() {
        let header = side_by_side::header(judge, dice, rest);
        let length = (header.values[5] as usize).clamp(1, rest.len());
        let message = &rest[..length];
        let (answer, out) = side_by_side::clean(judge, dice, message, length);
        clean.extend_from_slice(out.get(..answer.values[1] as usize).unwrap_or_default());
        rest = &rest[length..];
    }
    clean
}

/// Has the file so many records, to its last byte, and is the sum over the halves of
/// each IP header FFFF?
fn good_sums(file: &[u8], records: u64) -> bool {
    let mut place = FILE_HEADER_BYTES;
    for _ in 0..records {
        let packet = place + RECORD_HEADER_BYTES;
        let ip = packet + ETHERNET_BYTES;
        let Some(header) = file.get(ip..ip + IP_BYTES) else {
            return false;
        };
        if ones_sum(header) != 0xFFFF {
            return false;
        }
        place = packet + u32::from_be_bytes([8, 9, 10, 11].map(|at| file[place + at])) as usize;
    }
    place == file.len()
}
