//! Salvage, asked of the exports directly: what is kept, what is skipped, and what
//! a bad block costs.

use crate::answers::Answer;
use crate::blocks::BadBlock;
use crate::dice::Dice;
use crate::judge::{dump, Judge};
use crate::salvage::{Stretch, MOST_STRETCHES, SKIPPED_BYTES};
use crate::side_by_side;

/// So many skipped places are looked at again in one input.
const MOST_ASKED: usize = 40;

/// A salvage as the export gives it: what was written, how many messages, and the
/// stretches.
#[derive(Clone, Debug, PartialEq, Eq)]
struct Given {
    number: u32,
    written: Vec<u8>,
    messages: u64,
    stretches: Vec<Stretch>,
}

fn salvage(judge: &mut Judge, dice: &mut Dice, input: &[u8]) -> Given {
    let (answer, mut out) = side_by_side::salvage(judge, dice, input, input.len());
    out.truncate(answer.values[1] as usize);
    Given {
        number: answer.number,
        written: out,
        messages: answer.values[2],
        stretches: stretches_of(&answer),
    }
}

fn stretches_of(answer: &Answer<132>) -> Vec<Stretch> {
    let pairs = answer.values[4..].chunks(2).take(answer.values[3] as usize);
    pairs.map(|pair| Stretch { start: pair[0] as usize, length: pair[1] as usize }).collect()
}

fn told(what: &str, input: &[u8]) -> String {
    format!("  {what}\n{}", dump(input, 0))
}

/// Tries every claim on one input.
pub fn salvaging(judge: &mut Judge, dice: &mut Dice, input: &[u8]) {
    let salvaged = salvage(judge, dice, input);
    if salvaged.number != 0 {
        return;
    }
    let checked = side_by_side::check(judge, dice, input);
    covers(judge, dice, input, &salvaged);
    nothing_passes(judge, dice, input, &salvaged.stretches);
    let written = side_by_side::check(judge, dice, &salvaged.written);
    let passes = written.number == 0 && written.values[1] == salvaged.messages;
    judge.claim(passes, || told("what is written does not pass", input));
    let parted = !salvaged.written.is_empty() && !salvaged.stretches.is_empty();
    judge.trial("what is salvaged passes", parted);
    let again = salvage(judge, dice, &salvaged.written);
    let whole = Given { stretches: Vec::new(), ..salvaged.clone() };
    judge.claim(again == whole, || told("salvaged again it is another", input));
    judge.trial("salvaged again is the same", parted);
    // A recording has a stretch exactly if it does not pass.
    let sound = salvaged.stretches.is_empty() && salvaged.written == input;
    judge.claim(sound == (checked.number == 0), || told("a good recording is not whole", input));
}

/// Kept messages and stretches cover the input with no overlap, and the stretches
/// do not touch.
fn covers(judge: &mut Judge, dice: &mut Dice, input: &[u8], salvaged: &Given) {
    let mut kept = Vec::new();
    let (mut at, mut messages, mut good) = (0, 0, salvaged.stretches.len() <= MOST_STRETCHES);
    let end = Stretch { start: input.len(), length: 0 };
    for stretch in salvaged.stretches.iter().chain([&end]) {
        let Some(part) = input.get(at..stretch.start) else {
            good = false;
            break;
        };
        let checked = side_by_side::check(judge, dice, part);
        good &= checked.number == 0;
        // Only the first part, and the last, may be empty.
        good &= !part.is_empty() || at == 0 || stretch.start == input.len();
        good &= stretch.length > 0 || stretch == &end;
        messages += checked.values[1];
        kept.extend_from_slice(part);
        at = stretch.end();
    }
    good &= at == input.len() && kept == salvaged.written && messages == salvaged.messages;
    judge.claim(good, || told("kept messages and stretches do not cover the input", input));
    let parted = !kept.is_empty() && !salvaged.stretches.is_empty();
    judge.trial("kept messages and stretches cover the input", parted);
}

/// At no place that was skipped a message passes.
fn nothing_passes(judge: &mut Judge, dice: &mut Dice, input: &[u8], stretches: &[Stretch]) {
    let mut places: Vec<usize> = stretches
        .iter()
        .flat_map(|stretch| (stretch.start..stretch.end()).step_by(SKIPPED_BYTES))
        .collect();
    while places.len() > MOST_ASKED {
        places.swap_remove(dice.below(places.len()));
    }
    let mut headers = 0;
    for at in places {
        let rest = &input[at..];
        let header = side_by_side::header(judge, dice, rest);
        if header.number != 0 {
            continue;
        }
        headers += 1;
        let message = &rest[..(header.values[5] as usize).min(rest.len())];
        let checked = side_by_side::check(judge, dice, message);
        judge.claim(checked.number != 0, || told("a message that passes is skipped", rest));
    }
    // Where even a header can be read, a message nearly passes.
    judge.trial("no skipped place holds a message that passes", headers > 0);
}

/// A recording that passes is kept whole. With a bad block in it, all that the block
/// does not touch is kept, unless something else passes in its place.
pub fn bad_block(judge: &mut Judge, dice: &mut Dice, block: &BadBlock) {
    let whole = salvage(judge, dice, &block.good);
    let expected = Given {
        number: 0,
        written: block.good.clone(),
        messages: block.messages.len() as u64,
        stretches: Vec::new(),
    };
    judge.claim(whole == expected, || told("a good recording is not kept whole", &block.good));
    judge.trial("a recording that passes is kept whole", block.messages.len() > 1);
    let rest = salvage(judge, dice, &block.bad);
    let alone = block.nothing_passes();
    let as_touched = rest.written == block.untouched() && rest.stretches == [block.touched];
    judge.claim(as_touched || !alone, || told("a bad block costs more, or less", &block.bad));
    judge.trial("a bad block costs the messages that it touches", alone);
    salvaging(judge, dice, &block.bad);
}
