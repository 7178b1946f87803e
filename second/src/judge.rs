//! Keeps the tally of a comparison and the differences that it found.

use crate::answers::{Answer, Given};
use crate::lent::Lent;
use crate::refusal::{NAMES, NUMBERS};
use std::fmt::Write;

/// The exports, and the refusal numbers that each of them can give.
pub const EXPORTS: [(&str, &[u32]); 24] = [
    ("header", &[1, 2, 3, 4, 5, 6, 7, 12]),
    ("package", &[10, 12]),
    ("check", &[1, 2, 3, 4, 5, 6, 7, 8, 9, 10, 12, 17]),
    ("write", &[6, 7, 10, 12, 13, 17]),
    ("clean", &[1, 2, 3, 4, 5, 6, 7, 8, 9, 10, 12, 13, 17]),
    ("sheet", &[11]),
    ("copy_measure", &[1, 2, 3, 4, 5, 6, 7, 8, 9, 10, 11, 12, 17]),
    ("copy_write", &[1, 2, 3, 4, 5, 6, 7, 8, 9, 10, 11, 12, 13, 17]),
    ("purge", &[1, 2, 3, 4, 5, 6, 7, 8, 9, 10, 11, 12, 17]),
    ("randomize", &[12]),
    ("open_burst", &[12, 14, 15]),
    ("read_ids", &[12, 16]),
    ("write_ids", &[13, 16]),
    ("step", &[1, 2, 3, 4, 5, 6, 7, 8, 9, 10, 11, 12, 13, 17, 20]),
    ("salvage", &[12, 13, 22]),
    ("read_capture", &[12, 13, 18]),
    ("write_capture", &[1, 2, 3, 4, 5, 6, 7, 8, 9, 10, 12, 13, 17]),
    ("cut", &[1, 2, 3, 4, 5, 6, 7, 8, 9, 10, 12, 13, 17]),
    ("join", &[1, 2, 3, 4, 5, 6, 7, 9, 10, 12, 13, 17, 21]),
    ("read_radio", &[12, 19]),
    ("radio_tlv", &[12, 19]),
    ("put_radio_tlv", &[12, 13, 19]),
    ("write_radio", &[12, 13, 19]),
    ("link_row", &[]),
];

/// So many differences are printed; the others are only counted.
const MOST_SHOWN: u64 = 5;
/// Of so many trials of a claim at least one tells something.
const TELLING_OF: u64 = 10;
/// So many bytes of a buffer are printed.
const MOST_DUMPED: usize = 128;

#[derive(Debug)]
pub struct Judge {
    /// Where the comparison stands, for the report of a difference.
    case: String,
    cases: u64,
    /// How many cases of each kind there were, in the order of the first.
    kinds: Vec<(String, u64)>,
    /// For each claim that was tried, how often, and how often it told something.
    trials: Vec<(&'static str, u64, u64)>,
    /// For each export, how often each number was its answer.
    reached: [[u64; NUMBERS]; EXPORTS.len()],
    differences: u64,
    trace: bool,
}

impl Judge {
    pub fn new(trace: bool) -> Judge {
        Judge {
            case: String::new(),
            cases: 0,
            kinds: Vec::new(),
            trials: Vec::new(),
            reached: [[0; NUMBERS]; EXPORTS.len()],
            differences: 0,
            trace,
        }
    }

    /// Begins a case; `case` says how to find it again.
    pub fn begin(&mut self, case: String) {
        if self.trace {
            eprintln!("{case}");
        }
        self.case = case;
        self.cases += 1;
    }

    /// Says of which kind the case is.
    pub fn kind(&mut self, kind: &str) {
        match self.kinds.iter_mut().find(|(name, _)| name == kind) {
            Some((_, count)) => *count += 1,
            None => self.kinds.push((kind.to_string(), 1)),
        }
    }

    /// Counts a trial of a claim, and whether it told something: whether a claim
    /// that does not hold could have been seen there.
    pub fn trial(&mut self, claim: &'static str, telling: bool) {
        let at = self.trials.iter().position(|(name, ..)| *name == claim).unwrap_or_else(|| {
            self.trials.push((claim, 0, 0));
            self.trials.len() - 1
        });
        self.trials[at].1 += 1;
        self.trials[at].2 += u64::from(telling);
    }

    pub fn cases(&self) -> u64 {
        self.cases
    }

    pub fn differences(&self) -> u64 {
        self.differences
    }

    /// Notes a difference; `told` is asked only if it is to be printed.
    pub fn differs(&mut self, told: impl FnOnce() -> String) {
        self.differences += 1;
        if self.differences <= MOST_SHOWN {
            println!("difference {} in {}", self.differences, self.case);
            print!("{}", told());
        }
    }

    /// Notes a difference unless the claim holds.
    pub fn claim(&mut self, claim: bool, told: impl FnOnce() -> String) {
        if !claim {
            self.differs(told);
        }
    }

    /// Compares one call of an export: its answer, its values, whether it
    /// wrote beside them, and every buffer that it was lent. The numbers that
    /// it got are told with a difference.
    pub fn settle<const N: usize>(
        &mut self,
        export: usize,
        numbers: &[(&str, u64)],
        expected: Answer<N>,
        given: Given<N>,
        buffers: &[(&str, &Lent)],
    ) {
        self.reached[export][expected.number as usize] += 1;
        let touched = buffers.iter().any(|(_, lent)| lent.first_difference().is_some());
        if expected == given.answer && !given.strayed && !touched {
            return;
        }
        self.differs(|| {
            let mut told = format!("  export {}\n", EXPORTS[export].0);
            for (name, number) in numbers {
                writeln!(told, "  {name} {number}").unwrap();
            }
            tell_answers(&mut told, expected, given);
            for (name, lent) in buffers {
                tell_buffer(&mut told, name, lent);
            }
            told
        });
    }

    /// Compares one buffer that should be as it was.
    pub fn untouched(&mut self, name: &str, lent: &Lent) {
        self.claim(lent.first_difference().is_none(), || {
            let mut told = String::new();
            tell_buffer(&mut told, name, lent);
            told
        });
    }

    /// Prints the tally. The run is good if nothing differs, enough trials of
    /// each claim told something, and every number that an export can give was
    /// reached.
    pub fn report(&mut self) -> bool {
        println!("cases of each kind:");
        for (kind, count) in &self.kinds {
            println!("  {count:>7}  {kind}");
        }
        let mut missed = Vec::new();
        println!("trials of each claim, and how many told something:");
        for (claim, trials, telling) in &self.trials {
            println!("  {trials:>7}  {claim}: {telling}");
            if telling * TELLING_OF < *trials {
                missed.push(format!("too few trials told something: {claim}"));
            }
        }
        println!("calls of each export, and how often each number was its answer:");
        let mut sums = [0; NUMBERS];
        for ((name, numbers), reached) in EXPORTS.iter().zip(&self.reached) {
            let calls: u64 = reached.iter().sum();
            let mut line = format!("  {calls:>7}  {name}:");
            for (number, count) in reached.iter().enumerate() {
                sums[number] += count;
                if *count > 0 {
                    write!(line, " {number}:{count}").unwrap();
                }
            }
            println!("{line}");
            for (number, refusal) in NAMES {
                if numbers.contains(&number) && reached[number as usize] == 0 {
                    missed.push(format!("not reached: {name} never answered {number} {refusal}"));
                }
            }
        }
        println!("refusal numbers reached:");
        for (number, refusal) in NAMES {
            println!("  {:>7}  {number} {refusal}", sums[number as usize]);
        }
        for line in &missed {
            println!("{line}.");
        }
        missed.is_empty() && self.differences == 0
    }
}

fn tell_answers<const N: usize>(told: &mut String, expected: Answer<N>, given: Given<N>) {
    let (wanted, got) = (expected.number, given.answer.number);
    let mark = if wanted == got { "" } else { "  <--" };
    writeln!(told, "  answer: expected {wanted}, given {got}{mark}").unwrap();
    let pairs = expected.values.iter().zip(&given.answer.values).enumerate();
    for (index, (wanted, got)) in pairs.filter(|(_, (wanted, got))| wanted != got).take(12) {
        writeln!(told, "  values[{index}]: expected {wanted}, given {got}  <--").unwrap();
    }
    if given.strayed {
        writeln!(told, "  a word beside the values, or beside words lent, was written  <--")
            .unwrap();
    }
}

fn tell_buffer(told: &mut String, name: &str, lent: &Lent) {
    let content = lent.content();
    let Some((at, wanted, got)) = lent.first_difference() else {
        writeln!(told, "  {name}, {} bytes, as expected:", content.len()).unwrap();
        told.push_str(&dump(content, 0));
        return;
    };
    writeln!(told, "  {name}, {} bytes, first differs at {at}  <--", content.len()).unwrap();
    let from = (at.max(0) as usize / 32 * 32).saturating_sub(32).min(content.len());
    writeln!(told, "  expected, with {wanted:02X} at {at}:").unwrap();
    told.push_str(&dump(lent.as_expected(), from));
    writeln!(told, "  given, with {got:02X} at {at}:").unwrap();
    told.push_str(&dump(content, from));
}

/// Some bytes from this place on in hex, 32 in a line.
pub fn dump(bytes: &[u8], from: usize) -> String {
    let mut text = String::new();
    let to = bytes.len().min(from + MOST_DUMPED);
    for start in (from..to).step_by(32) {
        write!(text, "    {start:>6}:").unwrap();
        for word in bytes[start..to.min(start + 32)].chunks(4) {
            text.push(' ');
            for byte in word {
                write!(text, "{byte:02X}").unwrap();
            }
        }
        text.push('\n');
    }
    if to < bytes.len() {
        writeln!(text, "    and {} bytes more", bytes.len() - to).unwrap();
    }
    text
}
