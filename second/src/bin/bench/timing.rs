//! The ways are timed in turn, and their medians shown side by side.

use second::refusal::Refusal;
use std::hint::black_box;
use std::time::Instant;

/// One sample takes about so many nanoseconds.
const SAMPLE: f64 = 40_000.0;

/// The medians of one scene: the export, the second program, its quick form, and the plain
/// copy or what else is its measure.
pub struct Line {
    pub name: String,
    pub bytes: usize,
    pub medians: [f64; 4],
}

/// The title of a part, and the heading of its lines: the unit of their medians, and the
/// name of the last way.
pub fn heading(title: &str, unit: &str, plain: &str) {
    print!("\n{title}\n{:<44}{:>10}", "", "bytes");
    let ways = ["export", "second", "quick", plain];
    ways.iter().for_each(|way| print!("{:>11}", format!("{way} {unit}")));
    ways[1..].iter().for_each(|way| print!("{:>15}", format!("export/{way}")));
    println!();
}

pub fn show(line: &Line) {
    print!("{:<44}{:>10}", line.name, line.bytes);
    let [export, others @ ..] = line.medians;
    line.medians.iter().for_each(|median| print!("{median:>11.0}"));
    others.iter().for_each(|median| print!("{:>15.2}", export / median));
    println!();
}

/// Nothing may be refused while it is timed. The outcome and the bytes count as read, so that
/// no work is left out.
pub fn good<T>(outcome: Result<T, Refusal>, out: &mut [u8]) {
    assert!(black_box(outcome).is_ok());
    black_box(out);
}

/// The export, the second program and its quick form must leave the same bytes; theirs are
/// the first three.
pub fn ask_equal(outs: &[Vec<u8>]) {
    assert!(outs[0] == outs[1] && outs[0] == outs[2], "the ways differ");
}

/// Times so many calls and gives the nanoseconds of one.
fn sample(way: &mut dyn FnMut(), calls: usize) -> f64 {
    let start = Instant::now();
    for _ in 0..calls {
        way();
    }
    start.elapsed().as_nanos() as f64 / calls as f64
}

/// Times the ways in turn and gives the median of each.
pub fn medians<const WAYS: usize>(
    repetitions: usize,
    mut ways: [&mut dyn FnMut(); WAYS],
) -> [f64; WAYS] {
    let calls = ways.each_mut().map(|way| {
        sample(way, 3);
        ((SAMPLE / sample(way, 3).max(1.0)) as usize).max(1)
    });
    let medians = in_turn(repetitions, WAYS, |way| sample(ways[way], calls[way]));
    medians.try_into().expect("there is a median of each way")
}

/// Takes so many samples of each way, and gives its median. No way is always the first.
pub fn in_turn(repetitions: usize, ways: usize, mut sample: impl FnMut(usize) -> f64) -> Vec<f64> {
    let mut samples = vec![Vec::new(); ways];
    for turn in 0..repetitions {
        for step in 0..ways {
            let way = (turn + step) % ways;
            samples[way].push(sample(way));
        }
    }
    samples
        .into_iter()
        .map(|mut times| {
            times.sort_by(f64::total_cmp);
            times[times.len() / 2]
        })
        .collect()
}

/// The plain copy, of as many bytes as are written, or read where little or nothing is.
pub fn memcpy(from: &[u8], to: &mut [u8]) {
    to[..from.len()].copy_from_slice(black_box(from));
    black_box(to);
}
