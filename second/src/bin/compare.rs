//! Compares the library's exports, and if asked the two programs, with the
//! second program.

use second::judge::Judge;
use second::programs::{self, Commands};
use second::{cases, limits};
use std::process::ExitCode;

const USAGE: &str = "compare [--cases N] [--seed S] [--only K] [--trace] \
    [--listing COMMAND] [--release-copy COMMAND] [--program-cases K]";

struct Settings {
    cases: u64,
    seed: u64,
    only: Option<u64>,
    trace: bool,
    commands: Commands,
    program_cases: u64,
}

fn main() -> ExitCode {
    let settings = match settings(std::env::args().skip(1)) {
        Ok(settings) => settings,
        Err(wrong) => {
            eprintln!("{wrong}; usage: {USAGE}");
            return ExitCode::from(2);
        }
    };
    let mut judge = Judge::new(settings.trace);
    if let Some(case) = settings.only {
        cases::run(&mut judge, settings.seed, case);
        println!("{} differences in case {case}.", judge.differences());
        return ExitCode::from(u8::from(judge.differences() > 0));
    }
    limits::run(&mut judge, settings.seed);
    for case in 0..settings.cases {
        cases::run(&mut judge, settings.seed, case);
    }
    programs::run(&mut judge, &settings.commands, settings.seed, settings.program_cases);
    println!("seed {}, {} seeded cases", settings.seed, settings.cases);
    let good = judge.report();
    if good {
        println!("All {} cases compared are equal.", judge.cases());
        ExitCode::SUCCESS
    } else {
        println!("The comparison failed with {} differences.", judge.differences());
        ExitCode::FAILURE
    }
}

fn settings(mut words: impl Iterator<Item = String>) -> Result<Settings, String> {
    let mut settings = Settings {
        cases: 20_000,
        seed: 1,
        only: None,
        trace: false,
        commands: Commands::default(),
        program_cases: 60,
    };
    while let Some(word) = words.next() {
        if word == "--trace" {
            settings.trace = true;
            continue;
        }
        let value = words.next().ok_or(format!("{word} needs a value"))?;
        let number = || value.parse().map_err(|_| format!("{word} needs a number"));
        match word.as_str() {
            "--cases" => settings.cases = number()?,
            "--seed" => settings.seed = number()?,
            "--only" => settings.only = Some(number()?),
            "--program-cases" => settings.program_cases = number()?,
            "--listing" => settings.commands.listing = Some(value),
            "--release-copy" => settings.commands.release_copy = Some(value),
            _ => return Err(format!("{word} is not known")),
        }
    }
    Ok(settings)
}
