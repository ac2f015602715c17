//! `random SEED COUNT` writes random cases with the model's answers as a table, and counts on
//! standard error. `random --demand3 SEED COUNT` tries the letter's third demand on random pairs of
//! settings.

use model::demand3::try_pair;
use model::generate::{case, pair, Scale};
use model::predefined::{Calls, Predefined};
use model::random::Random;
use model::table::{write, Row, HEADER};
use model::{expand_traced, Report, Trace, ANSWERS};
use std::io::{BufWriter, Write};
use std::process::ExitCode;

fn main() -> ExitCode {
    let arguments: Vec<String> = std::env::args().skip(1).collect();
    let words: Vec<&str> = arguments.iter().map(String::as_str).collect();
    let (demand3, numbers) = match words[..] {
        ["--demand3", seed, count] => (true, (seed.parse(), count.parse())),
        [seed, count] => (false, (seed.parse(), count.parse())),
        _ => return usage(),
    };
    let (Ok(seed), Ok(count)) = numbers else {
        return usage();
    };
    if demand3 {
        return try_demand3(seed, count);
    }
    match write_cases(seed, count) {
        Ok(()) => ExitCode::SUCCESS,
        Err(error) => {
            eprintln!("{error}");
            ExitCode::from(2)
        }
    }
}

fn usage() -> ExitCode {
    eprintln!("use: random SEED COUNT, or random --demand3 SEED COUNT");
    ExitCode::from(2)
}

/// How many cases ended how, and which macros they called.
#[derive(Default)]
struct Counts {
    answers: [usize; ANSWERS],
    room: [usize; 7],
    unclosed: [usize; 3],
    calls: Calls,
}

impl Counts {
    fn add(&mut self, report: &Report, trace: &Trace) {
        self.answers[report.number as usize] += 1;
        match report.number {
            4 => self.room[report.detail as usize - 1] += 1,
            5 => self.unclosed[report.detail as usize - 1] += 1,
            _ => {}
        }
        for (sum, calls) in self.calls.iter_mut().zip(trace.calls) {
            *sum += calls;
        }
    }

    fn print(&self) {
        for (number, count) in self.answers.iter().enumerate() {
            eprintln!("answer {number:2}\t{count}");
        }
        for (i, count) in self.room.iter().enumerate() {
            eprintln!("room {}\t\t{count}", i + 1);
        }
        for (i, count) in self.unclosed.iter().enumerate() {
            eprintln!("unclosed {}\t{count}", i + 1);
        }
        for (which, count) in Predefined::ALL.iter().zip(self.calls) {
            eprintln!("{:11}\t{count}", which.name());
        }
    }
}

fn write_cases(seed: u64, count: usize) -> std::io::Result<()> {
    let mut random = Random::new(seed);
    let mut counts = Counts::default();
    let mut out = BufWriter::new(std::io::stdout().lock());
    writeln!(out, "{HEADER}")?;
    for i in 1..=count {
        let case = case(&mut random, Scale::Small);
        let (expected, trace) = expand_traced(&case.text, &case.set, &case.setting);
        counts.add(&expected, &trace);
        let row = Row {
            item: format!("r{seed}-{i}"),
            text: case.text,
            set: case.set,
            setting: case.setting,
            expected,
        };
        writeln!(out, "{}", write(&row))?;
    }
    out.flush()?;
    counts.print();
    Ok(())
}

fn try_demand3(seed: u64, count: usize) -> ExitCode {
    let mut random = Random::new(seed);
    let mut answers = [0usize; ANSWERS];
    let mut violations = 0;
    for _ in 0..count {
        let pair = pair(&mut random, Scale::Small);
        match try_pair(&mut random, &pair) {
            Ok(number) => answers[number as usize] += 1,
            Err(violation) => {
                println!("{violation}");
                violations += 1;
            }
        }
    }
    for (number, count) in answers.iter().enumerate() {
        println!("first answer {number:2}\t{count}");
    }
    println!("{count} pairs, {violations} violations");
    ExitCode::from(u8::from(violations > 0))
}
