//! `random_histories SEED COUNT` writes short random runs with their histories as a table like
//! tests/histories.tsv. `random_histories --check SEED COUNT` holds what request 8 says to random texts,
//! every second one made for it; it ends with 'N texts, M finished, K violations', and every way of the
//! request must have been taken.

use model::expand_recorded;
use model::generate::diversions::{self, finished};
use model::generate::{case, Case, Scale};
use model::history::{check, Numbers};
use model::random::Random;
use model::table::hex;
use model::table::histories::{write, Outcome, Row, HEADER};
use model::ways::histories::Histories;
use std::io::{BufWriter, Error, Write};
use std::process::ExitCode;

/// The ways of longer runs are not looked at: they show no more.
const MOST_STEPS: u32 = 1_500;

fn main() -> ExitCode {
    let arguments: Vec<String> = std::env::args().skip(1).collect();
    let words: Vec<&str> = arguments.iter().map(String::as_str).collect();
    let (checked, numbers) = match words[..] {
        ["--check", seed, count] => (true, (seed.parse(), count.parse())),
        [seed, count] => (false, (seed.parse(), count.parse())),
        _ => return usage(),
    };
    let (Ok(seed), Ok(count)) = numbers else {
        return usage();
    };
    if checked {
        return check_texts(seed, count);
    }
    match write_cases(seed, count) {
        Ok(()) => ExitCode::SUCCESS,
        Err(error) => {
            eprintln!("{error}");
            ExitCode::from(2)
        }
    }
}

fn usage() -> ExitCode {
    eprintln!("use: random_histories SEED COUNT, or random_histories --check SEED COUNT");
    ExitCode::from(2)
}

fn write_cases(seed: u64, count: u64) -> std::io::Result<()> {
    let mut random = Random::new(seed);
    let mut out = BufWriter::new(std::io::stdout().lock());
    writeln!(out, "{HEADER}")?;
    for i in 1..=count {
        let Case { text, set, setting } = finished(&mut random);
        let (report, trace) = expand_recorded(&text, &set, &setting);
        let numbers = Numbers::of(&trace.history);
        check(&report, &numbers).map_err(Error::other)?;
        let row = Row {
            label: format!("h{seed}-{i}"),
            text,
            set,
            setting,
            expected: Outcome::of(&report, &numbers),
            why: "-".to_string(),
        };
        writeln!(out, "{}", write(&row))?;
    }
    out.flush()
}

/// What random texts came to.
#[derive(Default)]
struct Checked {
    finished: u64,
    violations: u64,
    ways: Histories,
}

impl Checked {
    fn add(&mut self, case: &Case) {
        let Case { text, set, setting } = case;
        let (report, trace) = expand_recorded(text, set, setting);
        if report.number > 1 {
            return;
        }
        self.finished += 1;
        let mut verdict = check(&report, &Numbers::of(&trace.history));
        if report.steps <= MOST_STEPS {
            verdict = verdict.and(self.ways.walk(text, set, &report));
        }
        if let Err(what) = verdict {
            println!("text {}, set {}, {setting:?}: {what}", hex(text), hex(set));
            self.violations += 1;
        }
    }
}

fn check_texts(seed: u64, count: u64) -> ExitCode {
    let mut random = Random::new(seed);
    let mut checked = Checked::default();
    for i in 0..count {
        checked.add(&match i % 2 {
            0 => case(&mut random, Scale::Small),
            _ => diversions::case(&mut random, Scale::Small),
        });
    }
    let mut missed = 0;
    for (way, taken) in checked.ways.counts() {
        println!("{way:26}{taken:9}");
        if taken == 0 {
            println!("no text takes the way: {way}");
            missed += 1;
        }
    }
    println!(
        "{count} texts, {} finished, {} violations",
        checked.finished, checked.violations
    );
    ExitCode::from(u8::from(missed + checked.violations > 0))
}
