//! The archive against the model: random cases, and the lines of a table.

use crate::arenas::Arenas;
use crate::case::{case, line, Case};
use crate::shrink::shrink;
use crate::supervise::libc::SIGALRM;
use crate::supervise::{all_pass, supervise, End, Progress};
use crate::tally::{all_reached, Tally};
use model::table::{hex, judge, read};

/// The budget of a case that is made smaller.
const FEW_STEPS: u32 = 30_000;

/// Runs `count` random cases from number `first` on. True if all agree and everything was reached.
pub fn random_cases(seed: u64, count: u64, first: u64) -> bool {
    let end = supervise(|progress| compare_all(progress, seed, count, first));
    match end {
        End::Verdict(verdict) => verdict,
        End::Panicked => false,
        End::Killed { index, .. } => {
            tell(seed, index, &end.shown());
            false
        }
    }
}

fn compare_all(progress: &Progress, seed: u64, count: u64, first: u64) -> bool {
    let mut arenas = Arenas::new();
    let mut tally = Tally::default();
    let agrees = |index| {
        let case = case(seed, index);
        let (expected, trace) = case.traced();
        tally.add(&expected, &trace);
        let ways = tally.add_ways(&case, &expected);
        arenas.try_case(&case, &expected).and(ways)
    };
    let tell = |index, what: &str| tell(seed, index, what);
    all_pass(progress, first..first + count, agrees, tell) && all_reached(&tally.counts(), 4, count)
}

fn tell(seed: u64, index: u64, what: &str) {
    tell_case("compare", [seed, index], &case(seed, index), what);
}

/// Prints a case that fails, by its seed and number, how to repeat it, and a smaller one.
pub fn tell_case(command: &str, [seed, index]: [u64; 2], found: &Case, what: &str) {
    Progress::rest();
    println!("case {index} of seed {seed}: {what}");
    println!("  repeat it: differential {command} {seed} 1 {index}");
    println!("  as a line of a table (differential vectors FILE), with the model's answer:");
    let item = format!("s{seed}-{index}");
    print_line(&item, found);
    tell_smaller(found, &item);
}

/// Prints a smaller case than one that fails.
pub fn tell_smaller(found: &Case, item: &str) {
    if let Some(small) = smaller(found) {
        println!(
            "  smaller: {:?}, set {}, {:?}",
            String::from_utf8_lossy(&small.text),
            hex(&small.set),
            small.setting
        );
        print_line(&format!("{item}-small"), &small);
        supervise(|progress| {
            println!("  {:?}", alone(progress, &small));
            true
        });
    }
}

fn print_line(item: &str, case: &Case) {
    println!("{}", line(item, case, case.expected()));
}

/// A smaller case that fails, if the case does so within few steps; another one could be without
/// end.
fn smaller(found: &Case) -> Option<Case> {
    let fails = |case: &Case| match supervise(|progress| alone(progress, case).is_ok()) {
        End::Verdict(good) => !good,
        End::Killed { signal, .. } => signal != SIGALRM,
        End::Panicked => false,
    };
    let mut short = found.clone();
    short.setting.budget = short.setting.budget.min(FEW_STEPS);
    fails(&short).then(|| shrink(&short, fails))
}

/// Tries one case with memory of its own.
fn alone(progress: &Progress, case: &Case) -> Result<(), String> {
    progress.at(0);
    Arenas::new().try_case(case, &case.expected())
}

/// Runs every line of a table like tests/vectors.tsv through the archive and compares it with the
/// answer in the line. Each line is tried with several contents of the lent memory. Gives the lines
/// that passed and failed.
pub fn table(text: &str) -> (usize, usize) {
    let mut arenas = Arenas::new();
    judge::lines(text, |line| try_line(&mut arenas, line))
}

fn try_line(arenas: &mut Arenas, line: &str) -> Result<(), String> {
    let row = read(line)?;
    for salt in 0..8 {
        let case = Case {
            text: row.text.clone(),
            set: row.set.clone(),
            setting: row.setting.clone(),
            salt,
        };
        let verdict = arenas.try_case(&case, &row.expected);
        verdict.map_err(|what| {
            format!(
                "{}, text {}..: {what}",
                row.item,
                hex(&row.text[..row.text.len().min(100)])
            )
        })?;
    }
    Ok(())
}
