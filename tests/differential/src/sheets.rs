//! The sheet (02, request 4): the three functions of the archive against the model.

mod archive;
mod arenas;
mod decimals;
mod fences;
mod huge;
mod judge;
mod memcheck;
mod noticed;
mod words;

use crate::supervise::{all_pass, supervise, End, Progress};
use crate::tally::all_reached;
use arenas::Arenas;
pub use decimals::random_decimals;
pub use fences::random_cases as between_fences;
pub use huge::huge_lengths;
pub use memcheck::random_cases as under_valgrind;
use model::generate::Scale;
use model::random::Random;
use model::sheet::case::{Asked, Case};
use model::sheet::MOST_LINES;
use model::table::judge::lines;
use model::table::sheets::{has_a_line, read, write, Row};
use model::ways::sheets::Sheets;
pub use noticed::all_noticed;

/// A longer line of a table is not printed: the case can be repeated without it.
const PRINTED: usize = 2_000;

/// Makes case `index` of a seed, and its salt, which decides what is around it, and its alignment.
fn generated(seed: u64, index: u64) -> (Case, u64) {
    let mut random = Random::numbered(seed, index);
    let case = model::generate::sheets::case(&mut random, Scale::Full);
    (case, random.bits())
}

/// The case that the archive is asked: the model answers of any lines, but a sheet has no more than
/// 256.
fn askable(case: Case) -> Case {
    match case.asked {
        Asked::Question { lines, text, name } if lines.len() > MOST_LINES => {
            let lines = lines[..MOST_LINES].to_vec();
            Case::new(Asked::Question { lines, text, name })
        }
        _ => case,
    }
}

fn case(seed: u64, index: u64) -> (Case, u64) {
    let (case, salt) = generated(seed, index);
    (askable(case), salt)
}

/// Runs `count` random cases from number `first` on. True if all agree and every way was taken.
pub fn random_cases(seed: u64, count: u64, first: u64) -> bool {
    let end = supervise(|progress| compare_all(progress, seed, count, first));
    if let End::Killed { index, .. } = end {
        tell("sheets", seed, index, &end.shown());
    }
    end == End::Verdict(true)
}

fn compare_all(progress: &Progress, seed: u64, count: u64, first: u64) -> bool {
    let mut arenas = Arenas::new();
    let mut ways = Sheets::default();
    let agrees = |index| {
        let (case, salt) = generated(seed, index);
        ways.note(&case);
        arenas.try_case(&askable(case), salt)
    };
    let tell = |index, what: &str| tell("sheets", seed, index, what);
    all_pass(progress, first..first + count, agrees, tell) && all_reached(ways.counts(), 2, count)
}

/// Prints a case that fails, and how to repeat it.
fn tell(command: &str, seed: u64, index: u64, what: &str) {
    println!("case {index} of seed {seed} of the sheet: {what}");
    println!("  repeat it: differential {command} {seed} 1 {index}");
    let row = Row {
        label: format!("s{seed}-{index}"),
        case: case(seed, index).0,
        shows: "the model's answer".to_string(),
    };
    let line = write(&row);
    if has_a_line(&row.case) && line.len() <= PRINTED {
        println!("  as a line of a table (differential sheets-vectors FILE):\n{line}");
    }
}

/// Runs every line of a table like tests/sheets.tsv through the archive, with several alignments and
/// surroundings, and compares it with the answer in the line. Gives the lines that passed and
/// failed.
pub fn table(text: &str) -> (usize, usize) {
    let mut arenas = Arenas::new();
    lines(text, |line| {
        let row = read(line)?;
        let case = askable(row.case);
        let mut tries = (0..8).map(|salt| arenas.try_case(&case, salt));
        tries.try_for_each(|verdict| verdict.map_err(|what| format!("{}: {what}", row.label)))
    })
}
