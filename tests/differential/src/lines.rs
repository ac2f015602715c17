//! The index of lines (02, request 6): the three functions of the archive against the model, and
//! against counting through texts.

mod archive;
mod arenas;
mod counted;
mod fences;
mod huge;
mod judge;
mod memcheck;
mod noticed;

use crate::supervise::{all_pass, supervise, End, Progress};
use crate::tally::all_reached;
use arenas::Arenas;
pub use counted::every_place;
pub use fences::random_cases as between_fences;
pub use huge::huge_lengths;
pub use memcheck::random_cases as under_valgrind;
use model::lines::case::Case;
use model::random::Random;
use model::table::judge::lines;
use model::table::lines::{read, write, Row};
use model::ways::lines::Lines;
pub use noticed::all_noticed;

/// A longer line of a table is not printed: the case can be repeated without it.
const PRINTED: usize = 2_000;

/// Makes case `index` of a seed, and its salt, which decides what is around it, and its alignment.
fn case(seed: u64, index: u64) -> (Case, u64) {
    let mut random = Random::numbered(seed, index);
    (model::generate::lines::case(&mut random), random.bits())
}

/// Runs `count` random cases from number `first` on. True if all agree and every way was taken.
pub fn random_cases(seed: u64, count: u64, first: u64) -> bool {
    let end = supervise(|progress| compare_all(progress, seed, count, first));
    if let End::Killed { index, .. } = end {
        tell("lines", seed, index, &end.shown());
    }
    end == End::Verdict(true)
}

fn compare_all(progress: &Progress, seed: u64, count: u64, first: u64) -> bool {
    let mut arenas = Arenas::new();
    let mut ways = Lines::default();
    let agrees = |index| {
        let (case, salt) = case(seed, index);
        ways.note(&case);
        arenas.try_case(&case, salt)
    };
    let tell = |index, what: &str| tell("lines", seed, index, what);
    all_pass(progress, first..first + count, agrees, tell) && all_reached(ways.counts(), 2, count)
}

/// Prints a case that fails, and how to repeat it.
fn tell(command: &str, seed: u64, index: u64, what: &str) {
    println!("case {index} of seed {seed} of the index of lines: {what}");
    println!("  repeat it: differential {command} {seed} 1 {index}");
    let line = write(&Row {
        label: format!("s{seed}-{index}"),
        case: case(seed, index).0,
        shows: "the model's answer".to_string(),
    });
    if line.len() <= PRINTED {
        println!("  as a line of a table (differential lines-vectors FILE):\n{line}");
    }
}

/// Runs every line of a table like tests/lines.tsv through the archive, with several alignments and
/// surroundings, and compares it with the answer in the line. Gives the lines that passed and
/// failed.
pub fn table(text: &str) -> (usize, usize) {
    let mut arenas = Arenas::new();
    lines(text, |line| {
        let row = read(line)?;
        let mut tries = (0..8).map(|salt| arenas.try_case(&row.case, salt));
        tries.try_for_each(|verdict| verdict.map_err(|what| format!("{}: {what}", row.label)))
    })
}
