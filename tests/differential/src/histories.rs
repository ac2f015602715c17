//! Every byte once (02, request 8): what the archive writes, held to the numbers that the model's history
//! of the run gives to bytes, and to what the request says of them.

mod noticed;

use crate::arenas::Arenas;
use crate::case::{made, Case};
use crate::compare::tell_case;
use crate::judge::{judge, report};
use crate::supervise::{all_pass, supervise, End, Progress};
use crate::tally::all_reached;
use model::generate::{self, diversions, Scale};
use model::history::{check, Numbers};
use model::table::histories::{read, Outcome, Row};
use model::table::judge::lines;
use model::ways::histories::Histories;
use model::Report;
pub use noticed::sentences_noticed;

/// The ways of longer runs are not looked at: they show no more.
const MOST_STEPS: u32 = 1_500;

/// Makes case `index` of a seed. Every second one is made for the request.
fn case(seed: u64, index: u64) -> Case {
    made(seed, index, |random| match index % 2 {
        0 => generate::case(random, Scale::Full),
        _ => diversions::case(random, Scale::Full),
    })
}

/// Runs `count` random cases from number `first` on. True if all agree and every way was taken.
pub fn random_cases(seed: u64, count: u64, first: u64) -> bool {
    let end = supervise(|progress| try_all(progress, seed, count, first));
    if let End::Killed { index, .. } = end {
        tell(seed, index, &end.shown());
    }
    end == End::Verdict(true)
}

fn tell(seed: u64, index: u64, what: &str) {
    tell_case("histories", [seed, index], &case(seed, index), what);
}

fn try_all(progress: &Progress, seed: u64, count: u64, first: u64) -> bool {
    let mut trial = Trial::new();
    let agrees = |index| trial.try_case(&case(seed, index));
    let tell = |index, what: &str| tell(seed, index, what);
    let good = all_pass(progress, first..first + count, agrees, tell);
    println!("{count} cases, {} finished", trial.finished);
    good && all_reached(&trial.ways.counts(), 3, count)
}

struct Trial {
    arenas: Arenas,
    ways: Histories,
    finished: u64,
}

impl Trial {
    fn new() -> Trial {
        Trial {
            arenas: Arenas::new(),
            ways: Histories::default(),
            finished: 0,
        }
    }

    fn try_case(&mut self, case: &Case) -> Result<(), String> {
        let (expected, _, _) = held(&mut self.arenas, case)?;
        if expected.number > 1 {
            return Ok(());
        }
        self.finished += 1;
        if expected.steps > MOST_STEPS {
            return Ok(());
        }
        self.ways.walk(&case.text, &case.set, &expected)
    }
}

/// Runs a case, holds what the archive wrote to what the request says, and compares all else with the
/// model's answer. Gives that, the archive's, and the numbers of the run; a refused one has none.
fn held(arenas: &mut Arenas, case: &Case) -> Result<(Report, Report, Numbers), String> {
    let (expected, trace) = case.recorded();
    let finished = expected.number <= 1;
    let history = if finished { &trace.history[..] } else { &[] };
    let numbers = Numbers::of(history);
    arenas.called(case, |returned, seen| {
        let written = report(seen);
        if finished {
            // first: it says more than a byte that differs
            check(&written, &numbers).map_err(|what| format!("request 8: {what}"))?;
        }
        judge(returned, seen, &expected)?;
        Ok((expected, written, numbers))
    })
}

/// Runs every line of a table like tests/histories.tsv through the archive, with several contents of
/// the lent memory. Gives the lines that passed and failed.
pub fn table(text: &str) -> (usize, usize) {
    let mut arenas = Arenas::new();
    lines(text, |line| {
        let row = read(line)?;
        let mut tries = (0..8).map(|salt| try_row(&mut arenas, &row, salt));
        tries.try_for_each(|verdict| verdict.map_err(|what| format!("{}: {what}", row.label)))
    })
}

/// Number, detail and output are the archive's; the numbers and routes are those of the run.
fn try_row(arenas: &mut Arenas, row: &Row, salt: u64) -> Result<(), String> {
    let case = Case {
        text: row.text.clone(),
        set: row.set.clone(),
        setting: row.setting.clone(),
        salt,
    };
    let (_, written, numbers) = held(arenas, &case)?;
    let got = Outcome::of(&written, &numbers);
    if got == row.expected {
        return Ok(());
    }
    Err(format!(
        "\n  expected {}\n  got      {}",
        row.expected.shown(),
        got.shown()
    ))
}
