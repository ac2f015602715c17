//! Tables of hundreds of names, many of them in one bucket, and names of one bucket changed in every
//! order: request 9 of 02. The archive against the model, which knows of no buckets, with ample and with
//! tight rooms; some between inaccessible pages too.

mod largest;
mod orders;

use crate::archive::AREAS;
use crate::arenas::Arenas;
use crate::case::Case;
use crate::compare::tell_smaller;
use crate::fences::Fences;
use crate::supervise::{all_pass, supervise, End, Progress};
use crate::tally::all_counted;
use model::generate::buckets::tables;
use model::random::Random;
use model::ways::buckets::Buckets;
use model::{Report, Setting, Trace, NO_ITEMS};

pub use largest::largest_tables;
pub use orders::every_order;

/// The most definitions that a table has at once, about.
const MOST: usize = 600;
/// More steps than a table needs, but for one that has come to call itself.
const STEPS: u32 = 50_000;
/// From so many tables on every way must be taken.
const ENOUGH: u64 = 200;
/// Of so many tables one is tried between inaccessible pages.
const FENCED: u64 = 8;

/// Table `index` of a seed, with ample room.
fn case(seed: u64, index: u64) -> Case {
    let mut random = Random::numbered(seed, index);
    Case {
        text: tables(&mut random, MOST),
        set: NO_ITEMS.to_vec(),
        setting: Setting {
            budget: STEPS,
            ..Setting::ample()
        },
        salt: random.bits(),
    }
}

/// What less a table gets, by what it needs: just that; one byte less for its definitions, and any less;
/// one step less, and any less.
fn tighter(case: &Case, report: &Report, trace: &Trace) -> Vec<Setting> {
    let mut random = Random::numbered(case.salt, 0);
    let exact = Setting {
        lengths: trace.peaks,
        // a refused step needs its place in the budget too
        budget: report.steps + u32::from(report.number > 1),
    };
    let held = trace.peaks[2];
    let rooms = [random.below(held + 1), held.saturating_sub(1)];
    let budgets = [random.below(report.steps as usize + 1) as u32, report.steps];
    let rooms = rooms.map(|room| {
        let mut setting = case.setting.clone();
        setting.lengths[2] = room;
        setting
    });
    let budgets = budgets.map(|steps| Setting {
        budget: steps.saturating_sub(1),
        ..case.setting.clone()
    });
    let all = rooms.into_iter().chain(budgets);
    all.chain([exact]).collect()
}

/// Table `index` of a seed, with ample room and with less.
pub fn cases(seed: u64, index: u64) -> Vec<Case> {
    let case = case(seed, index);
    let (report, trace) = case.traced();
    let less = tighter(&case, &report, &trace).into_iter();
    let less = less.map(|setting| Case {
        setting,
        ..case.clone()
    });
    less.chain([case.clone()]).collect()
}

/// Tries `count` tables from number `first` on. True if all agree and every way was taken.
pub fn random_tables(seed: u64, count: u64, first: u64) -> bool {
    let end = supervise(|progress| try_all(progress, seed, first..first + count));
    if let End::Killed { index, .. } = end {
        println!("table {index} of seed {seed}: {}", end.shown());
        println!("  repeat it: differential buckets {seed} 1 {index}");
    }
    end == End::Verdict(true)
}

fn try_all(progress: &Progress, seed: u64, indexes: std::ops::Range<u64>) -> bool {
    let count = indexes.end - indexes.start;
    let mut trial = Trial::new();
    let agrees = |index| trial.try_table(seed, index);
    let tell = |index, what: &str| {
        println!("table {index} of seed {seed}: {what}");
        println!("  repeat it: differential buckets {seed} 1 {index}");
    };
    let good = all_pass(progress, indexes, agrees, tell);
    println!("{count} tables, {} runs", trial.runs);
    let counted = all_counted(&trial.ways.counts(), 3, count < ENOUGH);
    good && counted
}

struct Trial {
    arenas: Arenas,
    fences: Fences<AREAS>,
    ways: Buckets,
    runs: u64,
    /// Whether a smaller case was told of: to make one takes long.
    told: bool,
}

impl Trial {
    fn new() -> Trial {
        Trial {
            arenas: Arenas::new(),
            fences: Fences::new(),
            ways: Buckets::default(),
            runs: 0,
            told: false,
        }
    }

    fn try_table(&mut self, seed: u64, index: u64) -> Result<(), String> {
        let mut case = case(seed, index);
        let (report, trace) = case.traced();
        self.try_case(&case, &report, true)?;
        let tighter = tighter(&case, &report, &trace);
        for (number, setting) in tighter.into_iter().enumerate() {
            case.setting = setting;
            case.salt = case.salt.wrapping_add(1);
            let expected = case.expected();
            // the random ones show what others don't
            self.try_case(&case, &expected, number % 2 == 0)?;
        }
        if index.is_multiple_of(FENCED) {
            self.fences.try_case(&case)?;
        }
        Ok(())
    }

    /// Tries a case, and tells of a smaller one if it is the first that fails.
    fn try_case(&mut self, case: &Case, expected: &Report, walked: bool) -> Result<(), String> {
        self.runs += 1;
        let verdict = self.arenas.try_case(case, expected);
        if verdict.is_err() && !self.told {
            self.told = true;
            Progress::rest();
            tell_smaller(case, "table");
        }
        verdict?;
        if walked {
            let (text, set) = (&case.text, &case.set);
            return self.ways.walk(text, set, &case.setting, expected);
        }
        Ok(())
    }
}
