//! Names of one bucket, a predefined one among them, and one of another bucket: changed in every order.

use super::Trial;
use crate::case::{line, Case};
use crate::supervise::{all_pass, supervise, End, Progress};
use model::buckets::{bucket_of, sharing};
use model::{Setting, NO_ITEMS};

/// So many changes are made, each of any kind to any of the names.
const CHANGES: usize = 4;
/// Of so many orders one gets tight rooms too.
const TIGHT: u64 = 7;
/// Ample room for these texts.
const ROOM: usize = 1_000;
const STEPS: u32 = 1_000;

/// What may be done to a name; `@` stands for it, `~` for the other one of its bucket, and `#` for the
/// number of the change. To the name of another bucket only the first two.
const KINDS: [&str; 5] = [
    "pushdef(`@',`#:$1;')",
    "popdef(`@')",
    "define(`@',`#:$1;')",
    "undefine(`@')",
    "copydef(`~',`@')",
];

/// The names, and each change of each of them.
struct Orders {
    names: Vec<String>,
    changes: Vec<String>,
}

impl Orders {
    /// `len`, another name of its bucket and one that is not in it.
    fn new() -> Orders {
        let bucket = bucket_of(b"len");
        let mut names = sharing(bucket, "sway_", 0, 1);
        names.push("len".to_string());
        names.extend(sharing((bucket + 1) % 199, "sway_", 0, 1));
        let mut changes = Vec::new();
        for (number, name) in names.iter().enumerate() {
            let other = &names[(number + 1) % 2];
            let kinds = if number < 2 { &KINDS[..] } else { &KINDS[..2] };
            let changed = |kind: &&str| kind.replace('@', name).replace('~', other);
            changes.extend(kinds.iter().map(changed));
        }
        Orders { names, changes }
    }

    fn count(&self) -> u64 {
        self.changes.len().pow(CHANGES as u32) as u64
    }

    /// The text of an order: the changes, one after the other, and then all names are used and asked for.
    /// A copy of what means nothing ends it.
    fn text(&self, index: u64) -> String {
        let mut text = String::from("define(`other_',`0:$1;')");
        let mut rest = index as usize;
        for number in 1..=CHANGES {
            let change = &self.changes[rest % self.changes.len()];
            rest /= self.changes.len();
            text += &change.replace('#', &number.to_string());
        }
        for name in &self.names {
            text += &format!("{name}(12)ifdef(`{name}',1,2){name};");
        }
        text + "other_(3)"
    }

    fn case(&self, index: u64) -> Case {
        Case {
            text: self.text(index).into_bytes(),
            set: NO_ITEMS.to_vec(),
            setting: Setting {
                lengths: [ROOM; 7],
                budget: STEPS,
            },
            salt: index,
        }
    }
}

/// Tries every order. True if all agree.
pub fn every_order() -> bool {
    let orders = Orders::new();
    let end = supervise(|progress| try_all(progress, &orders));
    if let End::Killed { index, .. } = end {
        println!("{:?}: {}", orders.text(index), end.shown());
    }
    end == End::Verdict(true)
}

fn try_all(progress: &Progress, orders: &Orders) -> bool {
    let mut trial = Trial::new();
    let agrees = |index| try_order(&mut trial, orders, index);
    let tell = |index, what: &str| println!("{:?}: {what}", orders.text(index));
    let good = all_pass(progress, 0..orders.count(), agrees, tell);
    println!("{} texts, {} runs", orders.count(), trial.runs);
    let counts = trial.ways.counts();
    let taken = counts.iter().filter(|(_, count)| *count > 0).count();
    println!("{taken} of {} ways taken", counts.len());
    good
}

fn try_order(trial: &mut Trial, orders: &Orders, index: u64) -> Result<(), String> {
    let mut case = orders.case(index);
    let (report, trace) = case.traced();
    let settings = if index.is_multiple_of(TIGHT) {
        super::tighter(&case, &report, &trace)
    } else {
        Vec::new()
    };
    let all = std::iter::once(case.setting.clone()).chain(settings);
    for setting in all {
        case.setting = setting;
        let expected = case.expected();
        let verdict = trial.try_case(&case, &expected, true);
        verdict.map_err(|what| format!("{what}\n{}", line("orders", &case, expected)))?;
    }
    Ok(())
}
