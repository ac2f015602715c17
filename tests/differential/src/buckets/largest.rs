//! Tables of as many definitions as may be: 65,536 of a name of one byte, without texts.

use super::Trial;
use crate::case::Case;
use crate::supervise::{all_pass, supervise, End, Progress};
use model::{Setting, LIMIT, NO_ITEMS};

/// What is done to the table, and then asked. `b` is its oldest definition and `a` has all others; `a` is
/// in the bucket of ifdef.
const ENDS: [&str; 8] = [
    "a`'b`'c;ifdef(`a',1,2)ifdef(`c',1,2)popdef(`a')pushdef(`c')c;a;b;popdef(`c')pushdef(`a')a",
    "popdef(`b')a`'b;pushdef(`b')b`'a;popdef(`a')define(`a',`3')a;b;popdef(`b')a",
    "undefine(`b')define(`a')a;copydef(`len',`a')a(123)popdef(`a')a;ifdef(`b',1,2)",
    "undefine(`a')a;b;ifdef(`a',1,2)define(`a',`3')a;popdef(`b',`a')a;b",
    "copydef(`len',`b')b(123)copydef(`a',`b')b;popdef(`a',`a')define(`c')define(`d')c`'d;a(4)b",
    "popdef(`ifdef')ifdef(`a',1,2)",
    "pushdef(`a')a",
    "define(`a',`4')a",
];
/// More steps than there are.
const STEPS: u32 = 2_000_000;

/// 65,535 definitions of `a` over one of `b`. What makes most of them goes at last, and the rest are
/// written out.
fn table() -> String {
    let ten = |what: &str| what.repeat(10);
    let made = format!(
        "define(`b')define(`t',`{}')define(`u',`{}')define(`v',`{}'){}undefine(`t',`u',`v')",
        ten("pushdef(`a')"),
        ten("t()"),
        ten("u()"),
        "v()".repeat(LIMIT / 1_000 - 1),
    );
    let rest = LIMIT - 1 - (LIMIT / 1_000 - 1) * 1_000;
    made + &"pushdef(`a')".repeat(rest)
}

fn case(index: u64) -> Case {
    Case {
        text: (table() + ENDS[index as usize]).into_bytes(),
        set: NO_ITEMS.to_vec(),
        setting: Setting {
            budget: STEPS,
            ..Setting::ample()
        },
        salt: index,
    }
}

/// Tries all of them. True if they agree, and each came to its table.
pub fn largest_tables() -> bool {
    let end = supervise(try_all);
    if let End::Killed { index, .. } = end {
        println!("{}: {}", ENDS[index as usize], end.shown());
    }
    end == End::Verdict(true)
}

fn try_all(progress: &Progress) -> bool {
    let mut trial = Trial::new();
    let agrees = |index| {
        let case = case(index);
        let (report, trace) = case.traced();
        if trace.peaks[2] != LIMIT {
            return Err(format!("there are {} bytes of definitions", trace.peaks[2]));
        }
        trial.try_case(&case, &report, false)
    };
    let tell = |index, what: &str| println!("{}: {what}", ENDS[index as usize]);
    let good = all_pass(progress, 0..ENDS.len() as u64, agrees, tell);
    println!("{} tables of {LIMIT} definitions", trial.runs);
    good
}
