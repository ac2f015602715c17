//! Sets of every form, good and bad ones (02, request 1): the archive against the model, in noise, and
//! many of them between inaccessible pages too.

mod changed;
mod groups;

use crate::arenas::Arenas;
use crate::case::{line, Case};
use crate::fences::Fences;
use crate::supervise::try_each;
use groups::Group;
use model::ways::sets::Sets;

/// A longer line of a table is not printed.
const PRINTED: usize = 4_000;

/// Tries every set of every group. True if all agree and every form of a set was met.
pub fn every_set() -> bool {
    let groups = groups::all();
    // counted to the end: every finding is to be printed
    let failed = groups.iter().filter(|group| !try_group(group)).count();
    failed == 0 && every_form_is_met(&groups)
}

fn try_group(group: &Group) -> bool {
    let count = group.cases.len();
    let fences = if group.fenced { ", fenced too" } else { "" };
    println!("{}: {count} runs{fences}", group.name);
    let mut arenas = Arenas::new();
    let fences = group.fenced.then(Fences::new);
    let agrees = |index: u64| {
        let case = &group.cases[index as usize];
        arenas.try_case(case, &case.expected())?;
        fences.iter().try_for_each(|fences| fences.try_case(case))
    };
    let tell = |index: u64, what: &str| {
        println!("number {index} of them: {what}");
        let case = &group.cases[index as usize];
        let line = line("sets", case, case.expected());
        if line.len() <= PRINTED {
            println!("  as a line of a table (differential vectors FILE):\n{line}");
        }
    };
    count > 0 && try_each(0..count as u64, agrees, tell)
}

/// Prints how often each form was met. False if one never was, or is not answered as 02 asks.
fn every_form_is_met(groups: &[Group]) -> bool {
    let mut forms = Sets::default();
    let mut good = true;
    for case in groups.iter().flat_map(|group| &group.cases) {
        let Case {
            text, set, setting, ..
        } = case;
        if let Err(what) = forms.note(text, set, setting, &case.expected()) {
            println!("{what}\n{}", line("sets", case, case.expected()));
            good = false;
        }
    }
    for (form, _) in forms.counts().iter().filter(|(_, count)| *count == 0) {
        println!("never met: {form}");
        good = false;
    }
    good
}
