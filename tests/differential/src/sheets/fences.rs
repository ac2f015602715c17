//! What is lent for a sheet between inaccessible pages, and read-only where it is only read.

use super::archive::{call, given, lengths, read_only, AREAS};
use super::judge::judge;
use super::{case, tell};
use crate::fences::{on_both_sides, Fences, Side};
use crate::supervise::try_each;
use crate::windows::{lent_parts, Before};
use model::sheet::case::Case;

/// Runs `count` random cases from number `first` on, twice each. A case that traps is reported, and
/// the run goes on behind it.
pub fn random_cases(seed: u64, count: u64, first: u64) -> bool {
    let fences = Fences::new();
    try_each(
        first..first + count,
        |index| {
            let (case, salt) = case(seed, index);
            on_both_sides(|side| try_case(&fences, &case, salt, side))
        },
        |index, what| tell("sheets-fences", seed, index, what),
    )
}

/// Runs a case; all that lies between the fences is compared.
fn try_case(fences: &Fences<AREAS>, case: &Case, salt: u64, side: Side) -> Result<(), String> {
    let windows = fences.windows(&lengths(case), side);
    let before = Before::fill(&windows, &given(case, salt), &fences.noise, salt);
    // SAFETY: what is lent lies between the fences; it is aligned, as its lengths and the areas are.
    let returned = fences.read_only(read_only(&case.asked), || unsafe {
        call(&case.asked, &lent_parts(&windows))
    });
    judge(returned, &before.seen(&windows), case)
}
