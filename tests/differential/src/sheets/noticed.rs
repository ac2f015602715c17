//! Whether the comparisons notice one changed bit, and whether the areas are fenced.

use super::archive::{lengths, AREAS, NAME, SET, SHEET, TEXT};
use super::arenas::Arenas;
use super::case;
use super::judge::judge;
use crate::noticed::{calls_noticed, fences_trap, tamper, SEED};
use crate::windows::Seen;

/// Every way of tampering is noticed, and each was tried.
pub fn all_noticed() -> bool {
    let bits = bits_noticed();
    let fences = fences_trap(&lengths(&case(SEED, 0).0), &[TEXT, SET, SHEET, NAME]);
    bits && fences
}

/// One bit of a word of the sheet, of the bad line, of the report, of a buffer, of what is only read, of
/// what is around them or of the answer.
fn bits_noticed() -> bool {
    let mut arenas = Arenas::new();
    calls_noticed(|index, tried| {
        let (case, salt) = case(SEED, index);
        let judge = |returned, seen: &[Seen; AREAS]| judge(returned, seen, &case);
        arenas.called(&case, salt, |returned, seen| {
            tamper(index, returned, seen, judge, tried)
        })
    })
}
