//! Lengths above 4,294,967,295, whose low 32 bits are a good length.

use crate::archive::{call, given, lengths, AREAS, REPORT, SET};
use crate::case::Case;
use crate::fences::{Fences, Side};
use crate::judge::judge;
use crate::supervise::libc::{self, MAP_NORESERVE, MAP_PRIVATE, PROT_NONE, PROT_READ, PROT_WRITE};
use crate::supervise::{supervise, End};
use crate::windows::{lent_parts, Before, Lent};
use model::answer::Refusal;
use model::house::{write, Item};
use model::{Setting, NO_ITEMS};

/// Lengths for what may have up to 65,536 bytes.
pub const HUGE: [usize; 3] = [1 << 32, (1 << 32) + 5, (1 << 33) + 65_536];
/// The part of a huge set that is accessible, a multiple of every usual page size.
const FRONT: usize = 65_536;

/// Lends one area after the other with a huge length. The text and the buffers are then memory that
/// is not accessible at all: the answer is 2, and nothing is read or written. A set has a front that
/// would be good by itself, and is answered 14 whether it is read or only measured.
pub fn huge_lengths() -> bool {
    let end = supervise(|progress| {
        let inaccessible = huge_memory();
        let fences = Fences::new();
        let lend = (0..REPORT).filter(|&area| area != SET).all(|area| {
            HUGE.iter().all(|&length| {
                progress.at(area as u64);
                answers(&fences, area, (inaccessible, length), Refusal::Lend)
            })
        });
        progress.at(SET as u64);
        lend && huge_sets(&fences)
    });
    if let End::Killed { index, .. } = end {
        println!(
            "a huge length of area {index} ({SET} is the set, 0 the text): {}",
            end.shown()
        );
    }
    end == End::Verdict(true)
}

fn huge_memory() -> *mut u8 {
    libc::map(HUGE[2] + FRONT, PROT_NONE, MAP_PRIVATE | MAP_NORESERVE)
}

/// In 32 bits, the length of each of these sets is that of a good one.
fn huge_sets(fences: &Fences<AREAS>) -> bool {
    let sets = [
        write(&[]),
        write(&[Item::new(b"", b"")]),
        write(&[Item::new(b"a", b"x")]),
    ];
    let memory = huge_memory();
    // SAFETY: the front of the mapping just made.
    let done = unsafe { libc::mprotect(memory.cast(), FRONT, PROT_READ | PROT_WRITE) };
    assert_eq!(done, 0, "mprotect failed");
    sets.iter().all(|set| {
        // SAFETY: the front has room for a few bytes.
        unsafe { std::ptr::copy_nonoverlapping(set.as_ptr(), memory, set.len()) };
        let lengths = [(1 << 32) + set.len(), (1 << 33) + set.len()];
        lengths
            .into_iter()
            .all(|length| answers(fences, SET, (memory, length), Refusal::BadSet))
    })
}

/// Whether the archive gives this refusal, and leaves the rest as it has to, if one area is huge.
fn answers(fences: &Fences<AREAS>, area: usize, huge: Lent, refusal: Refusal) -> bool {
    let case = Case {
        text: b"len(a)".to_vec(),
        set: NO_ITEMS.to_vec(),
        setting: Setting {
            lengths: [100; 7],
            budget: 100,
        },
        salt: area as u64,
    };
    let windows = fences.windows(&lengths(&case), Side::End);
    let before = Before::fill(&windows, &given(&case), &fences.noise, case.salt);
    let mut lent = lent_parts(&windows);
    lent[area] = huge;
    // SAFETY: the huge area exists, if nobody touches what is not accessible.
    let returned = unsafe { call(&lent, case.setting.budget) };
    let verdict = judge(returned, &before.seen(&windows), &refusal.report(0, 0));
    if let Err(what) = &verdict {
        println!(
            "area {area} ({SET} is the set, 0 the text) of {} bytes: {what}",
            huge.1
        );
    }
    verdict.is_ok()
}
