//! Lent memory between inaccessible pages: one byte read or written outside traps.
//!
//! Each case is run twice, once with the end of the text, of the set, of each buffer and of the report
//! against an inaccessible page, once with their beginning behind one. Text and set lie in read-only
//! memory meanwhile.

use crate::archive::{call, given, lengths, AREAS, SET, TEXT};
use crate::case::{case, line, Case};
use crate::judge::judge;
use crate::noise::{Noise, LONGEST, LONGEST_SET};
use crate::supervise::libc::{self, MAP_PRIVATE, PROT_NONE, PROT_READ, PROT_WRITE};
use crate::supervise::try_each;
use crate::windows::{lent_parts, Before, Window};

/// A multiple of every usual page size.
const FENCE: usize = 65_536;
/// How much lies between two fences. Most of it is never touched.
const BETWEEN: usize = LONGEST_SET;

/// The side on which the lent memory touches an inaccessible page.
#[derive(Clone, Copy, Debug, PartialEq, Eq)]
pub enum Side {
    End,
    Beginning,
}

/// Areas with a fence on each side of each.
pub struct Fences<const N: usize> {
    starts: [*mut u8; N],
    pub noise: Noise,
}

impl<const N: usize> Fences<N> {
    pub fn new() -> Fences<N> {
        Fences {
            starts: std::array::from_fn(|_| fenced_area()),
            noise: Noise::new(),
        }
    }

    /// The windows for areas of these lengths: the memory beside a fence, with as much behind what
    /// is lent as a mistake might reach.
    pub fn windows(&self, lengths: &[usize; N], side: Side) -> [Window; N] {
        std::array::from_fn(|area| {
            let length = LONGEST.max(lengths[area] + FENCE);
            match side {
                Side::End => Window {
                    // SAFETY: the window lies between the fences.
                    start: unsafe { self.starts[area].add(BETWEEN - length) },
                    length,
                    lent: length - lengths[area]..length,
                },
                Side::Beginning => Window {
                    start: self.starts[area],
                    length,
                    lent: 0..lengths[area],
                },
            }
        })
    }

    /// Does something while these areas are read-only.
    pub fn read_only<T>(&self, areas: &[usize], work: impl FnOnce() -> T) -> T {
        self.protect(areas, PROT_READ);
        let done = work();
        self.protect(areas, PROT_READ | PROT_WRITE);
        done
    }

    fn protect(&self, areas: &[usize], protection: i32) {
        for &area in areas {
            // SAFETY: the whole of an area, which nobody reads or writes meanwhile.
            let done = unsafe { libc::mprotect(self.starts[area].cast(), BETWEEN, protection) };
            assert_eq!(done, 0, "mprotect failed");
        }
    }
}

impl Fences<AREAS> {
    /// Runs a case on both sides.
    pub fn try_case(&self, case: &Case) -> Result<(), String> {
        on_both_sides(|side| self.try_side(case, side))
    }

    /// Runs a case; all that lies in the windows is compared.
    fn try_side(&self, case: &Case, side: Side) -> Result<(), String> {
        let windows = self.windows(&lengths(case), side);
        let before = Before::fill(&windows, &given(case), &self.noise, case.salt);
        // SAFETY: what is lent lies between the fences; the report is aligned, as its length and
        // the areas are.
        let returned = self.read_only(&[TEXT, SET], || unsafe {
            call(&lent_parts(&windows), case.setting.budget)
        });
        judge(returned, &before.seen(&windows), &case.expected())
    }
}

/// Tries something on both sides, on the second even if the first fails.
pub fn on_both_sides(try_side: impl Fn(Side) -> Result<(), String>) -> Result<(), String> {
    let [end, beginning] = [Side::End, Side::Beginning]
        .map(|side| try_side(side).map_err(|what| format!("{side:?}: {what}")));
    end.and(beginning)
}

/// Memory of `BETWEEN` bytes with a fence before and behind.
fn fenced_area() -> *mut u8 {
    let whole = libc::map(FENCE + BETWEEN + FENCE, PROT_NONE, MAP_PRIVATE);
    // SAFETY: the inner part of the mapping just made.
    unsafe {
        let start = whole.add(FENCE);
        assert_eq!(
            libc::mprotect(start.cast(), BETWEEN, PROT_READ | PROT_WRITE),
            0,
            "mprotect failed"
        );
        start
    }
}

/// Runs `count` random cases from number `first` on, twice each. A case that traps is reported, and
/// the run goes on behind it.
pub fn random_cases(seed: u64, count: u64, first: u64) -> bool {
    let fences = Fences::new();
    try_each(
        first..first + count,
        |index| fences.try_case(&case(seed, index)),
        |index, what| tell(seed, index, what),
    )
}

fn tell(seed: u64, index: u64, what: &str) {
    let case = case(seed, index);
    println!("case {index} of seed {seed} between fences: {what}");
    println!("  repeat it: differential fences {seed} 1 {index}");
    let expected = case.expected();
    println!("{}", line(&format!("f{seed}-{index}"), &case, expected));
}
