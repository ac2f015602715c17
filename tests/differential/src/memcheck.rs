//! Cases for valgrind: each area is a block of the heap of just its length, and holds nothing that
//! is defined before the call. So valgrind sees a byte read or written outside, and an answer that
//! hangs on what the lent memory held before.

use crate::archive::{call, given, lengths, AREAS, REPORT, TEXT};
use crate::case::{case, line};
use crate::judge::numbers;
use crate::supervise::libc;
use crate::windows::Lent;
use model::Report;

/// After so many disagreements a run stops.
const PATIENCE: usize = 3;

/// Blocks of the heap, freed in the end.
pub struct Blocks<const N: usize>(pub [Lent; N]);

impl<const N: usize> Blocks<N> {
    /// Blocks of these lengths. What they hold is not defined.
    pub fn new(lengths: [usize; N]) -> Blocks<N> {
        // SAFETY: every result of malloc is either good or caught here.
        let blocks = lengths.map(|length| (unsafe { libc::malloc(length) }.cast::<u8>(), length));
        assert!(
            blocks
                .iter()
                .all(|(start, length)| !start.is_null() || *length == 0),
            "malloc failed"
        );
        Blocks(blocks)
    }

    /// Defines some bytes of an area.
    pub fn fill(&self, area: usize, at: usize, bytes: &[u8]) {
        assert!(at + bytes.len() <= self.0[area].1);
        // SAFETY: the area has these bytes.
        unsafe {
            std::ptr::copy_nonoverlapping(bytes.as_ptr(), self.0[area].0.add(at), bytes.len())
        }
    }

    /// The first bytes of an area, which must be defined by now.
    pub fn front(&self, area: usize, count: usize) -> &[u8] {
        assert!(count <= self.0[area].1);
        // SAFETY: as many bytes are there; valgrind says if one is not defined.
        unsafe { std::slice::from_raw_parts(self.0[area].0, count) }
    }

    /// Reads one byte of an area, or outside of it, and lets something hang on it.
    pub fn look_at(&self, area: usize, at: usize) {
        // SAFETY: none; valgrind is to find it.
        if unsafe { self.0[area].0.add(at).read_volatile() } == b'q' {
            println!("a byte that nobody may look at");
        }
    }
}

impl<const N: usize> Drop for Blocks<N> {
    fn drop(&mut self) {
        // SAFETY: each block came from malloc.
        self.0
            .iter()
            .for_each(|(start, _)| unsafe { libc::free(start.cast()) });
    }
}

/// What a run does on purpose that valgrind must find.
#[derive(Clone, Copy, PartialEq, Eq)]
pub enum Mistake {
    None,
    /// A byte behind the text is read.
    Outside,
    /// Something hangs on what the output held before.
    Undefined,
}

/// Makes the mistake before the call.
fn mistaken(blocks: &Blocks<AREAS>, mistake: Mistake) {
    match mistake {
        Mistake::None => {}
        Mistake::Outside => blocks.look_at(TEXT, blocks.0[TEXT].1),
        Mistake::Undefined => blocks.look_at(7, 0),
    }
}

/// Runs `count` random cases.
pub fn random_cases(seed: u64, count: u64, mistake: Mistake) -> bool {
    let mut failed = 0;
    for index in 0..count {
        let case = case(seed, index);
        let blocks = Blocks::new(lengths(&case));
        for (area, bytes) in given(&case) {
            blocks.fill(area, 0, bytes);
        }
        mistaken(&blocks, mistake);
        // SAFETY: the blocks are as long as is said and aligned as malloc does.
        let returned = unsafe { call(&blocks.0, case.setting.budget) };
        let expected = case.expected();
        if !agrees(&blocks, returned, &expected) {
            println!("case {index} of seed {seed}: not as expected under valgrind");
            println!("{}", line(&format!("v{seed}-{index}"), &case, expected));
            failed += 1;
        }
        if failed == PATIENCE {
            break;
        }
    }
    failed == 0
}

fn agrees(blocks: &Blocks<AREAS>, returned: u32, expected: &Report) -> bool {
    let report: Vec<u8> = numbers(expected)
        .iter()
        .flat_map(|number| number.to_ne_bytes())
        .collect();
    let zeroed = |area: usize| {
        blocks
            .front(area, blocks.0[area].1)
            .iter()
            .all(|&byte| byte == 0)
    };
    returned == expected.number
        && blocks.front(REPORT, report.len()) == report
        && blocks.front(6, expected.errors.len()) == expected.errors
        && blocks.front(7, expected.output.len()) == expected.output
        && (expected.number == 2 || (1..=5).all(zeroed))
}
