//! Lent memory on the heap with 16 guard bytes on each side, at any alignment.

use crate::archive::{call, given, lengths, AREAS, REPORT, SET};
use crate::case::Case;
use crate::judge::judge;
use crate::noise::{Noise, LONGEST, LONGEST_SET};
use crate::windows::{lent_parts, Before, Seen, Window};
use model::random::Random;
use model::Report;

/// The bytes before and behind what is lent that must not change.
const GUARD: usize = 16;

/// The window for so many bytes between their guards, so far into the memory.
pub fn guarded(memory: &mut [u8], shift: usize, length: usize) -> Window {
    let whole = &mut memory[shift..shift + length + 2 * GUARD];
    Window {
        start: whole.as_mut_ptr(),
        length: whole.len(),
        lent: GUARD..GUARD + length,
    }
}

/// Memory for the ten areas, used by one case after the other.
pub struct Arenas {
    memory: [Vec<u8>; AREAS],
    pub noise: Noise,
}

impl Arenas {
    pub fn new() -> Arenas {
        Arenas {
            memory: std::array::from_fn(|area| match area {
                SET => vec![0; LONGEST_SET],
                _ => vec![0; LONGEST],
            }),
            noise: Noise::new(),
        }
    }

    /// The windows for a case. Only the report has an alignment.
    pub fn windows(&mut self, case: &Case) -> [Window; AREAS] {
        let mut random = Random::numbered(case.salt, AREAS as u64);
        let lengths = lengths(case);
        std::array::from_fn(|area| {
            let memory = &mut self.memory[area];
            let shift = match area {
                REPORT => memory.as_ptr().align_offset(4) + 4 * random.below(4),
                _ => random.below(16),
            };
            guarded(memory, shift, lengths[area])
        })
    }

    /// Runs a case and compares all of it with what is expected.
    pub fn try_case(&mut self, case: &Case, expected: &Report) -> Result<(), String> {
        self.called(case, |returned, seen| judge(returned, seen, expected))
    }

    /// Runs a case and shows what it returned, and every area.
    pub fn called<T>(&mut self, case: &Case, look: impl FnOnce(u32, &[Seen; AREAS]) -> T) -> T {
        let windows = self.windows(case);
        let before = Before::fill(&windows, &given(case), &self.noise, case.salt);
        // SAFETY: the windows lie in the arenas, and the report is aligned.
        let returned = unsafe { call(&lent_parts(&windows), case.setting.budget) };
        look(returned, &before.seen(&windows))
    }
}
