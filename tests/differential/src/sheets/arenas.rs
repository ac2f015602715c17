//! Lent memory on the heap with guard bytes on each side, at every alignment that is allowed.

use super::archive::{call, given, lengths, AREAS, LINE, REPORT, SET, SHEET, WORD};
use super::judge::judge;
use crate::arenas::guarded;
use crate::noise::{Noise, LONGEST, LONGEST_SET};
use crate::windows::{lent_parts, Before, Seen, Window};
use model::random::Random;
use model::sheet::case::Case;

/// Memory for all areas, used by one case after the other.
pub struct Arenas {
    memory: [Vec<u8>; AREAS],
    noise: Noise,
}

impl Arenas {
    pub fn new() -> Arenas {
        Arenas {
            memory: std::array::from_fn(|area| match area {
                SET => vec![0; LONGEST_SET],
                _ => vec![0; LONGEST],
            }),
            noise: Noise::new(),
        }
    }

    fn windows(&mut self, case: &Case, random: &mut Random) -> [Window; AREAS] {
        let lengths = lengths(case);
        std::array::from_fn(|area| {
            let memory = &mut self.memory[area];
            let unit = match area {
                SHEET => WORD,
                REPORT | LINE => 4,
                _ => 1,
            };
            let shift = memory.as_ptr().align_offset(unit) + unit * random.below(16 / unit);
            guarded(memory, shift, lengths[area])
        })
    }

    /// Runs a case and compares all of it with what is expected.
    pub fn try_case(&mut self, case: &Case, salt: u64) -> Result<(), String> {
        self.called(case, salt, |returned, seen| judge(returned, seen, case))
    }

    /// Runs a case and shows what it returned, and every area. Of an area in which nothing is lent
    /// the archive gets an address in the window or, as often, none.
    pub fn called<T>(
        &mut self,
        case: &Case,
        salt: u64,
        look: impl FnOnce(u32, &[Seen; AREAS]) -> T,
    ) -> T {
        let mut random = Random::numbered(salt, AREAS as u64);
        let windows = self.windows(case, &mut random);
        let before = Before::fill(&windows, &given(case, salt), &self.noise, salt);
        let lent = lent_parts(&windows).map(|(start, length)| match length {
            0 if random.chance(50) => (std::ptr::null_mut(), 0),
            _ => (start, length),
        });
        // SAFETY: the windows lie in the arenas, aligned to what they hold.
        let returned = unsafe { call(&case.asked, &lent) };
        look(returned, &before.seen(&windows))
    }
}
