//! Texts that place bytes in every stream and move them about: request 8 of 02. They are written with the
//! default quote marks. Most bytes that are written differ from each other, so that the output shows
//! where each came from.

mod pieces;

use super::setting::choose;
use super::{Case, Input, Scale};
use crate::answer::Setting;
use crate::history::Numbers;
use crate::random::Random;
use crate::run::expand_recorded;
use crate::NO_ITEMS;
use pieces::Diverter;

/// What a case for a slow judge may have: bytes of text, completed steps, numbers.
const MOST_BYTES: usize = 120;
const MOST_STEPS: u32 = 150;
const MOST_NUMBERS: usize = 40;

/// A text of diversions.
pub fn diversions(random: &mut Random, scale: Scale) -> Vec<u8> {
    let count = match scale {
        Scale::Small => random.between(1, 9),
        Scale::Full => random.pick(&[3, 6, 9, 12, 20, 40]),
    };
    let mut diverter = Diverter::new(random);
    for _ in 0..count {
        diverter.piece();
    }
    diverter.last()
}

/// A text of diversions with a setting close to what it needs.
pub fn case(random: &mut Random, scale: Scale) -> Case {
    let input = Input {
        text: diversions(random, scale),
        set: NO_ITEMS.to_vec(),
    };
    let setting = choose(random, &input, scale);
    let Input { text, set } = input;
    Case { text, set, setting }
}

/// A short case that ends in 0 or 1, with ample room or just what it needs.
pub fn finished(random: &mut Random) -> Case {
    let enough = Setting {
        budget: MOST_STEPS,
        ..Setting::ample()
    };
    loop {
        let text = diversions(random, Scale::Small);
        let (report, trace) = expand_recorded(&text, NO_ITEMS, &enough);
        let numbers = Numbers::of(&trace.history).bytes.len();
        if report.number > 1 || text.len() > MOST_BYTES || numbers > MOST_NUMBERS {
            continue;
        }
        let mut setting = Setting::ample();
        if random.chance(50) {
            (setting.lengths, setting.budget) = (trace.peaks, report.steps);
        }
        let set = NO_ITEMS.to_vec();
        return Case { text, set, setting };
    }
}

#[cfg(test)]
mod tests {
    use super::*;
    use crate::generate::tests::go_by_the_seed;

    #[test]
    fn diversions_go_by_the_seed() {
        go_by_the_seed(|random| case(random, Scale::Small));
        go_by_the_seed(|random| case(random, Scale::Full));
        go_by_the_seed(finished);
    }

    #[test]
    fn finished_cases_are_short() {
        let mut random = Random::new(1);
        for _ in 0..500 {
            let Case { text, set, setting } = finished(&mut random);
            let (report, trace) = expand_recorded(&text, &set, &setting);
            assert!(report.number <= 1, "{}", String::from_utf8_lossy(&text));
            assert!(text.len() <= 120 && report.steps <= 150);
            assert!(Numbers::of(&trace.history).bytes.len() <= 40);
        }
    }
}
