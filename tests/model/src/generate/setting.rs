//! Settings for a text: most lie close to what it needs.

use super::{Input, Scale};
use crate::answer::{Report, Setting};
use crate::random::Random;
use crate::run::{expand_traced, Trace};
use crate::{LIMIT, NO_ITEMS};

/// Lengths where something might turn.
const TURNS: [usize; 24] = [
    0,
    1,
    2,
    3,
    4,
    5,
    7,
    8,
    15,
    16,
    17,
    31,
    32,
    33,
    63,
    64,
    65,
    255,
    256,
    257,
    4095,
    4097,
    LIMIT - 1,
    LIMIT,
];

/// What a text does, with its set, with ample room and many steps, by the model.
pub(super) struct Probe {
    pub report: Report,
    pub trace: Trace,
    /// The steps that it was given.
    pub budget: u32,
}

impl Probe {
    fn new(input: &Input, budget: u32) -> Probe {
        let setting = Setting {
            budget,
            ..Setting::ample()
        };
        let (report, trace) = expand_traced(&input.text, &input.set, &setting);
        Probe {
            report,
            trace,
            budget,
        }
    }
}

/// Runs a text with ample room. Few texts get many steps; those without end use them all.
pub(super) fn probe(random: &mut Random, input: &Input, scale: Scale) -> Probe {
    match scale {
        Scale::Small => small_probe(input),
        Scale::Full => Probe::new(input, many_steps(random, input)),
    }
}

fn many_steps(random: &mut Random, input: &Input) -> u32 {
    match random.below(400) {
        _ if input.text.len() > 10_000 => 300_000,
        // what includes itself has no end
        _ if input.set != NO_ITEMS && random.chance(70) => 200,
        0 => 300_000,
        1..=7 => 30_000,
        _ => 3_000,
    }
}

/// Few steps, and fewest where they have much to carry along.
fn small_probe(input: &Input) -> Probe {
    // what includes itself has no end, and each time the set is searched
    let budget = if input.set == NO_ITEMS { 1_500 } else { 300 };
    let probe = Probe::new(input, budget);
    let peaks = probe.trace.peaks.into_iter();
    let most = peaks.fold(input.text.len(), usize::max);
    if most > 1_000 {
        Probe::new(input, 200)
    } else {
        probe
    }
}

/// A setting of just what a run needs, and those with one byte less of a buffer that it uses.
pub fn exact_and_shorter(exact: &Setting) -> Vec<Setting> {
    let used = (0..7).filter(|&buffer| exact.lengths[buffer] > 0);
    let shorter = used.map(|buffer| {
        let mut setting = exact.clone();
        setting.lengths[buffer] -= 1;
        setting
    });
    std::iter::once(exact.clone()).chain(shorter).collect()
}

/// Chooses lengths and budget.
pub(super) fn choose(random: &mut Random, input: &Input, scale: Scale) -> Setting {
    let probe = probe(random, input, scale);
    let mut setting = close(random, &probe);
    if random.chance(2) {
        overlong(random, &mut setting);
    }
    setting
}

/// A setting that lends nothing overlong.
pub(super) fn close(random: &mut Random, probe: &Probe) -> Setting {
    let mut setting = ample(random, probe);
    match random.below(100) {
        0..=27 => {}
        28..=52 => exact(random, &mut setting, probe),
        53..=69 => {
            exact(random, &mut setting, probe);
            shorten_one(random, &mut setting, probe);
        }
        70..=77 => shorten_one(random, &mut setting, probe),
        78..=80 => setting.lengths = std::array::from_fn(|_| random.below(11)),
        81..=83 => setting.lengths = std::array::from_fn(|_| random.pick(&TURNS)),
        84..=95 => setting.budget = fewer(random, probe.report.steps),
        _ => {
            exact(random, &mut setting, probe);
            shorten_one(random, &mut setting, probe);
            setting.budget = fewer(random, probe.report.steps);
        }
    }
    setting
}

/// All the room there is, and enough steps for every text that ends.
fn ample(random: &mut Random, probe: &Probe) -> Setting {
    let spent = probe.report.number == 3;
    Setting {
        lengths: [LIMIT; 7],
        budget: if spent {
            probe.budget
        } else {
            random
                .pick(&[16_777_216, 65_536, u32::MAX])
                .max(probe.budget)
        },
    }
}

/// What the text needs, and a little more here and there.
fn exact(random: &mut Random, setting: &mut Setting, probe: &Probe) {
    let slack = random.pick(&[0, 0, 1, 5]);
    for (length, peak) in setting.lengths.iter_mut().zip(probe.trace.peaks) {
        *length = (peak + random.below(slack + 1)).min(LIMIT);
    }
    // a refused step needs its place in the budget too
    let needed = probe.report.steps + u32::from(probe.report.number > 3);
    setting.budget = needed + random.pick(&[0, 0, 0, 1, 7]);
}

/// One buffer that the text uses gets less than it needs.
fn shorten_one(random: &mut Random, setting: &mut Setting, probe: &Probe) {
    let buffer = used_buffer(random, probe);
    let need = probe.trace.peaks[buffer].min(LIMIT);
    setting.lengths[buffer] = match random.below(9) {
        0..=1 => random.below(need + 1),
        // a text without end soon has enough
        2 => random.below(need.min(60) + 1),
        _ => need.saturating_sub(1),
    };
}

/// A buffer that the text uses, if there is one. Few texts use buffers 4 to 6, and fewest buffer 4.
fn used_buffer(random: &mut Random, probe: &Probe) -> usize {
    let used: Vec<usize> = (0..7)
        .filter(|&buffer| probe.trace.peaks[buffer] > 0)
        .collect();
    let rare: Vec<usize> = used
        .iter()
        .copied()
        .filter(|buffer| (3..=5).contains(buffer))
        .collect();
    if probe.trace.peaks[3] > 0 && random.chance(30) {
        3
    } else if !rare.is_empty() && random.chance(60) {
        random.pick(&rare)
    } else if !used.is_empty() {
        random.pick(&used)
    } else {
        random.below(7)
    }
}

/// A budget that is about used up, or used up somewhere on the way.
fn fewer(random: &mut Random, steps: u32) -> u32 {
    match random.below(9) {
        0 => random.below(4) as u32,
        1..=2 => steps.saturating_sub(1),
        3..=4 => steps.saturating_sub(2),
        // a step that would be refused is not looked at
        5..=6 => steps,
        // a text without end soon shows all that it does
        7 => random.below(steps.min(60) as usize + 2) as u32,
        _ => random.below(steps as usize + 2) as u32,
    }
}

/// One or more lengths above 65,536.
fn overlong(random: &mut Random, setting: &mut Setting) {
    for _ in 0..random.pick(&[1, 1, 1, 2, 7]) {
        setting.lengths[random.below(7)] = LIMIT + random.pick(&[1, 1, 2, 5, 4_096, 60_000]);
    }
    if random.chance(20) {
        setting.budget = 0;
    }
}
