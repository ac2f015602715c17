//! Texts to expand and to read: what they write is a sheet, or nearly one. Some end by m4exit or are
//! refused, and some are lent too little.

use super::behind::behind;
use super::pieces::Pieces;
use super::{written, Scale};
use crate::answer::Setting;
use crate::generate::{self, setting, Input};
use crate::random::Random;
use crate::run::{expand, expand_traced};
use crate::sheet::case::Template;
use crate::{LIMIT, NO_ITEMS};

/// What writes more lines is quoted whole, so that it stays short.
const FEW_LINES: usize = 12;

/// A text of so many bytes is not quoted: it would be too long.
const LONG: usize = 60_000;

/// A text to expand and to read, with what it is lent.
pub fn template(random: &mut Random, scale: Scale) -> Template {
    match random.below(20) {
        0..=2 if scale == Scale::Full => any(random),
        3..=5 => cut(random, scale),
        _ => made(random, scale),
    }
}

/// A text that was not made to write a sheet.
fn any(random: &mut Random) -> Template {
    let generate::Case { text, set, setting } = generate::case(random, Scale::Small);
    with_old_bytes(random, Input { text, set }, setting)
}

/// A text that was. It has an end: it can be run with the budget that a table means.
fn made(random: &mut Random, scale: Scale) -> Template {
    let written = written::text(random, scale);
    let input = input(random, written, scale);
    let setting = match scale {
        Scale::Full if random.chance(40) => setting::choose(random, &input, Scale::Small),
        _ => lent(random, &input),
    };
    with_old_bytes(random, input, setting)
}

/// A text that writes the front of a sheet, before old bytes that are the rest of it.
fn cut(random: &mut Random, scale: Scale) -> Template {
    let mut front = match random.below(3) {
        0 => written::nearly(random, scale),
        _ => written::good(random, scale),
    };
    let behind = front.split_off(random.between(0, front.len()));
    let mut setting = Setting::ample();
    setting.lengths[6] = (front.len() + behind.len()).min(LIMIT);
    let Input { text, set } = Pieces::whole(&front).input();
    Template {
        text,
        set,
        setting,
        behind,
    }
}

fn with_old_bytes(random: &mut Random, input: Input, setting: Setting) -> Template {
    let Input { text, set } = input;
    let written = expand(&text, &set, &setting).output;
    let behind = behind(random, &written);
    Template {
        text,
        set,
        setting,
        behind,
    }
}

/// What writes a sheet, perhaps with something in between.
fn input(random: &mut Random, written: Vec<u8>, scale: Scale) -> Input {
    if written.len() > LONG {
        return Input {
            text: written,
            set: NO_ITEMS.to_vec(),
        };
    }
    let few = written.iter().filter(|&&byte| byte == b'\n').count() <= FEW_LINES;
    let mut pieces = match few && random.chance(75) {
        true => Pieces::by_lines(random, &written, scale),
        false => Pieces::whole(&written),
    };
    if random.chance(35) {
        pieces.insert_one(random);
    }
    pieces.input()
}

/// Ample but for a length or two, mostly that of the output buffer, close to what is needed.
fn lent(random: &mut Random, input: &Input) -> Setting {
    let mut setting = Setting::ample();
    let (_, trace) = expand_traced(&input.text, &input.set, &setting);
    let need = trace.peaks[6];
    match random.below(20) {
        0..=4 => {}
        5..=8 => setting.lengths[6] = need,
        9..=13 => setting.lengths[6] = (need + random.between(1, 12)).min(LIMIT),
        14..=15 => setting.lengths[6] = need.saturating_sub(random.between(1, 2)),
        16..=17 => {
            let buffer = used_buffer(random, &trace.peaks);
            setting.lengths[buffer] = trace.peaks[buffer].saturating_sub(1);
        }
        18 => setting.lengths = trace.peaks,
        _ => setting.lengths[random.below(7)] = LIMIT + random.pick(&[1, 2, 4_096]),
    }
    setting
}

/// A buffer that a run uses, if there is one. Few runs use buffers 4 to 6.
fn used_buffer(random: &mut Random, peaks: &[usize; 7]) -> usize {
    let used = |buffer: &usize| peaks[*buffer] > 0;
    let rare: Vec<usize> = (3..6).filter(used).collect();
    let all: Vec<usize> = (0..7).filter(used).collect();
    match (&rare[..], &all[..]) {
        ([], []) => random.below(7),
        ([], all) => random.pick(all),
        (rare, _) => random.pick(rare),
    }
}
