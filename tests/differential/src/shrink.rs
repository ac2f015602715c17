//! Makes a failing case smaller as long as it fails.

use crate::case::Case;
use model::house::{write, Item, Set};
use model::LIMIT;

/// How many smaller cases are tried at most.
const TRIES: usize = 3_000;
/// A budget that is ample for a small case.
const AMPLE: u32 = 10_000;

/// Gives a smaller case that still `fails`, or the same.
pub fn shrink(case: &Case, fails: impl Fn(&Case) -> bool) -> Case {
    let mut shrinking = Shrinking {
        best: case.clone(),
        left: TRIES,
        fails,
    };
    shrinking.drop_items();
    shrinking.shorten(|case| &mut case.text);
    shrinking.simplify_setting();
    shrinking.shorten(|case| &mut case.set);
    shrinking.shorten(|case| &mut case.text);
    shrinking.best
}

struct Shrinking<F> {
    best: Case,
    left: usize,
    fails: F,
}

impl<F: Fn(&Case) -> bool> Shrinking<F> {
    /// Keeps a case if it still fails.
    fn keep(&mut self, case: Case) -> bool {
        if self.left == 0 {
            return false;
        }
        self.left -= 1;
        let fails = (self.fails)(&case);
        if fails {
            self.best = case;
        }
        fails
    }

    /// Drops halves, quarters, .. and at last single bytes of the text or of the set.
    fn shorten(&mut self, bytes: fn(&mut Case) -> &mut Vec<u8>) {
        let mut part = bytes(&mut self.best).len().div_ceil(2);
        while part > 0 {
            let mut at = 0;
            while at < bytes(&mut self.best).len() && self.left > 0 {
                let mut case = self.best.clone();
                let bytes = bytes(&mut case);
                let to = (at + part).min(bytes.len());
                bytes.drain(at..to);
                if !self.keep(case) {
                    at += part;
                }
            }
            part /= 2;
        }
    }

    /// Drops items of a good set, and halves of what they include: bytes that go one by one would
    /// leave bad ones.
    fn drop_items(&mut self) {
        let mut at = 0;
        while let Ok(Set { items }) = Set::read(&self.best.set) {
            let Some(item) = items.get(at) else {
                return;
            };
            let mut dropped = items.clone();
            dropped.remove(at);
            let mut halved = items.clone();
            halved[at].text.truncate(item.text.len() / 2);
            if !self.keep_items(&dropped) && (item.text.is_empty() || !self.keep_items(&halved)) {
                at += 1;
            }
        }
    }

    fn keep_items(&mut self, items: &[Item]) -> bool {
        let mut case = self.best.clone();
        case.set = write(items);
        self.keep(case)
    }

    /// Lends ample room and budget where that does not matter.
    fn simplify_setting(&mut self) {
        for buffer in 0..7 {
            for length in [LIMIT, 0, self.best.setting.lengths[buffer] / 2] {
                let mut case = self.best.clone();
                if case.setting.lengths[buffer] != length {
                    case.setting.lengths[buffer] = length;
                    if self.keep(case) {
                        break;
                    }
                }
            }
        }
        let mut case = self.best.clone();
        case.setting.budget = AMPLE;
        self.keep(case);
    }
}
