//! Changes of bytes that make a plausible text less so.

use super::{plausible, words, Scale};
use crate::random::Random;

/// Changes a text in one to four ways.
pub fn mutate(random: &mut Random, text: &mut Vec<u8>, scale: Scale) {
    for _ in 0..random.pick(&[1, 1, 2, 4]) {
        change(random, text, scale);
    }
}

fn change(random: &mut Random, text: &mut Vec<u8>, scale: Scale) {
    let at = random.below(text.len() + 1);
    let to = (at + random.pick(&[1, 1, 2, 5, 20])).min(text.len());
    match random.below(11) {
        0 if at < text.len() => text[at] ^= 1 << random.below(8),
        1 if at < text.len() => text[at] = random.pick(b"`'(),#$\n 0a_-\x00\xff"),
        2 if at < text.len() => text[at] = random.bits() as u8,
        3..=4 => insert(text, at, &words::any(random)),
        5 => drop(text.drain(at..to)),
        6 => repeat(random, text, at, to),
        7 => text.truncate(at),
        8 => drop(text.drain(..at)),
        9 => splice(random, text, at, scale),
        _ => swap(random, text, at, to),
    }
}

fn insert(text: &mut Vec<u8>, at: usize, bytes: &[u8]) {
    text.splice(at..at, bytes.iter().copied());
}

/// A short part once or many times more.
fn repeat(random: &mut Random, text: &mut Vec<u8>, from: usize, to: usize) {
    let times = random.pick(&[1, 1, 2, 3, 10, 66, 300]);
    let part = text[from..to].repeat(times);
    insert(text, to, &part);
}

/// The front of this text and the back of another.
fn splice(random: &mut Random, text: &mut Vec<u8>, at: usize, scale: Scale) {
    let other = plausible(random, scale);
    text.truncate(at);
    text.extend(&other[random.below(other.len() + 1)..]);
}

fn swap(random: &mut Random, text: &mut Vec<u8>, from: usize, to: usize) {
    let part: Vec<u8> = text.drain(from..to).collect();
    let at = random.below(text.len() + 1);
    insert(text, at, &part);
}
