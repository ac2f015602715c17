//! Texts that are copied among others: each moves those behind it, itself perhaps.

use super::{Group, Text};
use model::LIMIT;

/// How long a text is, and the one that it replaces.
const LENGTHS: [usize; 7] = [0, 1, 3, 4, 5, 9, 255];
/// So many definitions there are.
const COUNTS: [usize; 4] = [1, 2, 3, 5];
const NAMES: [&str; 5] = ["a", "bb", "c", "dd", "e"];

pub(super) fn groups() -> Vec<Group> {
    let mut texts = Group::new("texts of all lengths from each place to each", copied());
    texts.tight = 2;
    texts.fenced = true;
    let mut longest = Group::large("the longest texts", longest());
    longest.fenced = true;
    vec![texts, longest]
}

/// So many bytes, in none of which a name, a quote or a comment begins.
fn bytes(signs: &str, length: usize) -> String {
    signs.chars().cycle().take(length).collect()
}

/// The definitions, all of which have texts of their own; one is to be copied and one to be replaced.
fn defined(count: usize, lengths: &[(usize, usize)]) -> String {
    let define = |at: usize| {
        let known = lengths.iter().find(|(place, _)| *place == at);
        let length = known.map_or(at + 1, |(_, length)| *length);
        let signs = ["0123456789", "+-*/=", "<>", "[]{}", "!?"][at];
        format!("define(`{}',`{}')", NAMES[at], bytes(signs, length))
    };
    (0..count).map(define).collect()
}

/// Each text is written out, and the names are used that may be new.
fn asked(names: &[&str]) -> String {
    let each = names.iter().map(|name| format!("defn(`{name}');"));
    each.collect::<String>() + "n;len"
}

fn copied() -> Vec<Text> {
    let mut texts = Vec::new();
    for count in COUNTS {
        for from in 0..count {
            texts.extend(LENGTHS.map(|length| copied_from(count, from, length)));
        }
    }
    texts.into_iter().flatten().collect()
}

/// The text at a place, of such a length, goes to each other place, to its own, to a new name, to one that
/// is pushed, and to one that was a copy.
fn copied_from(count: usize, from: usize, length: usize) -> Vec<Text> {
    let names = &NAMES[..count];
    let copy = |name: &str| format!("copydef(`{}',`{name}')", names[from]);
    let one = defined(count, &[(from, length)]);
    let mut done = ["n", "len", names[from]]
        .map(|name| one.clone() + &copy(name))
        .to_vec();
    for (to, name) in names.iter().enumerate() {
        let copy = copy(name);
        done.push(format!("{one}pushdef(`{name}',`/'){copy}"));
        if to != from {
            done.push(format!("{one}copydef(`len',`{name}'){copy}"));
            let two = LENGTHS.map(|other| defined(count, &[(from, length), (to, other)]));
            done.extend(two.map(|two| two + &copy));
        }
    }
    let texts = done.into_iter().map(|done| Text::new(done, asked(names)));
    texts.collect()
}

/// Copies that fill 65,536 bytes, or would need one more. The definitions before and behind have three
/// bytes.
fn longest() -> Vec<Text> {
    let text = |length: usize, done: &str, asked: &str| {
        let long = bytes("0123456789", length);
        let before = format!("define(`s',`11')define(`x',`{long}')define(`t',`22')");
        Text::new(format!("{before}{done}"), format!("{asked};s;t"))
    };
    let mut texts = Vec::new();
    // twice, with a name of one byte, beside the other two
    let most = (LIMIT - 6 - 2) / 2;
    for length in most - 1..=most + 2 {
        texts.push(text(length, "copydef(`x',`y')", "y"));
        texts.push(text(length, "copydef(`x',`yy')", "yy"));
        texts.push(text(length, "copydef(`x',`len')", "len"));
        texts.push(text(length, "copydef(`x',`s')", "s"));
        texts.push(text(length, "copydef(`x',`t')", "t"));
        texts.push(text(length, "copydef(`t',`x')copydef(`x',`s')", "x"));
        texts.push(text(length, "copydef(`x',`y')copydef(`dnl',`x')", "y"));
    }
    texts.push(text(60_000, "copydef(`x',`x')", "x"));
    texts.push(text(60_000, "copydef(`len',`x')", "x(abc)"));
    texts.push(text(60_000, "copydef(`x',`s')", "s"));
    texts
}
