//! Tables of texts and copies side by side: one of them goes, comes or changes, and then all are asked.

use super::{Group, Text};

/// The names of a table, of as many as there are at most.
const NAMES: [&str; 9] = ["a", "b", "c", "d", "e", "f", "g", "h", "i"];
/// A meaning for each place. With two numbers each of them gives something else.
const MEANINGS: [&str; 9] = [
    "len", "incr", "decr", "eval", "shift", "index", "divnum", "translit", "errprint",
];
/// Up to so many definitions every pattern of texts and copies is tried.
const ALL_PATTERNS: usize = 5;
/// What happens to the one at a place; `@` stands for its name, and `~` for that of the next.
const CHANGES: [&str; 16] = [
    "popdef(`@')",
    "undefine(`@')",
    "define(`@',`new $1')",
    "define(`@')",
    "copydef(`substr',`@')",
    "copydef(`~',`@')",
    "copydef(`@',`~')",
    "copydef(`@',`n')",
    "pushdef(`@',`new $1')",
    "pushdef(`@',`new $1')popdef(`@')",
    // a new one stands where another was
    "popdef(`@')pushdef(`@',`new $1')",
    "popdef(`@')copydef(`~',`n')",
    "undefine(`@')copydef(`~',`@')",
    "undefine(`@')copydef(`substr',`n')",
    "popdef(`@',`~')define(`n',`new $1')define(`m')",
    "undefine(`@',`~')",
];
/// What happens to two names that have several definitions each.
const CHANGES_OF_LAYERS: [&str; 6] = [
    "undefine(`a')",
    "popdef(`a')",
    "popdef(`a',`a')",
    "define(`a',`new $1')",
    "copydef(`b',`a')",
    "copydef(`substr',`a')",
];
/// What happens to the oldest of very many definitions.
const CHANGES_OF_FIRST: [&str; 4] = [
    "popdef(`b')",
    "undefine(`b')",
    "define(`b',`a longer text')",
    "copydef(`len',`b')",
];

pub(super) fn groups() -> Vec<Group> {
    let mut short = Group::new("tables of up to 5, of every pattern", short_tables());
    short.tight = 3;
    let mut long = Group::new("tables of 6 to 9", long_tables());
    long.tight = 5;
    let mut layers = Group::new("two names with up to 5 layers", layers());
    layers.tight = 11;
    let mut many = Group::large("tables of 3,000", many());
    many.tight = usize::MAX;
    vec![short, long, layers, many]
}

/// A definition of a name at a place, by `define` and copydef or by `pushdef` and copydef.
fn defined(by: &str, name: &str, place: usize, copy: bool) -> String {
    let meaning = MEANINGS[place];
    match (copy, by) {
        (false, _) => format!("{by}(`{name}',`{place}:$1')"),
        (true, "define") => format!("copydef(`{meaning}',`{name}')"),
        (true, _) => format!("{by}(`{name}')copydef(`{meaning}',`{name}')"),
    }
}

/// A call of each name.
fn asked(names: &[&str]) -> String {
    let calls = names.iter().map(|name| format!("{name}(12,3);"));
    calls.collect()
}

/// The texts for a table: each change at each place.
fn changed(copies: &[bool]) -> Vec<Text> {
    let count = copies.len();
    let table: String = (0..count)
        .map(|place| defined("define", NAMES[place], place, copies[place]))
        .collect();
    let asked = asked(&NAMES[..count]) + &asked(&["n", "m"]);
    let mut texts = Vec::new();
    for place in 0..count {
        let next = NAMES[(place + 1) % count];
        for change in CHANGES {
            let change = change.replace('@', NAMES[place]).replace('~', next);
            texts.push(Text::new(format!("{table}{change}"), &asked));
        }
    }
    texts
}

/// Which of so many are copies, by the bits of a number.
fn pattern(count: usize, bits: usize) -> Vec<bool> {
    (0..count).map(|place| bits >> place & 1 == 1).collect()
}

fn short_tables() -> Vec<Text> {
    let patterns =
        (1..=ALL_PATTERNS).flat_map(|count| (0..1 << count).map(move |bits| pattern(count, bits)));
    patterns.flat_map(|copies| changed(&copies)).collect()
}

/// One copy among texts, one text among copies, all alike, and by turns.
fn long_tables() -> Vec<Text> {
    let mut texts = Vec::new();
    for count in ALL_PATTERNS + 1..=NAMES.len() {
        let all = (1 << count) - 1;
        let by_turns = 0b1_0101_0101 & all;
        let mut patterns = vec![0, all, by_turns, all - by_turns];
        patterns.extend((0..count).flat_map(|place| [1 << place, all - (1 << place)]));
        for bits in patterns {
            texts.extend(changed(&pattern(count, bits)));
        }
    }
    texts
}

/// Definitions of two names over one another in every order, texts or copies; afterwards they are asked
/// and taken away until there is none.
fn layers() -> Vec<Text> {
    let mut texts = Vec::new();
    for count in 1..=ALL_PATTERNS {
        let asked = (asked(&["a", "b"]) + "popdef(`a',`b')").repeat(count + 1);
        for bits in 0..1 << (2 * count) {
            let (copies, firsts) = (pattern(count, bits), pattern(count, bits >> count));
            let layer = |place: usize| {
                let name = if firsts[place] { "a" } else { "b" };
                defined("pushdef", name, place, copies[place])
            };
            let table: String = (0..count).map(layer).collect();
            let changes = CHANGES_OF_LAYERS.map(|change| format!("{table}{change}"));
            texts.extend(changes.map(|done| Text::new(done, &asked)));
        }
    }
    texts
}

/// 3,000 definitions of a name, of which one is a text and two are copies by turns, and one below them.
fn many() -> Vec<Text> {
    let three: String = [false, true, true]
        .into_iter()
        .enumerate()
        .map(|(place, copy)| defined("pushdef", "a", place, copy))
        .collect();
    let table = format!(
        "define(`b',`[$1]')define(`t',`{three}')define(`u',`{}')define(`v',`{}'){}",
        "t()".repeat(10),
        "u()".repeat(10),
        "v()".repeat(10),
    );
    let asked = (asked(&["b", "a"]) + "popdef(`a')").repeat(12);
    let texts = CHANGES_OF_FIRST.map(|change| Text::new(format!("{table}{change}"), &asked));
    texts.into()
}
