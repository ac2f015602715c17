//! Copies that are refused, and what is judged first.

use super::{Group, Text};

/// What stands before, so that the names mean something.
const BEFORE: [&str; 3] = [
    "",
    "define(`t',`text')copydef(`len',`c')undefine(`incr')",
    "pushdef(`t',`x')define(`d')pushdef(`t',`text')copydef(`dnl',`c')popdef(`incr')",
];
/// What is copied: predefined, a text, an empty one, a copy, gone, unknown, or not a name.
const SOURCES: [&str; 13] = [
    "len", "t", "d", "c", "incr", "no", "le", "lenn", "", "1", "a b", " len", "len ",
];
/// The new names: none and an empty one, some that are no names, and good ones.
const NAMES: [&str; 14] = [
    "",
    ",",
    ",`'",
    ",`1'",
    ",`1a'",
    ",`a b'",
    ",`a-'",
    ",`-a'",
    ",` a '",
    ",`\u{e9}'",
    ",`t'",
    ",`c'",
    ",`incr'",
    ",`_9'",
];
/// What may stand behind the new name.
const SURPLUS: [&str; 2] = ["", ",`x',"];

pub(super) fn groups() -> Vec<Group> {
    vec![Group::new("what is refused, and what first", refused())]
}

fn refused() -> Vec<Text> {
    let mut texts = Vec::new();
    for before in BEFORE {
        for source in SOURCES {
            for name in NAMES {
                for surplus in SURPLUS {
                    let done = format!("{before}copydef(`{source}'{name}{surplus})");
                    texts.push(Text::new(done, "t(2)c(2)incr(2)_9(2)"));
                }
            }
        }
    }
    texts
}
