//! What is included: short pieces of templates, many of which include again.

use super::name;
use crate::bytes::is_word;
use crate::generate::words;
use crate::generate::writer::Writer;
use crate::random::Random;

/// Pieces that go on behind the contents.
const ENDS: [&str; 12] = [
    "le", "len", "len", "incr", "len(", "f(", "`", "#", "dnl", "dnl ", "incl", "include(",
];
/// Pieces that don't, and some that change what stands there.
const FRAGMENTS: [&str; 24] = [
    "x",
    "len(a)",
    "a,b",
    ",",
    ")",
    "(",
    "'",
    "`a'",
    "#c\n",
    "dnl\n",
    "\n",
    " ",
    "$1",
    "define(`f',`[$1]')",
    "pushdef(`f',`<$#>')",
    "undefine(`include')",
    "changequote([,])",
    "changecom",
    "divert(1)",
    "undivert",
    "errprint(e)",
    "m4wrap(`w')",
    "m4exit(3)",
    "f(a)",
];

/// Contents of the item of this number in a set with these names.
pub fn contents(random: &mut Random, number: usize, names: &[Vec<u8>]) -> Vec<u8> {
    let mut text = Vec::new();
    for _ in 0..random.pick(&[0, 1, 1, 1, 2, 2, 3]) {
        text.extend(match random.below(12) {
            0..=3 => random.pick(&FRAGMENTS).into(),
            4..=6 => call(random, names),
            // itself
            7 => call(random, &names[number..=number]),
            8..=9 => words::plain(random),
            10 => words::any(random),
            _ => Writer::new(random, 0).including(names).text(15),
        });
    }
    if random.chance(25) {
        text.extend(random.pick(&ENDS).as_bytes());
    }
    text
}

/// A call of include or sinclude, mostly with one of these names.
pub fn call(random: &mut Random, names: &[Vec<u8>]) -> Vec<u8> {
    let which = random.pick(&["include", "include", "sinclude"]);
    let name = asked(random, names);
    let [before, behind] = match random.below(16) {
        0 => [" ", ""],
        1 => ["\n\t", ""],
        2 => ["", " "],
        3 => ["", "\n"],
        4 => ["", ",b"],
        5 => ["`'", ""],
        _ => ["", ""],
    };
    let name = written(random, &name);
    [
        which.as_bytes(),
        b"(",
        before.as_bytes(),
        &name,
        behind.as_bytes(),
        b")",
    ]
    .concat()
}

/// A name of an item, one that begins with it or with which it begins, or another.
fn asked(random: &mut Random, names: &[Vec<u8>]) -> Vec<u8> {
    if names.is_empty() || random.chance(10) {
        return name(random);
    }
    let mut name = names[random.below(names.len())].clone();
    match random.below(20) {
        0 => name.push(random.pick(b"a .\x00")),
        1 => drop(name.pop()),
        _ => {}
    }
    name
}

/// A name as an argument: quoted, or bare where that means the same to most texts.
pub fn written(random: &mut Random, name: &[u8]) -> Vec<u8> {
    let bare = name
        .iter()
        .all(|&byte| is_word(byte) || b"./".contains(&byte));
    if bare && random.chance(60) {
        return name.to_vec();
    }
    [b"`", name, b"'"].concat()
}
