//! Tokens: across the border of pending text and input, under marks of every kind, and left open.

use super::join;
use crate::generate::marks::{marks, Pair, BAD_MARKS, MARK_BYTES};
use crate::generate::words;
use crate::random::Random;

/// Tokens that begin in pending text and end in the input. W is a word.
pub fn border(random: &mut Random) -> Vec<u8> {
    let text = random.pick(&[
        "define(`p',`le')p()n(W)",
        "define(`p',`len')p()(W)",
        "define(`p',`dnl a')p()b W\nc",
        "changecom(`##')define(`p',`#')p()#len W\nlen",
        "define(`p',`<x]')changequote(<,]])p()]W",
        "define(`p',`<')changequote(<<,>>)p()<lenW>>",
        "define(`p',`{{x}')changecom({{,}})p()}W",
        "define(`p',`#')p()len W\nlen",
        "define(`ab',`[$#$*]')eval(10,16)b(W)",
        "define(`p',`len(a')p()b,W)",
        "define(`p',`W')define(`q',`p()')q()q()b(a)",
        "m4wrap(`le')m4wrap(`n(W')m4wrap(`)')a",
    ]);
    let word = random.pick(&["", "a", "_", "1", "n(a)", "(a)", "(b,c)", "\n", " "]);
    text.replace('W', word).into_bytes()
}

/// Marks, then a string of just their bytes, or of whole marks, and little else.
pub fn marked(random: &mut Random) -> Vec<u8> {
    let mut text = Vec::new();
    let mut bytes = b"a ".to_vec();
    let mut whole = vec![b"a".to_vec(), b" ".to_vec(), b"len".to_vec()];
    for _ in 0..random.pick(&[1, 1, 2]) {
        let (begin, end) = pair(random);
        text.extend(change(random, &begin, &end));
        bytes.extend([&begin[..], &end].concat().repeat(2));
        let first = begin.iter().copied().take(1).collect();
        whole.extend([begin, end.clone(), end, first]);
    }
    if random.chance(20) {
        bytes.push(random.pick(&MARK_BYTES));
    }
    if random.chance(60) {
        let length = random.between(0, 40);
        text.extend(random.bytes(&bytes, length));
    } else {
        let count = random.between(1, 12);
        text.extend((0..count).flat_map(|_| whole[random.below(whole.len())].clone()));
    }
    text
}

/// A begin and an end mark, seldom one that is refused or that belongs to another.
fn pair(random: &mut Random) -> Pair {
    let (mut begin, mut end) = marks(random);
    match random.below(24) {
        0 => begin = random.pick(&BAD_MARKS).to_vec(),
        1 => end = random.pick(&BAD_MARKS).to_vec(),
        2 => end = marks(random).1,
        _ => {}
    }
    (begin, end)
}

/// A call that sets marks. Behind others it may be of use only without quotes.
fn change(random: &mut Random, begin: &[u8], end: &[u8]) -> Vec<u8> {
    let name = random.pick(&[&b"changequote"[..], b"changequote", b"changecom"]);
    match random.below(4) {
        0 => join(&[name, b"(", begin, b",", end, b")"]),
        _ => join(&[name, b"(`", begin, b"',`", end, b"')"]),
    }
}

/// One thing that is refused, or nearly, with something before it.
pub fn refused(random: &mut Random) -> Vec<u8> {
    let text = random.pick(&[
        "defn(`len')",
        "define(1,2)",
        "define",
        "define()",
        "pushdef(`a b')",
        "pushdef(`\u{e9}',x)",
        "incr",
        "incr()",
        "substr(abc)",
        "substr(abc,)",
        "substr(abc,1,)",
        "undivert(0)",
        "undivert(10)",
        "undivert()",
        "divert()",
        "eval(1/0)",
        "eval(1%0,1)",
        "eval(1<<32)",
        "eval(1>>-1)",
        "eval(0>>32)",
        "eval(1/0+,1)",
        "eval(1/0,10,-1)",
        "eval(1,37)",
        "eval(1,,2)",
        "eval()",
        "eval",
        "eval(` ')",
        "changequote()",
        "changequote([,)",
        "changecom(a)",
        "changequote([[[[[[)",
        "changecom(`[',`\n\n')",
        "changecom()",
        "`",
        "#",
        "len(",
        "``a'",
        "len(`",
        "len(#",
        "changecom(`#',`;')#",
        "changecom(`%',`;;')len(%\n;",
        "substr(abc,-1)",
        "substr(abc,1,-1)",
        "substr(abc,-0,1)",
        "eval(0&&1/0)",
        "changecom(#,\n)",
        "undefine(`define',`len')len(a)define(`a')",
        "popdef(`eval')eval(1)",
        "copydef(`no',`a')",
        "copydef(`no',`1')",
        "copydef(len)",
        "undefine(`len')copydef(len,l)",
        "copydef(`len',`f')defn(`f')",
        "len(a,",
        "m4wrap(`len(')",
        "m4wrap(`#')",
        "f(a)#",
        "len(eval",
        "define(define ",
    ]);
    [
        words::plain(random),
        b"errprint(e)".to_vec(),
        text.into(),
        words::any(random),
    ]
    .concat()
}
