//! Texts and tokens about as long as may be, and very many definitions. They take long, so there
//! are few of them.

use crate::random::Random;
use crate::LIMIT;

pub fn heavy(random: &mut Random) -> Vec<u8> {
    match random.below(10) {
        0..=1 => long_text(random),
        2..=4 => long_token(random),
        5 => many_definitions(random),
        6 => repeated(random),
        7 => long_border(random),
        8 => tripled_border(random),
        _ => long_results(random),
    }
}

/// A text that is as long as may be, or a little longer, and soon read.
pub fn overlong(random: &mut Random) -> Vec<u8> {
    let mut text = b"dnl ".to_vec();
    text.resize(LIMIT - 1 + random.below(3), b'\n');
    text.push(b'x');
    text
}

/// A text of 65,536 bytes, or a few less or more.
fn long_text(random: &mut Random) -> Vec<u8> {
    let length = LIMIT + random.below(5) - 2;
    let byte = random.pick(b"x1\n ;");
    let front = random.pick(&["", "dnl ", "define(`x',`')", "divert(1)", "len("]);
    let mut text = front.as_bytes().to_vec();
    text.resize(length, byte);
    text
}

/// A quoted token, a comment, a name or an argument that is nearly the whole text.
fn long_token(random: &mut Random) -> Vec<u8> {
    let (front, byte, back) = random.pick(&[
        ("`", b'a', "'"),
        ("#", b'a', "\n"),
        ("a", b'b', ""),
        ("define(`f',`", b'b', "')f"),
        ("len(`", b'b', "')"),
        ("m4wrap(`", b' ', "')"),
        ("errprint(", b'e', ")"),
        ("divert(3)`", b'e', "'undivert(3)divert(0)undivert"),
        ("translit(`", b'a', "',`a',`b')"),
        ("index(`", b'a', "',`aab')"),
        ("incr(", b'0', "1)"),
        ("eval(0", b'0', ")"),
        ("eval(1", b' ', "+1)"),
        ("eval(`0", b'1', "')"),
        ("define(`", b'n', "',`x')"),
        ("", b'`', ""),
    ]);
    let length =
        LIMIT - front.len() - back.len() + random.below(3) - random.pick(&[1, 1, 100, 30_000]);
    [front.as_bytes(), &vec![byte; length], back.as_bytes()].concat()
}

/// Definitions until buffer 3 or the budget is used up; then some are looked up, popped and
/// dropped.
fn many_definitions(random: &mut Random) -> Vec<u8> {
    let count = random.pick(&[100, 500, 2_000]);
    let body = random.pick(&["", "x", "$1$1", "a longer text"]);
    let end = random.pick(&[
        "n7",
        "undefine(`n1')n1",
        "popdef(`s',`s')s",
        "undefine(`s')s",
        "ifdef(`n50',`y')",
        "defn(`n3',`s')",
        "copydef(`n3',`n99')copydef(`n99',`n1')n1",
    ]);
    let step = random
        .pick(&[
            "define(`n$1',`B')",
            "pushdef(`s',`B')",
            "define(`n$1',`B')pushdef(`s',`$1')",
            "define(`s',`B')copydef(`s',`n$1')",
            "copydef(`len',`n$1')pushdef(`s',`B')",
        ])
        .replace('B', body);
    format!("define(`l',`{step}ifelse($1,0,`{end}',`l(decr($1))')')l({count}){end}").into_bytes()
}

/// One thing over and over until the text is as long as may be.
fn repeated(random: &mut Random) -> Vec<u8> {
    let unit = random.pick(&[
        "pushdef(`s')",
        "pushdef(`s',x)",
        "define(`nK',`v')",
        "pushdef(`sK')",
        "copydef(`len',`nK')",
        "divert(K)a`'",
        "m4wrap(b)",
        "errprint(c)",
        "len(",
        "K,",
    ]);
    let end = random.pick(&[
        "s",
        "undefine(`s')s",
        "popdef(`s',`s')s",
        "undivert(1)divert`'undivert(2)",
        "n5`'n2",
        "dnl",
    ]);
    let most = random.pick(&[500, 20_000, LIMIT - 100]);
    let mut text = Vec::new();
    let mut number = 0;
    while text.len() < most {
        text.extend(unit.replace('K', &(number % 1_000).to_string()).bytes());
        number += 1;
    }
    text.extend(end.bytes());
    text
}

/// A token whose pending part alone is about as long as may be, so that the whole is longer than
/// any buffer.
fn tripled_border(random: &mut Random) -> Vec<u8> {
    let (front, byte, back) = random.pick(&[
        ("", b'a', ""),
        ("#", b'a', "\n"),
        ("dnl ", b' ', "\n"),
        ("[", b'a', "]"),
        ("[", b'a', ""),
    ]);
    let length = random.pick(&[7_000, 20_000, 21_845]);
    let head = random.pick(&["", "divert(-1)", "divert(-1)", "divert(3)", "len("]);
    let define = [
        head.as_bytes(),
        b"changequote(\x01,\x02)define(\x01p\x02,\x01",
        front.as_bytes(),
        b"$1$1$1\x02)changequote([,])p([",
        &vec![byte; length - front.len()],
        b"])",
    ]
    .concat();
    [
        &define[..],
        &vec![byte; length],
        back.as_bytes(),
        b" divert`'z",
    ]
    .concat()
}

/// A token of many bytes on both sides of the border.
fn long_border(random: &mut Random) -> Vec<u8> {
    let (front, byte, back) = random.pick(&[
        ("", b'a', ""),
        ("[", b'a', "]"),
        ("#", b'a', "\n"),
        ("len([", b'a', "])"),
        ("dnl", b' ', "\n"),
        ("[", b'[', ""),
    ]);
    let pending = random.pick(&[10, 300, 20_000, 32_000]);
    let input = random.pick(&[10, 300, 20_000, 32_000]);
    let define = [
        b"changequote(\x01,\x02)define(\x01p\x02,\x01",
        front.as_bytes(),
        &vec![byte; pending],
        b"\x02)changequote([,])p()",
    ]
    .concat();
    [&define[..], &vec![byte; input], back.as_bytes(), b"z"].concat()
}

/// Results that just fit or do not.
fn long_results(random: &mut Random) -> Vec<u8> {
    let length = random.pick(&[1_000, 7_000, 30_000]);
    let body = random.pick(&["$1$1", "$@", "$*$1", "$1$2$1", "`$1'"]);
    let end = random.pick(&[
        "f(x,`x')",
        "shift(,x,`',x)",
        "len(f(x))",
        "substr(x,3)",
        "ifelse(x,x,x)",
        "divert(2)x`'divert(3)x`'divert(1)undivert",
        "m4wrap(x)x",
    ]);
    format!(
        "define(`x',`{}')define(`f',`{body}'){end}",
        "wy;".repeat(length / 3)
    )
    .into_bytes()
}
