//! Calls: how deep they may stand in each other, how many arguments they may have, what is dropped
//! before an argument, and what a text does with its arguments.

use crate::generate::words;
use crate::random::Random;

/// About as many calls in each other as may be.
pub fn nested_calls(random: &mut Random) -> Vec<u8> {
    let count = if random.chance(50) {
        random.between(1, 64)
    } else {
        random.between(61, 68)
    };
    let mut text = b"define(`f',`$1.')define(`g',`shift($@)')".to_vec();
    let commas = random.pick(&["", "", ",", ",,", ",,,"]);
    let mut closed: Vec<u8> = Vec::new();
    let all = [
        "len(",
        "f(",
        "g(",
        "ifelse(",
        "errprint(",
        "shift(",
        "x(",
        "(",
    ];
    let names = random.pick(&[&all[..], &all[..6], &all[..1]]);
    for _ in 0..count {
        text.extend(random.pick(names).as_bytes());
        if random.chance(30) {
            text.extend(commas.as_bytes());
        }
        closed.extend(random.pick(&[")", ")", ")", ",a)", ")b", "))"]).as_bytes());
    }
    text.extend(words::plain(random));
    text.extend(closed);
    text
}

/// About as many arguments as may be, in one call or in several.
pub fn many_arguments(random: &mut Random) -> Vec<u8> {
    if random.chance(10) {
        let eights = " c".repeat(random.between(30, 34));
        return format!("define(`c',`,,,,,,,,')len({eights})").into_bytes();
    }
    let calls = random.pick(&[1, 1, 2, 5, 60]);
    let each: usize = 256 / calls + 1;
    let mut text = b"define(`f',`$#$9$*')define(`c',`,,,,,,,')".to_vec();
    for _ in 0..calls {
        text.extend(random.pick(&["f(", "len(", "shift(", "ifelse("]).as_bytes());
        let commas = if random.chance(70) {
            random.between(each.saturating_sub(4), each)
        } else {
            random.below(each)
        };
        for _ in 0..commas {
            text.extend(random.pick(&[",", ",", ",", ",a", ",`'", ", "]).as_bytes());
        }
    }
    text.extend(random.pick(&["c", "divnum", "", "len()"]).as_bytes());
    text.extend(b")".repeat(calls));
    text
}

/// What is dropped before an argument and what is kept.
pub fn collected(random: &mut Random) -> Vec<u8> {
    let mut text = b"define(`f',`[$#:$*]')define(`e')define(`k',`,')define(`i',` j')".to_vec();
    for _ in 0..random.between(1, 3) {
        text.extend(random.pick(&[&b"f("[..], b"len(", b"errprint("]));
        for _ in 0..random.below(8) {
            text.extend(
                random
                    .pick(&[
                        " ", "\n", "\t", "`'", "e", "e ", "#,)\n", "a", "(", ")", ",", "k", "i",
                        "`k'", "(,)", "( a )", "\r", "f", "f()", "e() ", "x",
                    ])
                    .as_bytes(),
            );
        }
        text.push(b')');
    }
    text
}

/// Defined texts with many dollars.
pub fn parameters(random: &mut Random) -> Vec<u8> {
    const DOLLARS: [&str; 18] = [
        "$1", "$2", "$3", "$9", "$10", "$0", "$#", "$*", "$@", "$$", "$", "`$1'", ";", "$1$2",
        "\"", "$\u{0}", "``$@''", "len($1)",
    ];
    let mut body = String::new();
    for _ in 0..random.between(1, 6) {
        body.push_str(random.pick(&DOLLARS));
    }
    let count = random.pick(&[0, 1, 1, 2, 3, 9, 10, 12]);
    let mut arguments = Vec::new();
    for _ in 0..count {
        arguments.push(random.pick(&[
            "", "a", " b ", "`c'", "`d,e'", "$1", "(f,g)", "``q''", "f", "`f'",
        ]));
    }
    let call = if count == 0 {
        "f".to_string()
    } else {
        format!("f({})", arguments.join(","))
    };
    let end = random.pick(&[
        "C",
        "C",
        "C",
        "changequote([,])C",
        "len(C a)",
        "ifelse(C)",
        "shift(C)",
        "f(C)",
    ]);
    format!("define(`f',`{body}'){}", end.replace('C', &call)).into_bytes()
}
