//! Definitions that are laid upon each other, go, change or are copied.

use crate::generate::words;
use crate::random::Random;

/// Definitions upon each other, taken away in any order.
pub fn pushed(random: &mut Random) -> Vec<u8> {
    let plain = words::needs_parenthesis(random);
    let all = ["a", "b", "ab", "len", "dnl", "popdef", plain];
    let names = if random.chance(30) {
        &[random.pick(&all)]
    } else {
        &all[..]
    };
    let mut text = Vec::new();
    for i in 0..random.between(3, 25) {
        let name = random.pick(names);
        let other = random.pick(&["a", "b", "len", name]);
        let body = "xyz".repeat(random.pick(&[0, 1, 1, 2, 9]));
        text.extend(
            match random.below(14) {
                0..=3 => format!("pushdef(`{name}',`{i}{body}')"),
                4..=5 => format!("define(`{name}',`{i}{body}')"),
                6 => format!("popdef(`{name}')"),
                7 => format!("popdef(`{name}'){name} "),
                8 => format!("popdef(`{name}',`{other}',`{name}')"),
                9 => format!("undefine(`{name}',`{other}')"),
                10 => format!("ifdef(`{name}',`{other}',`n')"),
                11 => format!("defn(`{other}',`a')"),
                12 => format!("{name}{}", random.pick(&["", " ", "()", "(a)"])),
                _ => format!("define(`{name}',defn(`a')defn(`b'))"),
            }
            .bytes(),
        );
    }
    text
}

/// Definitions that go or change while a call of theirs is open.
pub fn gone(random: &mut Random) -> Vec<u8> {
    let plain = words::needs_parenthesis(random);
    let name = random.pick(&["len", "f", "f", "define", plain]);
    let away = random.pick(&[
        "undefine", "popdef", "undefine", "popdef", "pushdef", "define",
    ]);
    let text = random.pick(&[
        "define(`N',`x$1')N(A(`N')a)",
        "N(undefine(`N')pushdef(`N',`x'))",
        "N(undefine(`N')define(`N',`x'))",
        "pushdef(`N',`x$1')N(A(`N')a)N",
        "N(A(`N'))N(a)",
        "N(N(A(`N')))",
        "define(`o',`A(`N')')N(a,o)N",
        "N(define(`N',`[$*]')N(b),c)",
    ]);
    text.replace('N', name).replace('A', away).into_bytes()
}

/// defn of one or several names.
pub fn copied(random: &mut Random) -> Vec<u8> {
    let name = random.pick(&["len", "f", "dnl", "define", "f"]);
    let text = random.pick(&[
        "define(`f',`a`b'c$1')define(`g',defn(`f'))g(x)f(y)",
        "define(`f')len(defn(`f') a)len(defn(`x') a)",
        "define(`f',`1')define(`g',`2')defn(`g',`x',`f',`g')",
        "pushdef(`N',`[$1]')defn(`N')popdef(`N')N(a)",
        "define(`f',`a')defn(`f',`N')",
        "define(`f',`a`b'')len(defn(`f',`N') c)",
        "define(`N')len(defn(`N',`x') a)",
        "pushdef(`N',`x')popdef(`N')defn(`N')",
        "changequote([,])define([f],[`])define([g],['])changequote`'defn(`f',`g')",
        "define(`f',`,')len(defn(`f')a)len(f()a)",
        "defn`'defn()defn(`')defn(1)",
        "define(`f',`f')defn(`f')(f)",
    ]);
    text.replace('N', name).into_bytes()
}
