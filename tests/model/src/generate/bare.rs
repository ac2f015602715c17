//! Predefined names with and without `(` behind them, wherever a name may stand: request 2 of 02.
//! Most places and some of what follows there are those of [`names`](super::names).

use super::names::{filled, FOLLOWERS, PLACES};
use super::words;
use crate::random::Random;

/// More places, with signs as in [`PLACES`]: among other words, more than once in a call, and gone.
const OTHERS: [&str; 19] = [
    "the @ of the boom~",
    "@,@)~",
    "1@-@_~",
    "divert(1)@`'divert",
    "len( @ )~",
    "define(`f',`[$#$*]')f( @ , @ @~)",
    "define(`f',`$1')f( @~)",
    "ifelse(@,@,`@',@)~",
    "ifdef(@,`@',@)",
    "errprint(@, @~)",
    "index(a @ b,@)",
    "substr( @,1,2)",
    "translit(@,den,xyz)",
    "m4wrap( @~)",
    "defn(`f',@)",
    "popdef(@)@~",
    "undefine(@)@~",
    "define(@,`x')@~@",
    "define(`p',`@(')p()2)",
];
/// The last of pending text.
const BORDER: [&str; 4] = [
    "define(`p',`a @')p()~",
    "define(`p',`@')len(p()~)",
    "define(`p',`@')define(`q',`p()')q()~",
    "substr(x@,1)~",
];
/// Covered by a text, and uncovered.
const COVERED: [&str; 3] = [
    "pushdef(@,`x')@~`'popdef(`@')@~",
    "len(pushdef(`@',`x')@ popdef(`@')@~)",
    "pushdef(`@',`x')pushdef(`@',`y')popdef(`@')@ popdef(`@')@~",
];

/// Names in their places; some texts end with a name.
pub fn bare(random: &mut Random) -> Vec<u8> {
    let mut text = String::new();
    for _ in 0..random.between(2, 6) {
        text += random.pick(&["", "`'", " ", ";", "\n"]);
        text += &placed(random);
    }
    if random.chance(40) {
        let (place, _) = random.pick(&PLACES);
        let (through_name, _) = place.split_once('~').expect("a place for what follows");
        text += &named(random, through_name);
    }
    text.into_bytes()
}

/// A name in a place, written with the default marks.
pub fn placed(random: &mut Random) -> String {
    let place = match random.below(9) {
        0..=2 => random.pick(&PLACES).0,
        3..=4 => random.pick(&OTHERS),
        5..=6 => random.pick(&BORDER),
        _ => random.pick(&COVERED),
    };
    named(random, place)
}

fn named(random: &mut Random, place: &str) -> String {
    let name = match random.below(7) {
        0 => words::predefined(random),
        _ => words::needs_parenthesis(random),
    };
    let follower = follower(random, name);
    filled(place, name, &follower)
}

/// What follows a name: mostly a parenthesis, often with something before it.
fn follower(random: &mut Random, name: &str) -> String {
    let between = match random.below(15) {
        0..=5 => "",
        6..=8 => random.pick(&[" ", "\n", "\t", "  "]),
        9..=10 => random.pick(&["`'", "`a'"]),
        11..=12 => random.pick(&["#\n", "#a(\n"]),
        _ => return random.pick(&FOLLOWERS).to_string(),
    };
    format!("{between}({})", argument(random, name))
}

/// Arguments that mostly suit the macro.
pub fn argument(random: &mut Random, name: &str) -> &'static str {
    match name {
        _ if random.chance(5) => random.pick(&["", "a", "1", "-"]),
        "decr" | "eval" | "incr" | "divert" | "m4exit" | "undivert" => {
            random.pick(&["1", "2", "7"])
        }
        "substr" => random.pick(&["ab,1", "abc,1,1", "`c',0"]),
        "copydef" => random.pick(&["len,l", "`incr',`f'", "`divnum',g"]),
        "define" | "pushdef" | "defn" | "popdef" | "undefine" => random.pick(&["f", "`g'", "f,1"]),
        "changecom" | "changequote" => random.pick(&["`[',`]'", "`<'"]),
        _ => random.pick(&["", "a", "a,b", "`c'", " a ", "(a,b)"]),
    }
}
