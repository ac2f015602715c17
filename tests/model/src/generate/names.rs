//! Where one of the predefined names may stand, and what may follow it.

use crate::ways::Use;

/// A text with a name in it: `@` stands for the name, `<` and `>` for its first byte and the others,
/// `~` for what follows; and how every name must be used there with one follower or another.
pub type Place = (&'static str, &'static [Use]);

const KEPT: &[Use] = &[Use::Plain, Use::Bare, Use::Opened];
/// The follower is not ahead yet when the name is read.
const WAITING: &[Use] = &[Use::Plain, Use::Bare];
const UNCOVERED: &[Use] = &[Use::Text, Use::Plain, Use::Bare, Use::Opened];

pub const PLACES: [Place; 25] = [
    // outside of calls
    ("@~", KEPT),
    ("a 1@~ z", KEPT),
    ("divert(3)@~", KEPT),
    ("divert(-1)@~", KEPT),
    // the first token of an argument, or another one, or in a call in it
    ("errprint(@~)", KEPT),
    ("shift(a, \n\t@~ ,b)", KEPT),
    ("shift(`'@~,b)", KEPT),
    ("errprint(a @~)", KEPT),
    ("errprint((@~))", KEPT),
    ("shift(a,shift(@~,b),c)", KEPT),
    ("divnum( @~", KEPT),
    // pending text, at its end, across its end and within it
    ("define(`p',`@')p()~", KEPT),
    ("define(`p',`a @')errprint(p()~)", KEPT),
    ("define(`p',`<')p()>~", KEPT),
    ("define(`p',`@~')p()", KEPT),
    // wrap text
    ("m4wrap(`@~')", KEPT),
    ("m4wrap(`@')m4wrap(`~')", KEPT),
    ("m4wrap(`~')@", WAITING),
    ("m4wrap(`m4wrap(`~')@')", WAITING),
    // covered, uncovered, replaced, and gone
    ("pushdef(`@',`[$#]')@~", &[Use::Text]),
    ("pushdef(`@',`[]')@`'popdef(`@')@~", UNCOVERED),
    ("define(`@',`[$1]')@~", &[Use::Text]),
    ("undefine(`@')@~", &[Use::Undefined]),
    // another meaning at closing, or none
    ("@(define(`@',`x'))~", &[Use::Opened]),
    ("@(undefine(`@'))~", &[Use::Opened]),
];
pub const FOLLOWERS: [&str; 18] = [
    "", "(", "()", "(2)", " (2)", "\t(2)", "\n(2)", "`'", "`'(2)", "`(2)'", "#c\n", "#c\n(2)", ",",
    ")", "7(2)", "_(2)", "x(2)", "$(2)",
];

/// The text of a place.
pub fn filled(place: &str, name: &str, follower: &str) -> String {
    let (first, others) = name.split_at(1);
    let parts = [('@', name), ('<', first), ('>', others), ('~', follower)];
    parts.iter().fold(place.to_string(), |text, (sign, part)| {
        text.replace(*sign, part)
    })
}
