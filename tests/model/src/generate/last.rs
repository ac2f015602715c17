//! Texts that mostly end in a comment that no end mark closes: request 3 of 02. The marks, what stands
//! behind the begin mark and most places are those of [`comments`](super::comments).

use super::comments::{filled, Marks, CONTENTS, ENDINGS, MARKS, PLACES};
use super::words;
use crate::random::Random;

/// More places, with signs as in [`filled`].
const OTHERS: [&str; 20] = [
    "M@a\n@~",
    // in a call
    "Mdefine({f}, @~)",
    "Mifelse(a,b,{c}@~",
    "Mlen(len( (@~",
    "Mlen(a)len(@~",
    "Mshift(a,boom(@~)",
    // in pending text
    "define({p},{@~})Mp",
    "define({p},{@~})define({q},{p()})Mq()",
    "define({p},{@})define({q},{p()})Mq()~",
    "Msubstr({x@~},1)~",
    "define({p},{@~})Mlen(p)",
    // in wrap text, or before some
    "m4wrap({@~})Mb",
    "m4wrap({len(@~})M",
    "m4wrap({m4wrap({@~})@~})M",
    "m4wrap({)})Mlen(@~",
    "m4wrap({M@~})@~",
    "m4wrap({m4wrap({x})M@~})",
    // in streams
    "Mdivert(10)a @~",
    "m4wrap({divert(0)b})Mdivert(1)@~",
    "m4wrap({divert(0)undivert(2)b})Mdivert(2)@~",
];
/// For marks of two bytes or more: across the border, or only begun.
const CUT: [&str; 4] = [
    "define({p},{<})Mlen(p()>~)",
    "define({p},{<})Ma{}p()>~",
    "Ma <",
    "m4wrap({<})M<",
];

/// A comment in its place, sometimes behind other text.
pub fn last(random: &mut Random) -> Vec<u8> {
    let before = match random.below(3) {
        0 => random.pick(&["divert(2)", "divert(2)", "divert(-1)"]),
        _ => random.pick(&["", "", "a;", "# b\n", "errprint(e)"]),
    };
    let place = place(random);
    let marks = marks(random, place);
    let comment = filled(place, &marks, &content(random), ending(random));
    [before.as_bytes(), &comment].concat()
}

fn place(random: &mut Random) -> &'static str {
    match random.below(10) {
        0 => random.pick(&CUT),
        1..=5 => random.pick(&OTHERS),
        _ => random.pick(&PLACES).text,
    }
}

/// Any marks; where a mark is cut, long ones.
fn marks(random: &mut Random, place: &str) -> Marks {
    let mut marks = MARKS.to_vec();
    marks.retain(|marks| !place.contains('<') || marks.is_long());
    random.pick(&marks)
}

fn content(random: &mut Random) -> Vec<u8> {
    let mut content = random.pick(&CONTENTS).to_vec();
    content.truncate(random.pick(&[20, 20, 20, 1_000]));
    if random.chance(30) {
        content.extend(words::any(random));
    }
    content
}

/// Mostly nothing.
fn ending(random: &mut Random) -> &'static str {
    match random.below(4) {
        0 => random.pick(&ENDINGS),
        _ => "",
    }
}
