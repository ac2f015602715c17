//! Texts that include from a set, wherever a call may stand: request 1 of 02.

use super::sets::{self, large::large};
use super::writer::Writer;
use super::{mutate, Input, Scale};
use crate::house::Item;
use crate::random::Random;

/// Where calls stand: `@` is one, `%` is one by a copy, and any other stands for itself. Those in quotes
/// are called later.
const PLACES: [&str; 66] = [
    "@",
    "@",
    "@",
    "a @ b",
    "1@2",
    "@@",
    "@ @\n@",
    // what stands behind goes on with the contents
    "@n(b)",
    "@(a)",
    "@(a)@(b)",
    "@(a,b)",
    "@_z(c) d",
    "@a'b",
    "@ dropped\nkept",
    "@;\n)z",
    // in calls
    "len(@)",
    "errprint(@)",
    "shift(a,@,b)",
    "define(`f',`[$#:$*]')f(@)",
    "define(`f',`[$#:$*]')f( @ ,@)",
    "eval(@+1)",
    "ifelse(@,@,same,other)",
    "substr(@,1)",
    "index(@,x)",
    "translit(@,abc,xyz)",
    "define(`x',@)x",
    "len(`@')",
    "len(len(@)@)",
    "changequote(@)",
    "incr(@)",
    "defn(@)",
    // the name itself is included
    "include(@)",
    "sinclude(@)",
    "sinclude(x@)",
    // from defined text, from wrap text, over and over
    "define(`p',`@')p",
    "define(`p',`@')p()p()",
    "define(`p',`@')len(p)",
    "define(`p',`incl')p()ude(a)",
    "define(`inc',`include(`$1')')inc(a)inc(b)inc()",
    "m4wrap(`@')",
    "m4wrap(`@')@",
    "m4wrap(`m4wrap(`@')a')@",
    "define(`l',`ifelse(`$1',`0',`',`@l(decr($1))')')l(3)",
    "ifelse(a,a,`@')",
    // into streams
    "divert(2)@`'divert",
    "divert(2)@divert(1)@",
    "divert(-1)@`'divert`'z",
    // other meanings
    "pushdef(`include',`[$1]')@`'popdef(`include')@",
    "define(`sinclude',`<$1>')@`'@",
    "undefine(`include')@@",
    "defn(`include')",
    "ifdef(`include',`@',`none')",
    // by copies
    "copydef(`include',`i')copydef(`sinclude',`si')%",
    "copydef(`include',`i')copydef(`sinclude',`si')len(%)%",
    "copydef(`include',`i')copydef(`sinclude',`si')undefine(`include')% @",
    "copydef(`include',`i')copydef(`i',`si')% i",
    "copydef(`divnum',`include')@include",
    // other marks
    "changequote([,])@",
    "changecom`'@",
    "changecom(`[',`]')@",
    // no call, or none that closes
    "`@'@",
    "#@\n@",
    "dnl @\n@",
    "include sinclude @",
    "include (a)@",
    "@include(a",
];

/// What may stand directly behind a call, where the contents may go on.
const BEHIND: [&str; 10] = ["", "", "", "", "", "", "(a)", "(a)", "n(b)", " c\n"];

/// A text with its set.
pub fn input(random: &mut Random, scale: Scale) -> Input {
    if scale == Scale::Full && random.below(60) == 0 {
        return large(random);
    }
    let items = sets::items(random, scale);
    Input {
        text: text(random, &items, scale),
        set: sets::written(random, &items),
    }
}

/// A text that mostly includes some of these items.
fn text(random: &mut Random, items: &[Item], scale: Scale) -> Vec<u8> {
    let names: Vec<Vec<u8>> = items.iter().map(|item| item.name.clone()).collect();
    let mut text = match random.below(20) {
        0..=13 => placed(random, &names),
        14..=17 => {
            let length = random.between(10, 60);
            Writer::new(random, 1).including(&names).text(length)
        }
        _ => super::text(random, scale),
    };
    if random.chance(12) {
        mutate::mutate(random, &mut text, scale);
    }
    text
}

/// Calls in one place or in two.
fn placed(random: &mut Random, names: &[Vec<u8>]) -> Vec<u8> {
    let mut text = Vec::new();
    for _ in 0..random.pick(&[1, 1, 1, 2]) {
        for &sign in random.pick(&PLACES).as_bytes() {
            match sign {
                b'@' => {
                    text.extend(sets::call(random, names));
                    text.extend(random.pick(&BEHIND).as_bytes());
                }
                b'%' => text.extend(by_copy(&sets::call(random, names))),
                byte => text.push(byte),
            }
        }
    }
    text
}

/// A call of `i` instead of `include`, or of `si` instead of `sinclude`.
fn by_copy(call: &[u8]) -> Vec<u8> {
    let behind = call.iter().position(|&byte| byte == b'(');
    let (name, arguments) = call.split_at(behind.expect("a call"));
    let copy: &[u8] = match name {
        b"include" => b"i",
        _ => b"si",
    };
    [copy, arguments].concat()
}
