//! Whether the ways of request 2 of 02 are told apart: short texts, each with all the ways that it
//! takes. Those of requests 1, 3 and 7 are told apart by tests of the model's own.

use crate::tally::Tally;
use model::ways::copies::Copies;
use model::ways::inclusions::Inclusions;
use model::ways::remarks::Remarks;
use model::ways::sets::Sets;
use model::ways::Ways;
use model::{expand, Setting, NO_ITEMS};

const WITH_AMPLE_ROOM: [&str; 27] = [
    "len -> plain to output + plain at the end + plain len",
    "eval ( -> plain to output + space, then ( + plain eval",
    "incr\t( -> plain to output + tab, then ( + plain incr",
    "decr\n( -> plain to output + newline, then ( + plain decr",
    "shift`'( -> plain to output + quote, then ( + plain shift",
    "index#\n( -> plain to output + comment, then ( + plain index",
    "len\r( -> plain to output + plain len",
    "len(a) -> opened len",
    "include ( -> plain to output + space, then ( + plain include",
    "sinclude(a) -> opened sinclude",
    "divnum -> bare divnum",
    "divnum( -> opened divnum",
    "divert(1)define; -> opened divert + plain to a stream + plain define",
    "divert(-1)define; -> opened divert + plain discarded + plain define",
    "shift(len ) -> opened shift + plain first in call + blank kept behind + plain len",
    "shift(a, len) -> opened shift + behind dropped blank + plain len",
    "shift(a len ) -> opened shift + behind another token + plain len",
    "define(`p',`len')p()(a) -> opened define + opened at the border + opened len",
    "define(`p',`len')p();len(a) -> opened define + plain at the border + plain to output \
        + plain len + opened len",
    "define(`p',`le')p()n(a) -> opened define + opened across it + opened len",
    "define(`p',`le')p()n; -> opened define + plain across it + plain to output + plain len",
    "define(`p',`len(a)')p() -> opened define + opened in pending + opened len",
    "define(`p',`len;')p() -> opened define + plain in pending + plain to output + plain len",
    "m4wrap(`(a)')len -> opened m4wrap + ( in waiting wrap + plain to output + plain len",
    "pushdef(`len',`x')len popdef(`len')len; -> opened pushdef + text over it, bare \
        + opened popdef + uncovered and plain + plain to output + plain len",
    "undefine(`len')len( -> opened undefine + undefined before (",
    "shift(len -> opened shift + plain first in call + plain at the end + plain, then unclosed \
        + plain len",
];

/// Every text takes just the ways that are said, and a way that no run takes is reported as
/// missing.
pub fn ways_noted() -> bool {
    let ample = Setting::ample();
    let room = |buffer: usize, length| {
        let mut setting = ample.clone();
        setting.lengths[buffer - 1] = length;
        setting
    };
    let spent = Setting {
        budget: 0,
        ..ample.clone()
    };
    let refused = [
        ("len -> plain, no room 7", room(7, 2)),
        (
            "divert(1)len -> opened divert + plain, no room 4",
            room(4, 2),
        ),
        ("divnum(len -> opened divnum + plain, no room 2", room(2, 8)),
        ("len -> plain, spent", spent),
    ];
    let with_ample_room = WITH_AMPLE_ROOM.map(|said| (said, ample.clone()));
    let all = with_ample_room.iter().chain(&refused);
    // counted to the end: every finding is to be printed
    let wrong = all.filter(|(said, setting)| !takes(said, setting)).count();
    all_missed() && wrong == 0
}

/// Whether a text takes the ways that are said of it.
fn takes(said: &str, setting: &Setting) -> bool {
    let (text, said) = said.split_once(" -> ").expect("a text and its ways");
    let mut said: Vec<&str> = said.split(" + ").collect();
    let mut ways = Ways::default();
    let report = expand(text.as_bytes(), NO_ITEMS, setting);
    let wrong = ways.walk(text.as_bytes(), NO_ITEMS, &report);
    let counts = ways.counts().into_iter().filter(|(_, count)| *count > 0);
    let mut taken: Vec<String> = counts.map(|(way, _)| way).chain(wrong.err()).collect();
    said.sort();
    taken.sort();
    if taken != said {
        println!("{text:?} takes {taken:?} instead of {said:?}");
    }
    taken == said
}

fn all_missed() -> bool {
    let missing = Tally::default().missing();
    let named = [Ways::default().counts(), Copies::default().counts()];
    let named = named.concat().into_iter().map(|(way, _)| way);
    let others = [
        Remarks::default().counts().to_vec(),
        Sets::default().counts().to_vec(),
        Inclusions::default().counts().to_vec(),
    ];
    let others = others.concat().into_iter().map(|(way, _)| way.to_string());
    let mut unmissed: Vec<String> = named.chain(others).collect();
    unmissed.retain(|way| !missing.contains(way));
    for way in &unmissed {
        println!("no run takes {way:?}, and it is not reported as missing");
    }
    unmissed.is_empty()
}
