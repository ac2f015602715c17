//! The ways of what is included, told apart: each text below with all ways that it takes.

use super::Inclusion::{self, *};
use super::{Inclusions, INCLUSIONS};
use crate::house::{write, Item};
use crate::{expand, Report, Setting, NO_ITEMS};

/// The ways of a text, in the order of the list.
fn ways(items: &[(&str, &str)], text: &str, setting: &Setting) -> Vec<Inclusion> {
    let item = |(name, text): &(&str, &str)| Item::new(name.as_bytes(), text.as_bytes());
    let set = write(&items.iter().map(item).collect::<Vec<Item>>());
    let mut inclusions = Inclusions::default();
    let report = expand(text.as_bytes(), &set, setting);
    let verdict = inclusions.walk(text.as_bytes(), &set, setting, &report);
    assert_eq!(verdict, Ok(()), "{text}");
    let all = INCLUSIONS.into_iter().map(|(way, _)| way);
    all.filter(|&way| inclusions.taken[way as usize] > 0)
        .collect()
}

fn with_ample_room(items: &[(&str, &str)], cases: &[(&str, &[Inclusion])]) {
    for &(text, expected) in cases {
        assert_eq!(ways(items, text, &Setting::ample()), expected, "{text}");
    }
}

#[test]
fn what_is_asked_and_found() {
    let long = "n".repeat(129);
    let text = "t".repeat(128);
    with_ample_room(
        &[
            ("a", "x"),
            ("", "y"),
            ("bc", ""),
            ("a", "z"),
            ("bc", "z"),
            ("x y", "1"),
            (&long, "2"),
            ("t", &text),
        ],
        &[
            ("a", &[]),
            ("include(a)", &[IncludeFound, FirstOfTwo]),
            ("sinclude()", &[SincludeFound, NoNameFound, LaterItem]),
            (
                "include(bc)",
                &[
                    IncludeFound,
                    LaterItem,
                    FirstOfTwo,
                    FirstOfTwoEmpty,
                    EmptyContents,
                ],
            ),
            ("include(z)", &[IncludeUnknown]),
            ("sinclude(z)", &[SincludeUnknown]),
            ("include(ab)", &[IncludeUnknown, GoesOn]),
            ("include(a )", &[IncludeUnknown, GoesOn, BlankBehind]),
            ("sinclude(b)", &[SincludeUnknown, IsFront]),
            ("include(x y)", &[IncludeFound, LaterItem, OddName]),
            ("include(t)", &[IncludeFound, LaterItem, TextAcross]),
            (
                "include(t,a)",
                &[IncludeFound, LaterItem, TextAcross, Surplus],
            ),
        ],
    );
    with_ample_room(
        &[(&long, "2")],
        &[("sinclude()", &[SincludeUnknown, NoNameUnknown])],
    );
    let call = format!("include({long})");
    let found = ways(&[(&long, "2")], &call, &Setting::ample());
    assert_eq!(found, [IncludeFound, NameAcross]);
}

#[test]
fn where_contents_go() {
    with_ample_room(
        &[
            ("a", "x"),
            ("b", "x,y"),
            ("c", "include(a)"),
            ("le", "le"),
            ("l", "len"),
            ("d", "dnl"),
            ("q", "`x"),
            ("u", "include(z)"),
        ],
        &[
            ("len(include(a))", &[IncludeFound, InCall]),
            (
                "len(include(b))",
                &[IncludeFound, LaterItem, InCall, CommaInCall],
            ),
            ("m4wrap(`include(a)')", &[IncludeFound, FromWrap]),
            ("include(c)", &[IncludeFound, LaterItem, FromContents]),
            ("include(le)n(a)", &[IncludeFound, LaterItem, TokenRunsOn]),
            (
                "include(l)(a)",
                &[IncludeFound, LaterItem, ParenthesisBehind],
            ),
            ("include(l) (a)", &[IncludeFound, LaterItem]),
            ("include(d) x\ny", &[IncludeFound, LaterItem, LineRunsOn]),
            ("include(q)", &[IncludeFound, LaterItem, OpenQuote]),
            (
                "include(u)",
                &[IncludeFound, IncludeUnknown, LaterItem, UnknownFromContents],
            ),
            // contents that are used up include nothing
            ("include(a) include(a)", &[IncludeFound]),
        ],
    );
}

#[test]
fn ways_of_settings() {
    let items = [("a", "include(a)x"), ("b", "y")];
    let with = |pending: usize, budget: u32| {
        let mut setting = Setting::ample();
        setting.lengths[0] = pending;
        setting.budget = budget;
        setting
    };
    let itself = [IncludeFound, FromContents, Itself];
    let spent = ways(&items, "include(a)", &with(99, 20));
    assert_eq!(spent, [&itself[..], &[ItselfSpent]].concat());
    let full = ways(&items, "include(a)", &with(20, 100));
    assert_eq!(full, [&itself[..], &[ItselfRoom, Room]].concat());
    assert_eq!(ways(&items, "include(a)", &with(10, 100)), [Room]);
    let unknown = ways(&items, "include(z)", &with(0, 100));
    assert_eq!(unknown, [IncludeUnknown, UnknownNoRoom]);
    assert_eq!(ways(&items, "include(z)", &with(0, 2)), [UnknownSpent]);
    assert_eq!(ways(&items, "include(a)", &with(0, 2)), []);
    let long = "x".repeat(65_537);
    let over = ways(&[("a", &long)], "include(a)", &Setting::ample());
    assert_eq!(over, [Room, OverLimit]);
}

/// An answer that 02 does not ask for is found out.
#[test]
fn faults() {
    let set = write(&[Item::new(b"a", b"x")]);
    let ample = Setting::ample();
    let faulty = |text: &[u8], set: &[u8], report: &Report| {
        let verdict = Inclusions::default().walk(text, set, &ample, report);
        verdict.is_err()
    };
    let unknown = expand(b"include(a)", NO_ITEMS, &ample);
    assert!(!faulty(b"include(a)", NO_ITEMS, &unknown));
    assert!(faulty(b"include(a)", &set, &unknown));
    assert!(faulty(b"sinclude(a)", NO_ITEMS, &unknown));
    assert!(faulty(b"len(a)", NO_ITEMS, &unknown));
}
