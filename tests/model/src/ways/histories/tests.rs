//! The ways of request 8, told apart: each text below with all ways that it takes, worked out by hand.

use super::Way::{self, *};
use super::{Histories, WAYS};
use crate::{expand, Setting, NO_ITEMS};

/// The ways of a text, in the order of the list.
fn ways(text: &str) -> Vec<Way> {
    let mut histories = Histories::default();
    let report = expand(text.as_bytes(), NO_ITEMS, &Setting::ample());
    let verdict = histories.walk(text.as_bytes(), NO_ITEMS, &report);
    assert_eq!(verdict, Ok(()), "{text}");
    let all = WAYS.into_iter().map(|(way, _)| way);
    all.filter(|&way| histories.taken[way as usize] > 0)
        .collect()
}

fn take(cases: &[(&str, &[Way])]) {
    for &(text, expected) in cases {
        assert_eq!(ways(text), expected, "{text}");
    }
}

#[test]
fn the_list_is_in_order() {
    for (place, (way, _)) in WAYS.into_iter().enumerate() {
        assert_eq!(way as usize, place);
    }
}

#[test]
fn where_bytes_are_placed() {
    take(&[
        ("", &[NoNumber]),
        ("`'", &[NoNumber]),
        ("a", &[PlacedIn0]),
        ("#a", &[PlacedIn0, Comment]),
        ("`a'", &[PlacedIn0, Quoted]),
        ("divert(1)a", &[PlacedIn1To9, Joined, DoneInStream]),
        ("divert(-1)a", &[Discarded, DoneDiscarding, NoNumber]),
        ("divert(10)#a", &[Discarded, DoneDiscarding, NoNumber]),
        ("define(`f',`$1')f(`a')", &[PlacedIn0, Collected]),
        ("define(`f',`b')f(`a')", &[PlacedIn0]),
        ("define(`f',`b')f(`a')`'a", &[PlacedIn0]),
        ("ifelse(a,a,`b')", &[PlacedIn0, Collected]),
        ("m4wrap(`a')", &[PlacedIn0, ByWrap]),
        (
            "m4wrap(`divert(-1)a')",
            &[Discarded, DoneDiscarding, NoNumber],
        ),
    ]);
}

#[test]
fn where_bytes_are_moved() {
    take(&[
        ("divert(1)a`'divert`'undivert(1)", &[PlacedIn1To9, MovedTo0]),
        (
            "divert(1)ab`'divert(2)undivert(1)",
            &[PlacedIn1To9, MovedTo1To9, Together, Joined, DoneInStream],
        ),
        (
            "divert(1)a`'divert(-1)undivert(1)",
            &[PlacedIn1To9, Lost, DoneDiscarding],
        ),
        (
            "divert(1)a`'divert(2)undivert(1)divert`'undivert(2)",
            &[PlacedIn1To9, MovedTo0, MovedTo1To9, MovedTwice],
        ),
        (
            "divert(1)a`'divert(2)undivert(1)divert(1)undivert(2)",
            &[
                PlacedIn1To9,
                MovedTo1To9,
                MovedTwice,
                Back,
                Joined,
                DoneInStream,
            ],
        ),
        (
            "a`'divert(1)b`'divert`'undivert(1)",
            &[PlacedIn0, PlacedIn1To9, MovedTo0, Met],
        ),
        (
            "m4wrap(`undivert(1)')divert(1)a`'divert",
            &[PlacedIn1To9, MovedTo0, MovedByWrap],
        ),
    ]);
}

#[test]
fn what_an_undivert_names() {
    take(&[
        ("undivert", &[Bare, NoNumber]),
        ("divert(1)undivert", &[BareInStream, DoneInStream, NoNumber]),
        (
            "divert(-1)undivert",
            &[BareDiscarding, DoneDiscarding, NoNumber],
        ),
        ("undivert(1)", &[EmptyNamed, NoNumber]),
        (
            "divert(1)undivert(1)",
            &[CurrentNamed, DoneInStream, NoNumber],
        ),
        ("undivert(1,1)", &[EmptyNamed, NamedTwice, NoNumber]),
        ("undivert(1,2)", &[EmptyNamed, NoNumber]),
        ("undivert(2,1)", &[EmptyNamed, NotAscending, NoNumber]),
        (
            "divert(1)a`'divert`'undivert(1,1)",
            &[PlacedIn1To9, MovedTo0, EmptyNamed, NamedTwice],
        ),
    ]);
}

#[test]
fn how_a_run_is_done() {
    take(&[
        (
            "divert(1)a`'divert(2)b`'divert",
            &[PlacedIn1To9, Joined, JoinedSeveral],
        ),
        (
            "divert(1)a`'divert(-1)undivert(1)divert`'b",
            &[PlacedIn0, PlacedIn1To9, Lost, LostBesideKept],
        ),
        (
            "divert(2)a`'divert(1)b`'divert",
            &[PlacedIn1To9, Joined, JoinedSeveral, OutOfOrder],
        ),
        (
            "divert(1)a`'divert`'undivert(1)divert(1)b`'divert`'undivert(1)",
            &[PlacedIn1To9, MovedTo0, Met, EqualRoute],
        ),
    ]);
}

#[test]
fn how_a_run_exits() {
    take(&[
        ("m4exit", &[NoNumber]),
        ("a`'m4exit", &[PlacedIn0]),
        ("divert(1)a`'m4exit", &[PlacedIn1To9, Dropped, ExitInStream]),
        ("divert(-1)m4exit", &[ExitDiscarding, NoNumber]),
        (
            "divert(1)a`'divert`'undivert(1)m4exit",
            &[PlacedIn1To9, MovedTo0, MovedThenExit],
        ),
        (
            "divert(1)a`'divert(10)undivert(1)m4exit",
            &[PlacedIn1To9, Lost, ExitDiscarding, LostThenExit],
        ),
    ]);
}

#[test]
fn nothing_is_noted_of_a_refused_run() {
    take(&[("a`", &[]), ("undivert(0)", &[])]);
}
