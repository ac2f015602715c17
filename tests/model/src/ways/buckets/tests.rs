//! The ways of buckets, told apart: each text below with all ways that it takes. In them X, Y and Z stand
//! for names of one bucket, and L and M for names of the bucket of `len`.

use super::Bucketed::{self, *};
use super::{Buckets, BUCKETED};
use crate::buckets::{bucket_of, predefined_in, sharing};
use crate::{expand, Setting, NO_ITEMS};

fn filled(text: &str) -> String {
    let free = (0..).find(|&bucket| predefined_in(bucket).is_none());
    let names = sharing(free.expect("a bucket"), "s", 100, 3);
    let others = sharing(bucket_of(b"len"), "s", 100, 2);
    let signs = ["X", "Y", "Z", "L", "M"].into_iter();
    let pairs = signs.zip(names.into_iter().chain(others));
    pairs.fold(text.to_string(), |text, (sign, name)| {
        text.replace(sign, &name)
    })
}

/// The ways of a text, in the order of the list.
fn ways(text: &str, setting: &Setting) -> Vec<Bucketed> {
    let text = filled(text);
    let mut buckets = Buckets::default();
    let report = expand(text.as_bytes(), NO_ITEMS, setting);
    let verdict = buckets.walk(text.as_bytes(), NO_ITEMS, setting, &report);
    assert_eq!(verdict, Ok(()), "{text}");
    let all = BUCKETED.into_iter().map(|(way, _)| way);
    all.filter(|&way| buckets.0[way as usize] > 0).collect()
}

/// Those that a text takes beside those of its first part.
fn more(first: &str, second: &str) -> Vec<Bucketed> {
    let setting = Setting::ample();
    let before = ways(first, &setting);
    let mut all = ways(&format!("{first}{second}"), &setting);
    all.retain(|way| !before.contains(way));
    all
}

fn told_apart(cases: &[(&str, &str, &[Bucketed])]) {
    for &(first, second, expected) in cases {
        assert_eq!(more(first, second), expected, "{first} {second}");
    }
}

/// The names stand in the list as they do in the enum, so that each is counted under its own.
#[test]
fn each_way_has_its_name() {
    for (place, (way, _)) in BUCKETED.into_iter().enumerate() {
        assert_eq!(way as usize, place);
    }
}

#[test]
fn what_is_found() {
    told_apart(&[
        ("", "X", &[NoneEmpty]),
        ("", "L", &[NonePredefined]),
        ("", "len(1)", &[OwnAlone, ClosedOwn]),
        ("define(`X',1)", "X", &[First]),
        (
            "define(`X',1)define(`Y',2)",
            "X",
            &[Second, PassedLastBytes],
        ),
        (
            "define(`X',1)define(`Y',2)define(`Z',3)",
            "X",
            &[Later, PassedLastBytes],
        ),
        ("define(`X',1)define(`Y',2)", "Z", &[NoneBehind]),
        ("define(`L',1)", "M", &[NonePredefinedBehind]),
        ("define(`L',1)", "len", &[OwnBehind]),
        ("define(`len',1)", "len", &[First]),
        ("pushdef(`len',1)", "len", &[First, OverOwn]),
        ("undefine(`len')", "len", &[OwnGoneAlone]),
        ("undefine(`len')define(`L',1)", "len", &[OwnGoneBehind]),
        (
            "pushdef(`X',1)pushdef(`X',2)",
            "X",
            &[First, NewestOfSeveral],
        ),
        (
            "pushdef(`X',1)pushdef(`Y',2)pushdef(`X',3)",
            "X",
            &[First, NewestOfSeveral, SeveralAmongOthers],
        ),
        (
            "define(`b',1)define(`X',1)popdef(`b')",
            "X",
            &[First, Moved],
        ),
        ("define(`b',1)", "b", &[First, OfOneByte]),
    ]);
}

#[test]
fn names_that_begin_alike() {
    let bucket = bucket_of(b"mast");
    let longer = &sharing(bucket, "mast", 0, 1)[0];
    let first = format!("define(`mast',1)define(`{longer}',2)");
    assert_eq!(more(&first, "mast"), [Second, PassedBeginning]);
    let long = "m".repeat(300);
    let first = format!("define(`{long}',1)");
    assert_eq!(more(&first, &long), [First, OfLongName]);
}

#[test]
fn many() {
    let names = sharing(0, "s", 0, 22);
    let all: String = names
        .iter()
        .map(|name| format!("define(`{name}',1)"))
        .collect();
    assert_eq!(more(&all, &names[1]), [Later, BehindMany]);
    let most: String = names[1..]
        .iter()
        .map(|name| format!("define(`{name}',1)"))
        .collect();
    assert_eq!(more(&most, &names[0]), [NoneBehind, NoneBehindMany]);
    let hundreds: String = (0..500).map(|k| format!("define(`n{k}',1)")).collect();
    assert!(more(&hundreds, "n499").contains(&InLarge));
    assert!(!more(&hundreds[16..], "n499").contains(&InLarge));
    let mut room = Setting::ample();
    room.lengths[2] = 1_000;
    assert!(ways(&hundreds, &room).contains(&NoRoom));
    let few = Setting {
        budget: 1_000,
        ..Setting::ample()
    };
    assert!(ways(&hundreds, &few).contains(&Spent));
}

#[test]
fn where_a_name_stands() {
    let first = "define(`p',`$1')define(`X',1)";
    let same = format!("{first}p(2)");
    let half = |name: &str, rest: &str| {
        let name = filled(name);
        let (front, back) = name.split_at(1);
        format!("p(`{front}'){back}{rest}")
    };
    assert_eq!(more(&same, "p(`X')"), [PendingFound]);
    assert_eq!(more(&same, &half("X", "")), [AcrossFound]);
    assert_eq!(more(&same, &half("X", "(1)")), [AcrossFound, AcrossClosed]);
    assert_eq!(more(&same, &half("divnum", "")), [AcrossOwn]);
    assert_eq!(
        more(&same, &half("ifdef", "(1)")),
        [AcrossOwn, AcrossClosed]
    );
    let none = format!("{same}nowhere;");
    assert_eq!(more(&none, &half("nowhere", "")), [AcrossNone]);
}

#[test]
fn calls_and_questions() {
    let two = "define(`X',1)define(`Y',2)";
    told_apart(&[
        (two, "X(7)", &[Second, PassedLastBytes, ClosedBehind]),
        (two, "Y(7)", &[First]),
        (
            "define(`b')define(`X',1)",
            "X(popdef(`b'))",
            &[First, ClosedMoved, PoppedMiddleEmpties, PoppedOldest],
        ),
        (
            two,
            "X(undefine(`X'))",
            &[
                Second,
                PassedLastBytes,
                ClosedGone,
                UndefinedOne,
                UndefinedMoves,
            ],
        ),
        (two, "ifdef(`X',1)", &[Ifdef]),
        (two, "ifdef(`Y',1)", &[]),
        (two, "ifdef(`Z',1)", &[IfdefNone]),
        (two, "defn(`Y',`X')", &[Defn]),
        (two, "defn(`Y',`Z')", &[DefnNone]),
    ]);
}

#[test]
fn definitions_come() {
    told_apart(&[
        ("len(1)", "define(`X',1)", &[AddedFirst]),
        ("pushdef(`X',1)", "pushdef(`X',2)", &[AddedToOthers]),
        ("define(`X',1)", "pushdef(`Y',2)", &[AddedToOthers]),
        ("define(`X',1)", "define(`L',2)", &[AddedToOwnBucket]),
        ("define(`X',1)", "define(`len',2)", &[AddedForOwn]),
        ("define(`X',1)", "define(`X',2)", &[ReplacedFirst]),
        (
            "define(`X',1)define(`Y',2)",
            "define(`X',2)",
            &[ReplacedBehind],
        ),
        (
            "define(`X',1)define(`Y',1)",
            "copydef(`X',`Z')",
            &[CopiedWithin],
        ),
        ("define(`X',1)", "copydef(`X',`b')", &[CopiedAcross]),
        ("define(`X',1)", "copydef(`X',`X')", &[ReplacedFirst]),
    ]);
}

#[test]
fn definitions_go() {
    told_apart(&[
        ("define(`X',1)", "popdef(`X')", &[PoppedOnly]),
        (
            "define(`b',1)define(`X',1)",
            "popdef(`X')",
            &[PoppedLastEmpties],
        ),
        (
            "define(`X',1)define(`Y',1)",
            "popdef(`Y')",
            &[PoppedLastOthersBelow],
        ),
        (
            "define(`X',1)define(`Y',1)",
            "popdef(`X')",
            &[PoppedMiddleBehind, PoppedOldest],
        ),
        (
            "define(`X',1)define(`b',1)",
            "popdef(`X')",
            &[PoppedMiddleEmpties, PoppedOldest],
        ),
        (
            "define(`X',1)define(`Y',1)define(`b',1)",
            "popdef(`Y')",
            &[PoppedMiddleFirst],
        ),
        (
            "pushdef(`X',1)pushdef(`X',1)",
            "popdef(`X')",
            &[PoppedLastOthersBelow, PoppedToOlder],
        ),
        ("define(`L',1)", "popdef(`len')", &[PoppedOwn]),
        ("define(`X',1)", "popdef(`Y')", &[PoppedNothing]),
        ("define(`X',1)", "popdef(`b')", &[]),
        (
            "define(`X',1)define(`Y',1)",
            "undefine(`Y')",
            &[UndefinedOne, UndefinedLast],
        ),
        (
            "define(`X',1)define(`Y',1)",
            "undefine(`X')",
            &[UndefinedOne, UndefinedMoves],
        ),
        (
            "pushdef(`X',1)pushdef(`X',1)pushdef(`Y',1)",
            "undefine(`X')",
            &[UndefinedSeveral, UndefinedMoves],
        ),
        (
            "pushdef(`X',1)pushdef(`X',1)pushdef(`b',1)",
            "undefine(`X')",
            &[UndefinedSeveralAlone],
        ),
        ("define(`L',1)", "undefine(`len')", &[UndefinedOwn]),
        ("define(`X',1)", "undefine(`Y')", &[UndefinedNothing]),
    ]);
}
