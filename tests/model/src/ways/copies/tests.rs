//! The ways of copies, told apart: each text below with all ways that it takes.

use super::Copied::{self, *};
use super::{Copies, COPIED};
use crate::{expand, Report, Setting, NO_ITEMS};

/// What the run of a text did.
fn walked(text: &str, setting: &Setting) -> Copies {
    let mut copies = Copies::default();
    let report = expand(text.as_bytes(), NO_ITEMS, setting);
    let verdict = copies.walk(text.as_bytes(), NO_ITEMS, setting, &report);
    assert_eq!(verdict, Ok(()), "{text}");
    copies
}

/// The ways of a text, in the order of the list.
fn ways(text: &str, setting: &Setting) -> Vec<Copied> {
    let copies = walked(text, setting);
    let all = COPIED.into_iter().map(|(way, _)| way);
    all.filter(|&way| copies.taken[way as usize] > 0).collect()
}

fn with_ample_room(cases: &[(&str, &[Copied])]) {
    for &(text, expected) in cases {
        assert_eq!(ways(text, &Setting::ample()), expected, "{text}");
    }
}

/// Ample room but for one buffer, by its number in 01.
fn room(buffer: usize, length: usize) -> Setting {
    let mut setting = Setting::ample();
    setting.lengths[buffer - 1] = length;
    setting
}

/// The names stand in the list as they do in the enum, so that each is counted under its own.
#[test]
fn each_way_has_its_name() {
    for (place, (way, _)) in COPIED.into_iter().enumerate() {
        assert_eq!(way as usize, place);
    }
}

#[test]
fn what_is_copied_onto_what() {
    with_ample_room(&[
        ("len(a)", &[]),
        ("copydef(`len',`l')", &[OwnMeaning, OntoNone]),
        (
            "copydef(`len',`l')copydef(`l',`m')",
            &[OwnMeaning, OfCopy, OntoNone],
        ),
        ("define(`f',x)copydef(`f',`g')", &[OfText, OntoNone]),
        ("define(`f')copydef(`f',`g')", &[OfText, NoBytes, OntoNone]),
        (
            "pushdef(`len',x)copydef(`len',`g')",
            &[OfText, TextOverOwn, OntoNone],
        ),
        (
            "pushdef(`f',x)pushdef(`f',y)copydef(`f',`g')",
            &[OfText, NewestOfSeveral, OntoNone],
        ),
        (
            "undefine(`dnl')copydef(`len',`dnl')",
            &[OwnMeaning, OntoNone, OntoGone],
        ),
        ("copydef(`len',`dnl')", &[OwnMeaning, OntoOwn]),
        ("copydef(`len',`len')", &[OwnMeaning, OwnItself]),
        (
            "copydef(`len',`copydef')",
            &[OwnMeaning, OntoOwn, OntoCopydef],
        ),
        ("define(`f',x)copydef(`f',`f')", &[OfText, TextItself]),
        (
            "copydef(`len',`l')copydef(`l',`l')",
            &[OwnMeaning, OfCopy, OntoNone, CopyItself],
        ),
        (
            "pushdef(`len',x)copydef(`dnl',`len')",
            &[OwnMeaning, OntoText, OwnBelow, TextByMeaning],
        ),
        (
            "pushdef(`f',x)pushdef(`f')copydef(`dnl',`f')",
            &[OwnMeaning, OntoText, OntoSeveral, TextByMeaning],
        ),
        (
            "copydef(`len',`l')copydef(`dnl',`l')",
            &[OwnMeaning, OntoNone, OntoCopy, MeaningByMeaning],
        ),
    ]);
}

#[test]
fn what_stands_before_and_behind() {
    let over = |way| vec![OfText, OntoText, TextByText, way];
    for (f, g, before, behind) in [
        ("x", "y", BeforeSame, BehindSame),
        ("xy", "z", BeforeLonger, BehindShorter),
        ("x", "yz", BeforeShorter, BehindLonger),
    ] {
        let define = format!("define(`f',{f})define(`g',{g})");
        let found = ways(&format!("{define}copydef(`f',`g')"), &Setting::ample());
        assert_eq!(found, over(before));
        let found = ways(&format!("{define}copydef(`g',`f')"), &Setting::ample());
        let mut expected = over(behind);
        // g stands behind
        match behind {
            BehindShorter => expected.push(OthersMoveDown),
            BehindLonger => expected.push(OthersMoveUp),
            _ => {}
        }
        assert_eq!(found, expected);
    }
    with_ample_room(&[
        (
            "define(`f',x)copydef(`len',`l')copydef(`f',`l')",
            &[
                OwnMeaning,
                OfText,
                OntoNone,
                OntoCopy,
                MeaningByText,
                BeforeLonger,
            ],
        ),
        (
            "define(`f',x)define(`g')copydef(`len',`f')",
            &[OwnMeaning, OntoText, TextByMeaning, OthersMoveDown],
        ),
    ]);
}

#[test]
fn room_of_the_definitions() {
    let copy = "copydef(`len',`l')";
    let made = [OwnMeaning, OntoNone];
    assert_eq!(ways(copy, &room(3, 2)), made);
    assert_eq!(
        ways(copy, &room(3, 1)),
        [&made[..], &[FullByMeaning]].concat()
    );
    assert_eq!(ways(copy, &room(3, 0)), [ShortByMeaning]);
    assert_eq!(ways("copydef(`len',`ab')", &room(3, 0)), [NoRoom]);
    let text = "define(`f',xyz)copydef(`f',`g')";
    assert_eq!(ways(text, &room(3, 8)), [OfText, OntoNone, FullByText]);
    assert_eq!(ways(text, &room(3, 7)), [ShortByText]);
    let in_place = "define(`f',xy)define(`g')copydef(`f',`g')";
    let made = [OfText, OntoText, TextByText, BeforeLonger];
    assert_eq!(ways(in_place, &room(3, 7)), made);
    assert_eq!(
        ways(in_place, &room(3, 6)),
        [&made[..], &[FullByText, OldRoom]].concat()
    );
    assert_eq!(ways(in_place, &room(3, 5)), [ShortByText, NoRoomInPlace]);
    let long = format!(
        "define(`f',`{}')copydef(`f',`g')copydef(`f',`h')",
        "x".repeat(30_000)
    );
    let over = ways(&long, &Setting::ample());
    assert_eq!(over, [OfText, OntoNone, NoRoom, OverLimit]);
}

#[test]
fn refusals() {
    with_ample_room(&[
        ("copydef(`len')", &[NoNewName]),
        ("copydef(`len',`')", &[EmptyNewName]),
        ("copydef(`len',`1')", &[BadNewName]),
        ("copydef()", &[NoNewName, NameBeforeSource]),
        ("copydef(`x',`1')", &[BadNewName, NameBeforeSource]),
        ("copydef(`x',`y')", &[UnknownSource]),
        ("copydef(,`y')", &[EmptySource]),
        ("copydef(`a b',`y')", &[OddSource]),
        ("undefine(`len')copydef(`len',`y')", &[GoneSource]),
    ]);
    let no_room = room(3, 0);
    let bad = ways("copydef(`len',`1')", &no_room);
    assert_eq!(bad, [BadNewName, NameBeforeRoom]);
    let unknown = ways("copydef(`x',`y')", &no_room);
    assert_eq!(unknown, [UnknownSource, SourceBeforeRoom]);
    let spent = Setting {
        budget: 4,
        ..Setting::ample()
    };
    assert_eq!(ways("copydef(`len',`l')", &spent), [CopySpent]);
    assert_eq!(ways("copydef(`len',`1')", &spent), [NameSpent]);
    assert_eq!(ways("copydef(`x',`y')", &spent), [SourceSpent]);
    // a parenthesis that closes nothing
    assert_eq!(ways("copydef(((a)", &spent), []);
}

#[test]
fn where_copydef_stands() {
    with_ample_room(&[
        ("copydef(`len',`l',x)", &[OwnMeaning, OntoNone, Surplus]),
        ("len(copydef(`len',`l'))", &[OwnMeaning, OntoNone, InCall]),
        (
            "m4wrap(`copydef(`len',`l')')",
            &[OwnMeaning, OntoNone, FromWrap],
        ),
    ]);
}

#[test]
fn how_copies_are_used() {
    let copy = "copydef(`len',`l')";
    let made = [OwnMeaning, OntoNone];
    let behind = |text: &str| ways(&format!("{copy}{text}"), &Setting::ample());
    let also = |more: &[Copied]| [&made[..], more].concat();
    assert_eq!(behind("l l(a)"), made);
    assert_eq!(
        behind("l(define(`l',x)a)"),
        also(&[ClosedAnother, DefinedAnew])
    );
    assert_eq!(behind("l(undefine(`l')a)"), also(&[Gone, Undefined]));
    assert_eq!(behind("undefine(`len')l(a)"), also(&[SourceGone]));
    assert_eq!(behind("define(`len',x)l(a)"), also(&[SourceChanged]));
    assert_eq!(behind("defn(`l')"), also(&[DefnOfCopy]));
    assert_eq!(
        behind("define(`f')defn(`f',`x',`l')"),
        also(&[DefnOfCopy, DefnLater])
    );
    assert_eq!(behind("defn(`len',`l')"), made);
    assert_eq!(behind("ifdef(`l',y)"), also(&[Ifdef]));
    assert_eq!(behind("ifdef(`len',y)"), made);
    assert_eq!(behind("popdef(`l')"), also(&[Popped]));
    assert_eq!(behind("undefine(`l')"), also(&[Undefined]));
    assert_eq!(behind("define(`l',x)l"), also(&[DefinedAnew]));
    assert_eq!(behind("pushdef(`l',x)l"), also(&[Covered]));
    with_ample_room(&[
        (
            "define(`l',x)l(copydef(`len',`l')a)",
            &[OwnMeaning, OntoText, TextByMeaning, InCall, OpenedAnother],
        ),
        (
            "pushdef(`len',x)copydef(`dnl',`len')popdef(`len')",
            &[
                OwnMeaning,
                OntoText,
                OwnBelow,
                TextByMeaning,
                Popped,
                PoppedToOwn,
            ],
        ),
        (
            "pushdef(`f',x)pushdef(`f',y)copydef(`dnl',`f')popdef(`f')",
            &[
                OwnMeaning,
                OntoText,
                OntoSeveral,
                TextByMeaning,
                Popped,
                PoppedToOther,
            ],
        ),
        (
            "define(`f',``$0'$1')copydef(`f',`g')g",
            &[OfText, OntoNone, TextBare, TextName],
        ),
        (
            "define(`f',`<$1>')copydef(`f',`g')g(a)",
            &[OfText, OntoNone, TextArgument],
        ),
        (
            "define(`f',x)copydef(`f',`g')defn(`g')",
            &[OfText, OntoNone, DefnOfText],
        ),
        // that text is one of its own by then
        (
            "define(`f',x)copydef(`f',`g')define(`g',y)g",
            &[OfText, OntoNone],
        ),
    ]);
}

#[test]
fn room_of_the_open_calls() {
    // copydef( len , l ) needs 11 bytes, and shift( 12 bytes , l ) needs 18
    let text = "copydef(`len',`l')shift(`0123456789ab',l())";
    let made = [OwnMeaning, OntoNone];
    assert_eq!(ways(text, &room(2, 19)), made);
    assert_eq!(ways(text, &room(2, 18)), [&made[..], &[FullCalls]].concat());
    assert_eq!(
        ways(text, &room(2, 17)),
        [&made[..], &[NoRoomForCall]].concat()
    );
    // without a parenthesis it is collected
    let plain = "copydef(`len',`l')shift(`0123456789ab',l)";
    assert_eq!(ways(plain, &room(2, 17)), made);
}

/// The names of the counts that are for one meaning only.
#[test]
fn uses_of_each_meaning() {
    for (text, expected) in [
        ("copydef(`len',`l')", &["copied len"][..]),
        (
            "copydef(`len',`l')l l(a) len(a)",
            &["copied len", "via copy len", "plain copy len"],
        ),
        (
            "copydef(`divnum',`d')d d()divnum",
            &["copied divnum", "via copy divnum", "bare copy divnum"],
        ),
        // under the name of another, and by itself
        (
            "copydef(`copydef',`len')len(`divnum',`divnum')divnum",
            &[
                "copied divnum",
                "copied copydef",
                "via copy copydef",
                "bare copy divnum",
            ],
        ),
        ("define(`f',x)copydef(`f',`len')len(a)", &[]),
    ] {
        let counts = walked(text, &Setting::ample()).counts();
        let of_meanings = counts[COPIED.len()..].iter();
        let taken = of_meanings.filter(|(_, count)| *count > 0);
        let names: Vec<&str> = taken.map(|(name, _)| &name[..]).collect();
        assert_eq!(names, expected, "{text}");
    }
}

/// An answer that 02 does not ask for is found out.
#[test]
fn faults() {
    let ample = Setting::ample();
    let faulty = |text: &str, setting: &Setting, report: &Report| {
        let verdict = Copies::default().walk(text.as_bytes(), NO_ITEMS, setting, report);
        verdict.is_err()
    };
    let of = |text: &str, setting: &Setting| expand(text.as_bytes(), NO_ITEMS, setting);
    let unknown = of("copydef(`x',`y')", &ample);
    assert!(!faulty("copydef(`x',`y')", &ample, &unknown));
    assert!(faulty("copydef(`len',`y')", &ample, &unknown));
    assert!(faulty("copydef(`x',`1')", &ample, &unknown));
    assert!(faulty("define(`x',`1')", &ample, &unknown));
    let bad = of("copydef(`x',`1')", &ample);
    assert!(!faulty("copydef(`x',`1')", &ample, &bad));
    assert!(faulty("copydef(`x',`y')", &ample, &bad));
    // room that is there, and room that is not
    let full = of("copydef(`len',`l')", &room(3, 0));
    assert!(!faulty("copydef(`len',`l')", &room(3, 0), &full));
    assert!(faulty("copydef(`len',`l')", &room(3, 1), &full));
    let made = of("copydef(`len',`l')", &ample);
    assert!(faulty("copydef(`len',`l')", &room(3, 0), &made));
}
