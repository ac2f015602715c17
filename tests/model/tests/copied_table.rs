//! What copies leave among the definitions and in buffer 3: request 7 of document 02, and the order that
//! its request 10 asks for. Every answer below is worked out by hand from the papers, a step for each
//! token; room is ample unless said.

mod common;

use common::{answers, report, with_room};
use model::definitions::Meaning;
use model::house::Set;
use model::predefined::Predefined;
use model::state::State;
use model::step::{step, Progress};
use model::{expand_traced, Setting, NO_ITEMS};

/// The state that a text leaves which is done.
fn done(text: &str) -> State<'_> {
    let mut state = State::at_start(text.as_bytes(), Set::default());
    let mut progress = Progress::Going;
    while progress == Progress::Going {
        progress = step(&mut state).expect(text);
    }
    assert_eq!(progress, Progress::Done, "{text}");
    state
}

/// Texts and the definitions that they leave, oldest first.
fn orders(cases: &[(&str, &[(&str, &str)])]) {
    let shown = |bytes: &[u8]| String::from_utf8(bytes.to_vec()).unwrap();
    for &(text, expected) in cases {
        let state = done(text);
        let in_order = state.definitions.in_order().into_iter();
        let got: Vec<(String, String)> = in_order
            .map(|(name, meaning)| match meaning {
                Meaning::Text(text) => (shown(name), shown(text)),
                Meaning::Predefined(which) => (shown(name), format!("<{}>", which.name())),
            })
            .collect();
        let got: Vec<(&str, &str)> = got.iter().map(|(n, m)| (&n[..], &m[..])).collect();
        assert_eq!(got, expected, "{text}");
    }
}

#[test]
fn as_define_would_set_it() {
    answers(&[
        // the newest is replaced, the older one stays: pushdef( .. ) pushdef( .. ) copydef( .. )
        // popdef( `f' ) f x end
        (
            "pushdef(`f',`x')pushdef(`f',`y')copydef(`len',`f')popdef(`f')f",
            [0, 0, 21, 62],
            "x",
        ),
        // copydef( `len' , `l' ) popdef( `l' ) l ( a ) end
        ("copydef(`len',`l')popdef(`l')l(a)", [0, 0, 13, 33], "l(a)"),
        // an own meaning that is replaced is gone: copydef( .. ) popdef( `dnl' ) dnl blank a end
        (
            "copydef(`len',`dnl')popdef(`dnl')dnl a",
            [0, 0, 12, 38],
            "dnl a",
        ),
        // onto itself, too: copydef( .. ) popdef( `len' ) len ( a ) end
        (
            "copydef(`len',`len')popdef(`len')len(a)",
            [0, 0, 13, 39],
            "len(a)",
        ),
        // one that is covered stays: pushdef( .. ) copydef( .. ) len 0 blank popdef( `len' ) len( ab ) 2
        // end
        (
            "pushdef(`len',`x')copydef(`divnum',`len')len popdef(`len')len(ab)",
            [0, 0, 21, 65],
            "0 2",
        ),
        // define over a copy: copydef( `len' , `l' ) define( `l' , `x' ) l x end
        ("copydef(`len',`l')define(`l',`x')l", [0, 0, 13, 34], "x"),
        // pushdef over a copy: .. pushdef( `l' , `x' ) l x popdef( `l' ) l( ab ) 2 end
        (
            "copydef(`len',`l')pushdef(`l',`x')l`'popdef(`l')l(ab)",
            [0, 0, 21, 53],
            "x2",
        ),
        // ifdef says yes: copydef( `len' , `l' ) ifdef( `l' , y , n ) y end
        ("copydef(`len',`l')ifdef(`l',y,n)", [0, 0, 14, 32], "y"),
        // a name that is gone is no more than any: undefine( `len' ) copydef( `dnl' , `len' ) len end
        (
            "undefine(`len')copydef(`dnl',`len')len a",
            [0, 0, 10, 40],
            "",
        ),
    ]);
}

/// "A replaced definition keeps its place; one that replaces a predefined name's own meaning is new."
#[test]
fn places_in_the_order() {
    orders(&[
        (
            "define(`a',1)define(`b',2)copydef(`len',`a')copydef(`b',`dnl')",
            &[("a", "<len>"), ("b", "2"), ("dnl", "2")],
        ),
        // the source stands behind what is replaced, or before it
        (
            "define(`a',1)define(`b',22)define(`c',3)copydef(`b',`a')",
            &[("a", "22"), ("b", "22"), ("c", "3")],
        ),
        (
            "define(`a',1)define(`b',22)define(`c',3)copydef(`a',`b')",
            &[("a", "1"), ("b", "1"), ("c", "3")],
        ),
        // the newest of a name is replaced, and the newest of a name is copied
        (
            "define(`a',1)pushdef(`b',2)pushdef(`a',3)copydef(`b',`a')",
            &[("a", "1"), ("b", "2"), ("a", "2")],
        ),
        (
            "define(`a',1)pushdef(`b',2)pushdef(`a',3)copydef(`a',`b')",
            &[("a", "1"), ("b", "3"), ("a", "3")],
        ),
        (
            "define(`a',1)pushdef(`b',2)pushdef(`a',3)copydef(`len',`a')",
            &[("a", "1"), ("b", "2"), ("a", "<len>")],
        ),
        // taken away and copied again is new
        (
            "copydef(`len',`a')define(`b',2)popdef(`a')copydef(`dnl',`a')",
            &[("b", "2"), ("a", "<dnl>")],
        ),
        // define over a copy keeps the place, pushdef arrives
        (
            "copydef(`len',`a')copydef(`a',`b')define(`a',3)pushdef(`b',4)",
            &[("a", "3"), ("b", "<len>"), ("b", "4")],
        ),
    ]);
}

#[test]
fn onto_predefined_names() {
    orders(&[
        ("copydef(`len',`len')", &[("len", "<len>")]),
        (
            "define(`a',1)copydef(`len',`len')define(`a',2)",
            &[("a", "2"), ("len", "<len>")],
        ),
        // the second time it replaces a definition
        (
            "copydef(`len',`len')define(`b',2)copydef(`dnl',`len')",
            &[("len", "<dnl>"), ("b", "2")],
        ),
        // the own meaning is covered, not replaced
        (
            "pushdef(`len',1)define(`b',2)copydef(`dnl',`len')",
            &[("len", "<dnl>"), ("b", "2")],
        ),
        (
            "undefine(`len')define(`b',2)copydef(`dnl',`len')",
            &[("b", "2"), ("len", "<dnl>")],
        ),
    ]);
    let keeps_own = |text: &str| done(text).definitions.keeps_own(Predefined::Len);
    assert!(keeps_own(""));
    assert!(keeps_own("pushdef(`len',1)copydef(`dnl',`len')"));
    assert!(keeps_own("copydef(`len',`l')"));
    assert!(!keeps_own("copydef(`dnl',`len')"));
    assert!(!keeps_own("copydef(`len',`len')"));
    // an own meaning never comes back
    assert!(!keeps_own(
        "copydef(`len',`l')undefine(`len')copydef(`l',`len')"
    ));
}

/// Nothing changes.
#[test]
fn definitions_copied_onto_themselves() {
    orders(&[
        (
            "define(`f',1)define(`g',2)copydef(`f',`f')",
            &[("f", "1"), ("g", "2")],
        ),
        (
            "copydef(`len',`f')define(`g',2)copydef(`f',`f')",
            &[("f", "<len>"), ("g", "2")],
        ),
        (
            "pushdef(`f',1)pushdef(`g',2)pushdef(`f',3)copydef(`f',`f')",
            &[("f", "1"), ("g", "2"), ("f", "3")],
        ),
    ]);
    let held = |text: &str| done(text).definitions.held();
    assert_eq!(held("define(`f',xyz)copydef(`f',`f')"), 4);
    assert_eq!(held("copydef(`len',`f')copydef(`f',`f')"), 1);
    assert_eq!(held("copydef(`len',`len')copydef(`len',`len')"), 3);
}

/// "The copy of a predefined meaning costs its name only in buffer 3."
#[test]
fn room_of_the_definitions() {
    for (text, room, numbers, output) in [
        ("copydef(`len',`l')", 1, [0, 0, 6, 18], ""),
        ("copydef(`len',`l')", 0, [4, 3, 4, 17], ""),
        // a text costs the name and the text: 4 and 5
        ("define(`f',`xyz')copydef(`f',`gg')", 9, [0, 0, 11, 34], ""),
        ("define(`f',`xyz')copydef(`f',`gg')", 8, [4, 3, 9, 33], ""),
        // its own meaning is a definition now: 3
        ("copydef(`len',`len')len(ab)", 3, [0, 0, 10, 27], "2"),
        ("copydef(`len',`len')len(ab)", 2, [4, 3, 4, 19], ""),
        ("copydef(`len',`len')len(a)", 2, [4, 3, 4, 19], ""),
        // a text that a meaning replaces gives its room back
        (
            "define(`d',`x')copydef(`dnl',`d')d z\ny",
            2,
            [0, 0, 13, 38],
            "y",
        ),
        // each pushed one pays: copydef( .. ) pushdef( `l' , `x' ) copydef( `len' , `l' ) end
        (
            "copydef(`len',`l')pushdef(`l',`x')copydef(`len',`l')",
            3,
            [0, 0, 16, 52],
            "",
        ),
    ] {
        let got = with_room(text, 3, room);
        assert_eq!(got, report(numbers, output), "{text} in {room}");
    }
}

/// "Room is judged on the state after a step, not on the way."
#[test]
fn old_room_is_used_again() {
    // f and g cost 4 and 2 bytes, and then twice 2, or twice 4
    let shorter = "define(`f',`xyz')define(`g',`1')copydef(`g',`f')";
    assert_eq!(with_room(shorter, 3, 6), report([0, 0, 16, 48], ""));
    let longer = "define(`f',`xyz')define(`g',`1')copydef(`f',`g')";
    assert_eq!(with_room(longer, 3, 8), report([0, 0, 16, 48], ""));
    assert_eq!(with_room(longer, 3, 7), report([4, 3, 14, 47], ""));
    // of equal length: copydef( .. ) copydef( .. ) end
    let equal = "copydef(`len',`x')copydef(`dnl',`x')";
    assert_eq!(with_room(equal, 3, 1), report([0, 0, 11, 36], ""));
    let itself = "define(`f',`x')copydef(`f',`f')f";
    assert_eq!(with_room(itself, 3, 2), report([0, 0, 13, 32], "x"));
}

/// A copied text may fill the longest buffer, and no more.
#[test]
fn the_longest_copies() {
    for (length, number, detail) in [(32_767, 0, 0), (32_768, 4, 3)] {
        let text = format!("define(`f',`{}')copydef(`f',`g')", "x".repeat(length));
        let got = model::expand(text.as_bytes(), NO_ITEMS, &Setting::ample());
        assert_eq!((got.number, got.detail), (number, detail), "{length}");
    }
}

/// A call is one of the meaning, under whatever name.
#[test]
fn calls_are_counted_by_their_meaning() {
    let text = b"copydef(`len',`l')copydef(`divnum',`len')l(len)l len(a)";
    let (report, trace) = expand_traced(text, NO_ITEMS, &Setting::ample());
    assert_eq!(report.output, b"1l 0");
    let calls = |which: Predefined| trace.calls[which as usize];
    assert_eq!(calls(Predefined::Copydef), 2);
    assert_eq!(calls(Predefined::Len), 1);
    assert_eq!(calls(Predefined::Divnum), 2);
    assert_eq!(trace.calls.iter().sum::<u64>(), 5);
}
