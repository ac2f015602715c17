//! Request 1 of document 02, "Templates that include templates". Every answer below is worked out by
//! hand from the papers, a step for each token; room is ample unless said.

#[path = "common/report.rs"]
mod common;

use common::{report, Case};
use model::house::{write, Item};
use model::{expand, Report, Setting, NO_ITEMS};

/// A set of names with their texts.
fn set(items: &[(&str, &str)]) -> Vec<u8> {
    let items: Vec<Item> = items
        .iter()
        .map(|(name, text)| Item::new(name.as_bytes(), text.as_bytes()))
        .collect();
    write(&items)
}

/// Texts with one set, their numbers, detail, steps and place, and their output.
fn answers(items: &[(&str, &str)], cases: &[Case]) {
    for &(text, numbers, output) in cases {
        let got = expand(text.as_bytes(), &set(items), &Setting::ample());
        assert_eq!(got, report(numbers, output), "{text}");
    }
}

/// Expands with ample room but for pending text, and with so many steps.
fn with(items: &[(&str, &str)], text: &str, pending: usize, budget: u32) -> Report {
    let mut setting = Setting::ample();
    setting.lengths[0] = pending;
    setting.budget = budget;
    expand(text.as_bytes(), &set(items), &setting)
}

#[test]
fn contents_become_pending_text() {
    answers(
        &[("a", "xy"), ("b", "x y"), ("c", "len(abc)"), ("d", "")],
        &[
            // include( a ) xy end
            ("include(a)", [0, 0, 5, 10], "xy"),
            ("sinclude(a)", [0, 0, 5, 11], "xy"),
            // include( b ) x blank y end
            ("include(b)", [0, 0, 7, 10], "x y"),
            // include( c ) len( abc ) 3 end
            ("include(c)", [0, 0, 8, 10], "3"),
            // include( d ) end
            ("include(d)", [0, 0, 4, 10], ""),
            // quoted: include( `a' ) xy blank include( d ) z end
            ("include(`a') include(d)z", [0, 0, 10, 24], "xy z"),
            // surplus arguments: include( a , b ) xy end
            ("include(a,b)", [0, 0, 7, 12], "xy"),
        ],
    );
}

#[test]
fn unknown_names() {
    answers(
        &[("a", "xy"), ("bc", "z"), ("", "none"), ("d ", "blank")],
        &[
            ("include(b)", [15, 0, 2, 9], ""),
            ("include(bcd)", [15, 0, 2, 11], ""),
            ("include(A)", [15, 0, 2, 9], ""),
            // sinclude( b ) z end
            ("sinclude(b)z", [0, 0, 5, 12], "z"),
            // the blank before goes, the blank behind stays: include( blank a blank
            ("include( a )", [15, 0, 4, 11], ""),
            // include( blank a ) xy end
            ("include( a)", [0, 0, 6, 11], "xy"),
            // include( d blank ) blank end
            ("include(d )", [0, 0, 6, 11], "blank"),
            // of no name: include( ) none end; include( `' ) none end
            ("include()", [0, 0, 4, 9], "none"),
            ("include(`')", [0, 0, 5, 11], "none"),
            // place and steps before the refused step: a blank include( x
            ("a include(x)b", [15, 0, 4, 11], ""),
        ],
    );
    answers(
        &[],
        &[
            ("include()", [15, 0, 1, 8], ""),
            ("sinclude()", [0, 0, 3, 10], ""),
        ],
    );
}

#[test]
fn the_first_of_two_counts() {
    answers(
        &[("a", ""), ("b", "1"), ("a", "z"), ("b", "2")],
        &[
            ("include(a)", [0, 0, 4, 10], ""),
            ("include(b)", [0, 0, 5, 10], "1"),
        ],
    );
}

/// An item's name is any bytes; the first argument is compared whole.
#[test]
fn names_of_any_bytes() {
    answers(
        &[
            ("x y", "1"),
            ("a,b", "2"),
            ("(a)", "3"),
            ("dir/a.m4", "4"),
            ("\u{0}\u{81}", "5"),
            ("len", "6"),
        ],
        &[
            // include( x blank y ) 1 end
            ("include(x y)", [0, 0, 7, 12], "1"),
            ("include(`a,b')", [0, 0, 5, 14], "2"),
            // include( ( a ) ) 3 end
            ("include((a))", [0, 0, 7, 12], "3"),
            // include( dir / a . m4 ) 4 end
            ("include(dir/a.m4)", [0, 0, 9, 17], "4"),
            ("include(`\u{0}\u{81}')", [0, 0, 5, 14], "5"),
            // a plain word: include( len ) 6 end
            ("include(len)", [0, 0, 5, 12], "6"),
        ],
    );
}

/// "The result goes in front of the text ahead", and a token may run on there.
#[test]
fn contents_join_what_stands_behind() {
    answers(
        &[
            ("le", "le"),
            ("len", "len"),
            ("open", "len(a"),
            ("quote", "`a"),
            ("drop", "dnl x"),
            ("mark", "#a"),
        ],
        &[
            // include( le ) len( b ) 1 end
            ("include(le)n(b)", [0, 0, 8, 15], "1"),
            // include( len ) len( b ) 1 end
            ("include(len)(b)", [0, 0, 8, 15], "1"),
            // include( open ) len( ab ) 2 end
            ("include(open)b)", [0, 0, 8, 15], "2"),
            // include( quote ) `ab' end; and left open
            ("include(quote)b'", [0, 0, 5, 16], "ab"),
            ("include(quote)b", [5, 1, 3, 14], ""),
            // include( drop ) dnl and its line z end
            ("include(drop) y\nz", [0, 0, 6, 17], "z"),
            // include( mark ) #a-blank-b-newline c end
            ("include(mark) b\nc", [0, 0, 6, 17], "#a b\nc"),
            // the call is left open: include( open ) len( a
            ("include(open)", [5, 3, 5, 13], ""),
        ],
    );
}

#[test]
fn inside_arguments() {
    answers(
        &[("a", "x,yz"), ("b", ")"), ("c", "a"), ("d", " x")],
        &[
            // commas of the contents part arguments: len( include( a ) x , yz ) 1 end
            ("len(include(a))", [0, 0, 10, 15], "1"),
            // shift( include( a ) x , yz ) `yz' end
            ("shift(include(a))", [0, 0, 10, 17], "yz"),
            // len( include( b ) and its parenthesis closes; 0 and the last one: ) end
            ("len(include(b))", [0, 0, 8, 15], "0)"),
            // the name is included: include( include( c ) a ) x , yz end
            ("include(include(c))", [0, 0, 10, 19], "x,yz"),
            // blanks before an argument go: len( include( d ) blank x ) 1 end
            ("len(include(d))", [0, 0, 9, 15], "1"),
            // eval( 1 + include( b ) closes; refused
            ("eval(1+include(b))", [8, 0, 6, 17], ""),
        ],
    );
}

#[test]
fn contents_include_again() {
    answers(
        &[
            ("a", "[include(b)]"),
            ("b", "<include(c)>"),
            ("c", "x"),
            ("d", "include(e)"),
            ("f", "define(`g',`include(c)')g"),
        ],
        &[
            // include( a ) [ include( b ) < include( c ) x > ] end
            ("include(a)", [0, 0, 15, 10], "[<x>]"),
            // include( d ) include( e: the second is refused
            ("include(d)", [15, 0, 5, 10], ""),
            // include( f ) define( `g' , `..' ) g include( c ) x end
            ("include(f)", [0, 0, 14, 10], "x"),
        ],
    );
}

/// 13 counts open calls; one that closed is none. It runs until its budget or its room is used up.
#[test]
fn contents_that_include_themselves() {
    let items = [("a", "include(a)"), ("b", "include(b)x")];
    assert_eq!(
        with(&items, "include(a)", 65_536, 20),
        report([3, 0, 20, 10], "")
    );
    assert_eq!(
        with(&items, "include(a)", 10, 1_000),
        report([3, 0, 1_000, 10], "")
    );
    assert_eq!(
        with(&items, "include(a)", 9, 1_000),
        report([4, 1, 2, 9], "")
    );
    // each round takes 10 bytes and leaves one: 11, 12, 13 and then no room for 14
    assert_eq!(
        with(&items, "include(b)", 13, 1_000),
        report([4, 1, 11, 10], "")
    );
    // 99 bytes last for 89 rounds, of three steps each
    assert_eq!(
        with(&items, "include(b)", 99, 1_000),
        report([4, 1, 269, 10], "")
    );
    // a 65th call that stays open is refused
    let open = [("a", "len(include(a)")];
    assert_eq!(with(&open, "include(a)", 65_536, 10_000).number, 13);
}

/// "The contents become pending text and count there".
#[test]
fn room_of_the_pending_text() {
    let items = [("a", "xyz")];
    assert_eq!(with(&items, "include(a)", 2, 100), report([4, 1, 2, 9], ""));
    assert_eq!(
        with(&items, "include(a)", 3, 100),
        report([0, 0, 5, 10], "xyz")
    );
    assert_eq!(
        with(&items, "sinclude(a)", 2, 100),
        report([4, 1, 2, 10], "")
    );
    // what is pending behind counts with them: define( `p' , `include(a);' ) p include( a
    let text = "define(`p',`include(a);')p";
    assert_eq!(with(&items, text, 11, 100), report([0, 0, 12, 26], "xyz;"));
    let grown = [("a", "0123456789x")];
    assert_eq!(with(&grown, text, 11, 100), report([4, 1, 8, 26], ""));
    assert_eq!(with(&grown, text, 12, 100).number, 0);
}

/// An item may be longer than any buffer.
#[test]
fn contents_longer_than_any_buffer() {
    for (length, number, detail) in [(65_536, 0, 0), (65_537, 4, 1), (500_000, 4, 1)] {
        let text = "x".repeat(length);
        let got = expand(b"include(a)", &set(&[("a", &text)]), &Setting::ample());
        assert_eq!((got.number, got.detail), (number, detail), "{length}");
    }
}

/// "15 unknown include, within its step before 4"; "before each step 3".
#[test]
fn what_is_judged_first() {
    let items = [("a", "xyz")];
    assert_eq!(
        with(&items, "include(b)", 0, 100),
        report([15, 0, 2, 9], "")
    );
    assert_eq!(with(&items, "include(b)", 0, 3), report([15, 0, 2, 9], ""));
    assert_eq!(with(&items, "include(b)", 0, 2), report([3, 0, 2, 9], ""));
    assert_eq!(with(&items, "include(a)", 0, 2), report([3, 0, 2, 9], ""));
    // the end of an open call is judged before what it would ask for
    assert_eq!(with(&items, "include(b", 0, 100), report([5, 3, 2, 9], ""));
}

/// They are names like others.
#[test]
fn other_meanings() {
    answers(
        &[("a", "q")],
        &[
            // ifdef( `include' , 1 , 0 ) 1 end
            ("ifdef(`include',1,0)", [0, 0, 9, 20], "1"),
            ("defn(`include')", [11, 0, 2, 14], ""),
            ("defn(`sinclude')", [11, 0, 2, 15], ""),
            // define( `include' , `x$1' ) include( a ) xa end
            ("define(`include',`x$1')include(a)", [0, 0, 10, 33], "xa"),
            // undefine( `include' ) include ( a ) end
            ("undefine(`include')include(a)", [0, 0, 8, 29], "include(a)"),
            // gone: include( undefine( `include' )
            ("include(undefine(`include'))", [12, 0, 4, 27], ""),
            // another meaning at closing: include( define( `include' , `[$1]' ) a ) [ a ] end
            ("include(define(`include',`[$1]')a)", [0, 0, 12, 34], "[a]"),
        ],
    );
}

#[test]
fn from_wrap_text_and_into_streams() {
    answers(
        &[("a", "q"), ("w", "m4wrap(`z')"), ("s", "divert(1)")],
        &[
            // m4wrap( `include(a)' ) y end include( a ) q end
            ("m4wrap(`include(a)')y", [0, 0, 10, 21], "yq"),
            // include( w ) m4wrap( `z' ) y end z end
            ("include(w)y", [0, 0, 10, 11], "yz"),
            // include( s ) divert( 1 ) q end
            ("include(s)q", [0, 0, 8, 11], "q"),
            // divert( - 1 ) include( a ) q end
            ("divert(-1)include(a)", [0, 0, 9, 20], ""),
        ],
    );
}

/// `expand` lends the set of one byte 0.
#[test]
fn without_items() {
    let got = |text: &str| expand(text.as_bytes(), NO_ITEMS, &Setting::ample());
    assert_eq!(got("include(x)"), report([15, 0, 2, 9], ""));
    // sinclude( x ) end
    assert_eq!(got("sinclude(x)"), report([0, 0, 4, 11], ""));
    assert_eq!(got("include"), report([0, 0, 2, 7], "include"));
}
