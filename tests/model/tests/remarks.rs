//! Request 3 of document 02, "The last comment line": "Where the end-comment mark is a newline, the
//! end of the text ahead closes the comment too, and nothing is added. Any other end mark still
//! refuses with detail 2." Every answer below is worked out by hand from the papers, a step for each
//! token; room is ample unless said.

mod common;

use common::{answers, expand, report, with_room};
use model::{Report, Setting, LIMIT};

/// Expands with ample room and so many steps.
fn with_budget(text: &str, budget: u32) -> Report {
    let setting = Setting {
        budget,
        ..Setting::ample()
    };
    expand(text.as_bytes(), &setting)
}

#[test]
fn at_the_end_of_the_input() {
    answers(&[
        // the comment, then the end
        ("#", [0, 0, 2, 1], "#"),
        ("#a", [0, 0, 2, 2], "#a"),
        ("##", [0, 0, 2, 2], "##"),
        ("# the last line", [0, 0, 2, 15], "# the last line"),
        ("a #b", [0, 0, 4, 4], "a #b"),
        ("a\n#b", [0, 0, 4, 4], "a\n#b"),
        // the first ends with its newline, the second without one
        ("#a\n#b", [0, 0, 3, 5], "#a\n#b"),
        // a newline that is there closes, as before, and a second one is a token by itself
        ("#a\n", [0, 0, 2, 3], "#a\n"),
        ("#a\n\n", [0, 0, 3, 4], "#a\n\n"),
        // names, quotes and calls mean nothing in a comment
        ("#len(a)", [0, 0, 2, 7], "#len(a)"),
        ("#`a", [0, 0, 2, 3], "#`a"),
        ("#m4exit", [0, 0, 2, 7], "#m4exit"),
        ("#\tb \r", [0, 0, 2, 5], "#\tb \r"),
    ]);
}

#[test]
fn a_whole_text_that_is_one_comment() {
    let text = format!("#{}", "a".repeat(LIMIT - 1));
    let got = expand(text.as_bytes(), &Setting::ample());
    // a failure does not print the text
    assert!(got == report([0, 0, 2, 65_536], &text));
}

/// dnl takes the line before a comment is read.
#[test]
fn behind_dnl() {
    answers(&[
        ("dnl #a", [0, 0, 2, 6], ""),
        ("dnl\n#a", [0, 0, 3, 6], "#a"),
        // the comment is taken whole, and dnl in it with it
        ("#dnl", [0, 0, 2, 4], "#dnl"),
    ]);
}

/// The request speaks of comments. "Inside, .. comments and names mean nothing".
#[test]
fn open_quotes_are_refused_still() {
    answers(&[
        ("`#a", [5, 1, 0, 0], ""),
        ("``#a'", [5, 1, 0, 0], ""),
        ("#a\n`b", [5, 1, 1, 3], ""),
        ("len(`#a)", [5, 1, 1, 4], ""),
        // an end-quote mark that is a newline: changequote( `[' )
        ("changequote(`[')[a", [5, 1, 3, 16], ""),
        // changequote( `[' , `newline' )
        ("changequote(`[',`\n')[#a", [5, 1, 5, 20], ""),
        // closed quotes: `#a' end; `a' #b end
        ("`#a'", [0, 0, 2, 4], "#a"),
        ("`a'#b", [0, 0, 3, 5], "a#b"),
    ]);
}

/// "A quoted token, even empty, counts as collected; so does a comment." The end closes the comment
/// alone. The next step finds nothing ahead: "At end: an open call is refused".
#[test]
fn inside_an_open_call() {
    answers(&[
        ("len(#", [5, 3, 2, 5], ""),
        ("len(#a", [5, 3, 2, 6], ""),
        // a comma and a right parenthesis behind the mark belong to the comment
        ("len(#a,b)", [5, 3, 2, 9], ""),
        // len( a , #b)
        ("len(a,#b)", [5, 3, 4, 9], ""),
        // len( blank #a
        ("len( #a", [5, 3, 3, 7], ""),
        // len( ( #a
        ("len((#a", [5, 3, 3, 7], ""),
        // len( len( #a
        ("len(len(#a", [5, 3, 3, 10], ""),
        // define( `f' , #a
        ("define(`f',#a", [5, 3, 4, 13], ""),
        // the mark itself is not quoted: changecom( #)
        ("changecom(#)", [5, 3, 2, 12], ""),
        // waiting wrap text closes no call: m4wrap( `)' ) len( #a
        ("m4wrap(`)')len(#a", [5, 3, 5, 17], ""),
        // closed by its newline, and the call goes on: len( #newline ) 2 end
        ("len(#\n)", [0, 0, 5, 7], "2"),
    ]);
}

/// Parentheses that open no call.
#[test]
fn outside_calls_again() {
    answers(&[
        // boom ( #a) end
        ("boom(#a)", [0, 0, 4, 8], "boom(#a)"),
        // `len' ( #a) end
        ("`len'(#a)", [0, 0, 4, 9], "len(#a)"),
        // len blank ( #a) end: a plain word of request 2
        ("len (#a)", [0, 0, 5, 8], "len (#a)"),
        // len#a end
        ("len#a", [0, 0, 3, 5], "len#a"),
        // len( a ) 1 #b end
        ("len(a)#b", [0, 0, 6, 8], "1#b"),
    ]);
}

/// "The text ahead is the pending text followed by the rest of the input, as one string; a token may
/// cross the border."
#[test]
fn begun_in_pending_text() {
    answers(&[
        // the input is used up: define( `p' , `#a' ) p #a end
        ("define(`p',`#a')p", [0, 0, 8, 17], "#a"),
        // through the input: define( `p' , `#a' ) p( ) #ab end
        ("define(`p',`#a')p()b", [0, 0, 9, 20], "#ab"),
        ("define(`p',`#')p()", [0, 0, 9, 18], "#"),
        // define( `p' , `#' ) p #blank-b end
        ("define(`p',`#')p b", [0, 0, 8, 18], "# b"),
        // a newline of the input closes: .. p #blank-b-newline c end
        ("define(`p',`#')p b\nc", [0, 0, 9, 20], "# b\nc"),
        // what the input has behind is in it: .. p #`'p end
        ("define(`p',`#')p`'p", [0, 0, 8, 19], "#`'p"),
        // substr( `x#a' , 1 ) #ab end
        ("substr(`x#a',1)b", [0, 0, 7, 16], "#ab"),
        // text before the mark: define( `p' , `a#' ) p( ) a #b end
        ("define(`p',`a#')p()b", [0, 0, 10, 20], "a#b"),
        // the right parenthesis of the input is in it: define( `p' , `#a' ) len( p #a)
        ("define(`p',`#a')len(p)", [5, 3, 8, 22], ""),
        // the mark itself across the border: changecom( `##' ) define( `p' , `#' ) p( ) ##b end
        ("changecom(`##')define(`p',`#')p()#b", [0, 0, 12, 35], "##b"),
        // quoted results are no comments: shift( a , `#b' ) `#b' end
        ("shift(a,`#b')", [0, 0, 7, 13], "#b"),
    ]);
}

#[test]
fn marks_that_newline_ends() {
    answers(&[
        // "one argument sets the begin mark and newline ends": changecom( `[' ) [a end
        ("changecom(`[')[a", [0, 0, 5, 16], "[a"),
        ("changecom([)[", [0, 0, 5, 13], "["),
        // given: changecom( `[' , `newline' ) [a end
        ("changecom(`[',`\n')[a", [0, 0, 7, 20], "[a"),
        // five bytes: changecom( `<!-->' ) <!-->a end
        ("changecom(`<!-->')<!-->a", [0, 0, 5, 24], "<!-->a"),
        // the old mark is text now: changecom( `[' ) # a end
        ("changecom(`[')#a", [0, 0, 6, 16], "#a"),
        // half a mark is no mark: changecom( `[[' ) [ a end
        ("changecom(`[[')[a", [0, 0, 6, 17], "[a"),
        // set anew: changecom( `[' , `]' ) changecom( `#' ) #a end
        ("changecom(`[',`]')changecom(`#')#a", [0, 0, 10, 34], "#a"),
        // a comment is tried before a quote: changecom( `[' ) changequote( `[' , `]' ) [a] end
        (
            "changecom(`[')changequote(`[',`]')[a]",
            [0, 0, 10, 37],
            "[a]",
        ),
        // in a call: changecom( `[' ) len( [a)
        ("changecom(`[')len([a)", [5, 3, 5, 21], ""),
    ]);
}

/// "Any other end mark still refuses with detail 2."
#[test]
fn other_end_marks() {
    answers(&[
        // changecom( `[' , `]' ) and then the refused step
        ("changecom(`[',`]')[a", [5, 2, 5, 18], ""),
        ("changecom(`[',`]')[", [5, 2, 5, 18], ""),
        // a newline closes nothing then
        ("changecom(`[',`]')[a\n", [5, 2, 5, 18], ""),
        ("changecom(`#',`;')#a\n", [5, 2, 5, 18], ""),
        // the begin mark does not close itself, a second one does: .. |a| end
        ("changecom(`|',`|')|a", [5, 2, 5, 18], ""),
        ("changecom(`|',`|')|a|", [0, 0, 7, 21], "|a|"),
        // half of an end mark
        ("changecom(`[',`]]')[a]", [5, 2, 5, 19], ""),
        // in a call the comment is refused first, the call is not reached: .. len(
        ("changecom(`[',`]')len([a)", [5, 2, 6, 22], ""),
        // begun in pending text: changecom( `[' , `]' ) define( `p' , `[' ) p( )
        ("changecom(`[',`]')define(`p',`[')p()a", [5, 2, 12, 36], ""),
        // into a discarding stream: changecom( `[' , `]' ) divert( - 1 )
        ("changecom(`[',`]')divert(-1)[a", [5, 2, 9, 28], ""),
    ]);
}

/// 01: "an end mark may also be a single newline"; a mark that only has one is refused at the
/// closing parenthesis: changecom( `[' , `..'
#[test]
fn newline_beside_other_bytes_is_no_mark() {
    answers(&[
        ("changecom(`[',`;\n')[a", [10, 0, 4, 18], ""),
        ("changecom(`[',`\n;')[a", [10, 0, 4, 18], ""),
        ("changecom(`[',`\n\n')[a", [10, 0, 4, 18], ""),
        ("changecom(`[',)[a", [10, 0, 3, 14], ""),
    ]);
}

#[test]
fn comments_turned_off() {
    answers(&[
        // changecom # a end
        ("changecom#a", [0, 0, 4, 11], "#a"),
        // changecom len( # a ) 2 end
        ("changecom`'len(#a)", [0, 0, 8, 18], "2"),
        // on again: changecom `' changecom( `#' ) #a end
        ("changecom`'changecom(`#')#a", [0, 0, 7, 27], "#a"),
    ]);
}

/// Waiting wrap text is not ahead: it neither belongs to the comment nor keeps it open.
#[test]
fn before_waiting_wrap_text() {
    answers(&[
        // m4wrap( `x' ) #a end x end
        ("m4wrap(`x')#a", [0, 0, 7, 13], "#ax"),
        // its newline is a token by itself: m4wrap( `newline-x' ) #a end newline x end
        ("m4wrap(`\nx')#a", [0, 0, 8, 14], "#a\nx"),
        // m4wrap( `len(a)' ) #b end len( a ) 1 end
        ("m4wrap(`len(a)')#b", [0, 0, 10, 18], "#b1"),
        // none waits: m4wrap( ) #a end
        ("m4wrap()#a", [0, 0, 4, 10], "#a"),
        // m4wrap( `]' ) changecom( `[' , `]' ), and the comment is not closed by what waits
        ("m4wrap(`]')changecom(`[',`]')[a", [5, 2, 8, 29], ""),
    ]);
}

#[test]
fn in_wrap_text() {
    answers(&[
        // m4wrap( `#a' ) end #a end
        ("m4wrap(`#a')", [0, 0, 6, 12], "#a"),
        // m4wrap( `#a' ) b end #a end
        ("m4wrap(`#a')b", [0, 0, 7, 13], "b#a"),
        // "joined in call order": m4wrap( `#a' ) m4wrap( `b' ) end #ab end
        ("m4wrap(`#a')m4wrap(`b')", [0, 0, 9, 23], "#ab"),
        // more waits: m4wrap( `..' ) end m4wrap( `x' ) #a end x end
        ("m4wrap(`m4wrap(`x')#a')", [0, 0, 11, 23], "#ax"),
        // and ends in a comment too: m4wrap( `..' ) end m4wrap( `#b' ) #a end #b end
        ("m4wrap(`m4wrap(`#b')#a')", [0, 0, 11, 24], "#a#b"),
        // in the input and in wrap text: m4wrap( `#b' ) #a end #b end
        ("m4wrap(`#b')#a", [0, 0, 7, 14], "#a#b"),
        // a call is open there: m4wrap( `len(#a' ) end len( #a
        ("m4wrap(`len(#a')", [5, 3, 6, 16], ""),
        // the marks in force when it is read: m4wrap( `#a' ) changecom( `#' , `;' ) end
        ("m4wrap(`#a')changecom(`#',`;')", [5, 2, 9, 30], ""),
        // m4wrap( `changecom#a' ) end changecom # a end
        ("m4wrap(`changecom#a')", [0, 0, 8, 21], "#a"),
    ]);
}

#[test]
fn into_streams() {
    answers(&[
        // divert( 1 ) #a end
        ("divert(1)#a", [0, 0, 5, 11], "#a"),
        // discarded: divert( - 1 ) #a end; divert( 1 0 ) #a end
        ("divert(-1)#a", [0, 0, 6, 12], ""),
        ("divert(10)#a", [0, 0, 6, 12], ""),
        // m4wrap( `divert(0)b' ) divert( 1 ) #a end divert( 0 ) b end
        ("m4wrap(`divert(0)b')divert(1)#a", [0, 0, 13, 31], "b#a"),
        // moved unscanned by wrap text: m4wrap( `..' ) divert( 1 ) #a end divert( 0 ) undivert( 1 )
        // b end
        (
            "m4wrap(`divert(0)undivert(1)b')divert(1)#a",
            [0, 0, 16, 42],
            "#ab",
        ),
    ]);
}

#[test]
fn room_of_the_output() {
    // a takes one byte, the comment two more
    assert_eq!(with_room("a#b", 7, 2), report([4, 7, 1, 1], ""));
    assert_eq!(with_room("a#b", 7, 3), report([0, 0, 3, 3], "a#b"));
    assert_eq!(with_room("#", 7, 0), report([4, 7, 0, 0], ""));
    assert_eq!(with_room("#", 7, 1), report([0, 0, 2, 1], "#"));
    // nothing is pushed back, and a discarding stream holds nothing
    assert_eq!(with_room("a#b", 1, 0), report([0, 0, 3, 3], "a#b"));
    assert_eq!(with_room("divert(-1)#a", 7, 0), report([0, 0, 6, 12], ""));
    // "within a step 5 to 13 come before 4"
    let other = "changecom(`[',`]')[a";
    assert_eq!(with_room(other, 7, 0), report([5, 2, 5, 18], ""));
}

/// The name and the comment: three bytes and two.
#[test]
fn room_of_the_open_calls() {
    assert_eq!(with_room("len(#a", 2, 4), report([4, 2, 1, 4], ""));
    assert_eq!(with_room("len(#a", 2, 5), report([5, 3, 2, 6], ""));
}

#[test]
fn room_of_the_streams() {
    let text = "divert(1)#a";
    assert_eq!(with_room(text, 4, 1), report([4, 4, 3, 9], ""));
    assert_eq!(with_room(text, 4, 2), report([0, 0, 5, 11], "#a"));
    // the last step appends stream 1 to the output
    assert_eq!(with_room(text, 7, 1), report([4, 7, 4, 11], ""));
    assert_eq!(with_room(text, 7, 2), report([0, 0, 5, 11], "#a"));
}

/// Only what the macro gave is pending, not the input that the comment takes too.
#[test]
fn room_of_the_pending_text() {
    let text = "define(`p',`#a')p()bcd";
    assert_eq!(with_room(text, 1, 1), report([4, 1, 6, 18], ""));
    assert_eq!(with_room(text, 1, 2), report([0, 0, 9, 22], "#abcd"));
}

#[test]
fn budgets() {
    // before the comment, right after it, and enough for the end too
    assert_eq!(with_budget("#a", 0), report([3, 0, 0, 0], ""));
    assert_eq!(with_budget("#a", 1), report([3, 0, 1, 2], ""));
    assert_eq!(with_budget("#a", 2), report([0, 0, 2, 2], "#a"));
    // in a call
    assert_eq!(with_budget("len(#a", 1), report([3, 0, 1, 4], ""));
    assert_eq!(with_budget("len(#a", 2), report([3, 0, 2, 6], ""));
    assert_eq!(with_budget("len(#a", 3), report([5, 3, 2, 6], ""));
    // across the border the step of the comment takes the input
    let pending = "define(`p',`#a')p()b";
    assert_eq!(with_budget(pending, 7), report([3, 0, 7, 19], ""));
    assert_eq!(with_budget(pending, 8), report([3, 0, 8, 20], ""));
    assert_eq!(with_budget(pending, 9), report([0, 0, 9, 20], "#ab"));
    // wrap text becomes pending in a step of its own: m4wrap( `x' ) #a end x end
    assert_eq!(with_budget("m4wrap(`x')#a", 4), report([3, 0, 4, 13], ""));
    assert_eq!(with_budget("m4wrap(`x')#a", 6), report([3, 0, 6, 13], ""));
    assert_eq!(
        with_budget("m4wrap(`x')#a", 7),
        report([0, 0, 7, 13], "#ax")
    );
    // another end mark: "before each step 3", within it 5
    let other = "changecom(`[',`]')[a";
    assert_eq!(with_budget(other, 5), report([3, 0, 5, 18], ""));
    assert_eq!(with_budget(other, 6), report([5, 2, 5, 18], ""));
}

/// A run that ends in a comment is done, so its error text is given back.
#[test]
fn error_text() {
    // errprint( a ) #b end
    let got = expand(b"errprint(a)#b", &Setting::ample());
    let errors = b"a".to_vec();
    assert_eq!(
        got,
        Report {
            errors,
            ..report([0, 0, 5, 13], "#b")
        }
    );
}
