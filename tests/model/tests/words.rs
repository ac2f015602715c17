//! Request 2 of document 02, "The word that vanished": twenty predefined names "shall stand as plain
//! text unless `(` directly follows. The other seven keep their bare call." The twentieth, copydef,
//! joined the list with request 7. Every answer below is worked out by hand from the papers, a step for
//! each token; room is ample unless said.

mod common;

use common::{answers, expand, report, with_room};
use model::ways::NEED_PARENTHESIS;
use model::{Report, Setting};

#[test]
fn each_word_alone_is_itself() {
    for which in NEED_PARENTHESIS {
        let word = which.name();
        let got = expand(word.as_bytes(), &Setting::ample());
        assert_eq!(got, report([0, 0, 2, word.len() as u32], word));
    }
}

#[test]
fn outside_calls() {
    answers(&[
        // the 1, blank 2, len 3, .. boom 9, end 10
        ("the len of the boom", [0, 0, 10, 19], "the len of the boom"),
        ("len,len)", [0, 0, 5, 8], "len,len)"),
        ("len`a'", [0, 0, 3, 6], "lena"),
        ("`len'(a)", [0, 0, 5, 8], "len(a)"),
        // a digit is a token by itself, so a word may follow it; the other three are other names
        ("len1 lens _len 1len", [0, 0, 9, 19], "len1 lens _len 1len"),
        // into a discarding stream: divert( - 1 ) len end
        ("divert(-1)len", [0, 0, 6, 13], ""),
        // into stream 1: divert( 1 ) len end
        ("divert(1)len", [0, 0, 5, 12], "len"),
    ]);
}

#[test]
fn the_seven_are_called_bare() {
    answers(&[
        ("changecom#", [0, 0, 3, 10], "#"),
        // changequote( [ , ] ) changequote `a' end
        ("changequote([,])changequote`a'", [0, 0, 8, 30], "a"),
        // divert( 1 ) a `' divert blank b end
        ("divert(1)a`'divert b", [0, 0, 9, 20], " ba"),
        // divnum 0 blank ( a ) end
        ("divnum (a)", [0, 0, 7, 10], "0 (a)"),
        ("dnl a\nb", [0, 0, 3, 7], "b"),
        ("m4exit a", [1, 0, 1, 6], ""),
        // divert( 1 ) a `' divert( 0 ) undivert blank b end
        ("divert(1)a`'divert(0)undivert b", [0, 0, 12, 31], "a b"),
    ]);
}

#[test]
fn what_was_refused_is_text() {
    answers(&[
        ("define a", [0, 0, 4, 8], "define a"),
        ("pushdef a", [0, 0, 4, 9], "pushdef a"),
        ("incr,decr", [0, 0, 4, 9], "incr,decr"),
        ("eval 1", [0, 0, 4, 6], "eval 1"),
        ("substr\n", [0, 0, 3, 7], "substr\n"),
    ]);
}

/// "an opened call has its first argument at once": an empty one is refused as before.
#[test]
fn an_empty_argument_is_refused_still() {
    answers(&[
        ("define()", [6, 0, 1, 7], ""),
        ("pushdef()", [6, 0, 1, 8], ""),
        ("incr()", [7, 0, 1, 5], ""),
        ("decr()", [7, 0, 1, 5], ""),
        ("substr()", [7, 0, 1, 7], ""),
        ("eval()", [8, 0, 1, 5], ""),
    ]);
}

#[test]
fn something_between_name_and_parenthesis() {
    answers(&[
        // len, blank, ( a ) end
        ("len (a)", [0, 0, 6, 7], "len (a)"),
        ("len\t(a)", [0, 0, 6, 7], "len\t(a)"),
        ("len\n(a)", [0, 0, 6, 7], "len\n(a)"),
        ("len`'(a)", [0, 0, 6, 8], "len(a)"),
        ("len#x\n(a)", [0, 0, 6, 9], "len#x\n(a)"),
        // collected: len( len blank ( a ) ) counts seven bytes: 7 end
        ("len(len (a))", [0, 0, 9, 12], "7"),
        ("len(len`'(a))", [0, 0, 9, 13], "6"),
        // define( `f' , `$1' ) f( len `' ( a ) ) and then, scanned again, len( a ) 1 end
        ("define(`f',`$1')f(len`'(a))", [0, 0, 17, 27], "1"),
    ]);
}

#[test]
fn inside_arguments() {
    answers(&[
        // len( incr ) 4 end
        ("len(incr)", [0, 0, 5, 9], "4"),
        // the blank before goes, the blank behind stays: len( blank incr blank ) 5 end
        ("len( incr )", [0, 0, 7, 11], "5"),
        // len( blank ( incr blank ) blank ) 8 end
        ("len( (incr ) )", [0, 0, 10, 14], "8"),
        // define( `f' , `<$1>' ) f( blank len blank ) < len blank > end
        ("define(`f',`<$1>')f( len )", [0, 0, 15, 26], "<len >"),
        // define( len , `x' ) len x end
        ("define(len,`x')len", [0, 0, 8, 18], "x"),
        ("ifdef(len,y,n)", [0, 0, 9, 14], "y"),
        ("ifelse(len,len,same)", [0, 0, 9, 20], "same"),
        ("index(the len,len)", [0, 0, 9, 18], "4"),
        ("substr(define,2,3)", [0, 0, 9, 18], "fin"),
        ("translit(len,eln,abc)", [0, 0, 9, 21], "bac"),
        // shift( a , len ) `len' end
        ("shift(a,len)", [0, 0, 7, 12], "len"),
        // popdef( len ) len ( a ) end: the second word has no definition left
        ("popdef(len)len(a)", [0, 0, 8, 17], "len(a)"),
        // refused for what the word says
        ("defn(len)", [11, 0, 2, 8], ""),
        ("incr(len)", [7, 0, 2, 8], ""),
        ("eval(len)", [8, 0, 2, 8], ""),
    ]);
}

#[test]
fn error_text() {
    let got = expand(b"errprint(len,len a)", &Setting::ample());
    // errprint( len , len blank a ) end
    let errors = b"len len a".to_vec();
    assert_eq!(
        got,
        Report {
            errors,
            ..report([0, 0, 8, 19], "")
        }
    );
}

#[test]
fn across_the_border_of_pending_text() {
    answers(&[
        // define( `p' , `len' ) p( ) len( a ) 1 end
        ("define(`p',`len')p()(a)", [0, 0, 12, 23], "1"),
        ("define(`p',`len(')p()a)", [0, 0, 12, 23], "1"),
        ("define(`p',`le')p()n(a)", [0, 0, 12, 23], "1"),
        // define( `p' , `len' ) p( ) len blank ( a ) end
        ("define(`p',`len')p() (a)", [0, 0, 13, 24], "len (a)"),
        ("define(`p',`len ')p()(a)", [0, 0, 13, 24], "len (a)"),
        // define( `p' , `le' ) p( ) len blank a end
        ("define(`p',`le')p()n a", [0, 0, 11, 22], "len a"),
        // substr( xlen , 1 ) len( ab ) 2 end
        ("substr(xlen,1)(ab)", [0, 0, 10, 18], "2"),
        // len( define( `p' , `incr' ) p( ) incr( 1 ) 2 ) 1 end
        ("len(define(`p',`incr')p()(1))", [0, 0, 15, 29], "1"),
    ]);
}

/// "that byte belongs to the same step": it is taken with the pending name.
#[test]
fn budgets_at_the_border() {
    for (budget, place) in [(7, 20), (8, 21)] {
        let setting = Setting {
            budget,
            ..Setting::ample()
        };
        let got = expand(b"define(`p',`len')p()(a)", &setting);
        assert_eq!(got, report([3, 0, budget, place], ""));
    }
}

#[test]
fn the_meaning_in_force_counts() {
    answers(&[
        // pushdef( `len' , `x' ) len x blank popdef( `len' ) len blank len( ab ) 2 end
        (
            "pushdef(`len',`x')len popdef(`len')len len(ab)",
            [0, 0, 18, 46],
            "x len 2",
        ),
        // define( `len' , `x' ) len x blank len( a ) x end
        ("define(`len',`x')len len(a)", [0, 0, 13, 27], "x x"),
        ("popdef(`len')len(a)", [0, 0, 8, 19], "len(a)"),
        ("undefine(`len')len", [0, 0, 5, 18], "len"),
        // one of the seven: .. dnl drops its line when uncovered, then b end
        (
            "pushdef(`dnl',`x')dnl popdef(`dnl')dnl a\nb",
            [0, 0, 14, 42],
            "x b",
        ),
        // collected: len( pushdef( `len' , `x' ) len x blank popdef( `len' ) len ) 5 end
        (
            "len(pushdef(`len',`x')len popdef(`len')len)",
            [0, 0, 16, 43],
            "5",
        ),
    ]);
}

/// "The text ahead is the pending text followed by the rest of the input": waiting wrap text is not
/// ahead.
#[test]
fn waiting_wrap_text() {
    answers(&[
        // m4wrap( `(a)' ) len end ( a ) end
        ("m4wrap(`(a)')len", [0, 0, 9, 16], "len(a)"),
        // m4wrap( `len' ) m4wrap( `(a)' ) end len( a ) 1 end: joined, then ahead
        ("m4wrap(`len')m4wrap(`(a)')", [0, 0, 12, 26], "1"),
        // m4wrap( `..' ) end m4wrap( `(a)' ) len end ( a ) end
        ("m4wrap(`m4wrap(`(a)')len')", [0, 0, 13, 26], "len(a)"),
    ]);
}

#[test]
fn an_open_call_at_the_end() {
    answers(&[
        ("len(incr", [5, 3, 2, 8], ""),
        ("len(a,eval", [5, 3, 4, 10], ""),
        ("define(define", [5, 3, 2, 13], ""),
    ]);
}

/// "a 65th open call" is refused, a plain word is none.
#[test]
fn in_the_deepest_call() {
    let open = "len(".repeat(64);
    // 64 names, the word, and for each call `)` and the digit it gives; end
    let text = format!("{open}len{}", ")".repeat(64));
    let got = expand(text.as_bytes(), &Setting::ample());
    assert_eq!(got, report([0, 0, 64 + 1 + 2 * 64 + 1, 256 + 3 + 64], "1"));
    let text = format!("{open}len(");
    let got = expand(text.as_bytes(), &Setting::ample());
    assert_eq!(got, report([13, 0, 64, 256], ""));
}

#[test]
fn room_of_the_output() {
    assert_eq!(with_room("a len", 7, 4), report([4, 7, 2, 2], ""));
    assert_eq!(with_room("a len", 7, 5), report([0, 0, 4, 5], "a len"));
    // nothing is pushed back
    assert_eq!(with_room("a len", 1, 0), report([0, 0, 4, 5], "a len"));
}

#[test]
fn room_of_the_open_calls() {
    assert_eq!(with_room("len(incr)", 2, 6), report([4, 2, 1, 4], ""));
    assert_eq!(with_room("len(incr)", 2, 7), report([0, 0, 5, 9], "4"));
    // the blank behind the word is collected too
    assert_eq!(with_room("len( incr )", 2, 7), report([4, 2, 3, 9], ""));
    // "5 to 13 come before 4" within a step only: the word is judged before the end
    assert_eq!(with_room("len(incr", 2, 6), report([4, 2, 1, 4], ""));
    assert_eq!(with_room("len(incr", 2, 7), report([5, 3, 2, 8], ""));
}

#[test]
fn room_of_the_streams() {
    assert_eq!(with_room("divert(1)len", 4, 2), report([4, 4, 3, 9], ""));
    assert_eq!(
        with_room("divert(1)len", 4, 3),
        report([0, 0, 5, 12], "len")
    );
}

/// Request 1 predefines the two that the list names beside those of 01.
#[test]
fn include_and_sinclude() {
    answers(&[
        ("include sinclude", [0, 0, 4, 16], "include sinclude"),
        // include blank ( a ) end
        ("include (a)", [0, 0, 6, 11], "include (a)"),
        // sinclude( a ) end
        ("sinclude(a)", [0, 0, 4, 11], ""),
        // len( sinclude blank ) 9 end
        ("len(sinclude )", [0, 0, 6, 14], "9"),
        // define( `p' , `incl' ) p( ) include blank end
        ("define(`p',`incl')p()ude ", [0, 0, 10, 25], "include "),
        // pushdef( `include' , `x' ) include x blank popdef( `include' ) include end
        (
            "pushdef(`include',`x')include popdef(`include')include",
            [0, 0, 13, 54],
            "x include",
        ),
    ]);
}

/// Request 7: "copydef joins its list".
#[test]
fn copydef_too() {
    answers(&[
        ("copydef", [0, 0, 2, 7], "copydef"),
        // copydef blank ( a , b ) end
        ("copydef (a,b)", [0, 0, 8, 13], "copydef (a,b)"),
        // len( copydef blank ) 8 end
        ("len(copydef )", [0, 0, 6, 13], "8"),
        // the name that is none is judged first: copydef(
        ("copydef()", [6, 0, 1, 8], ""),
        // define( `p' , `copydef' ) p( ) copydef( len , l ) l( a ) 1 end
        ("define(`p',`copydef')p()(len,l)l(a)", [0, 0, 17, 35], "1"),
    ]);
}
