//! Request 7 of document 02, "Copying a built-in". Every answer below is worked out by hand from the
//! papers, a step for each token; room is ample unless said. What copies leave in buffer 3 is looked at
//! in copied_table.rs.

mod common;

use common::{answers, expand, report, with_room};
use model::predefined::Predefined;
use model::ways::NEED_PARENTHESIS;
use model::{Report, Setting};

#[test]
fn the_second_argument_gets_the_meaning_of_the_first() {
    answers(&[
        // copydef( `define' , `def' ) def( `a' , `b' ) a b end
        ("copydef(`define',`def')def(`a',`b')a", [0, 0, 13, 36], "b"),
        // define( `f' , `x' ) copydef( `f' , `g' ) g x end
        ("define(`f',`x')copydef(`f',`g')g", [0, 0, 13, 32], "x"),
        // a copied text is a text: .. defn( `g' ) `x' end
        (
            "define(`f',`x')copydef(`f',`g')defn(`g')",
            [0, 0, 15, 40],
            "x",
        ),
        // copydef( `copydef' , `c' ) c( `len' , `l' ) l( a ) 1 end
        (
            "copydef(`copydef',`c')c(`len',`l')l(a)",
            [0, 0, 15, 38],
            "1",
        ),
        // a copy of a copy: copydef( `len' , `l' ) copydef( `l' , `m' ) m( ab ) 2 end
        (
            "copydef(`len',`l')copydef(`l',`m')m(ab)",
            [0, 0, 15, 39],
            "2",
        ),
        // unquoted, as plain words: copydef( len , l ) l( ab ) 2 end
        ("copydef(len,l)l(ab)", [0, 0, 10, 19], "2"),
        // surplus: copydef( `len' , `a' , `b' ) b ( x ) a( x ) 1 end
        ("copydef(`len',`a',`b')b(x)a(x)", [0, 0, 16, 30], "b(x)1"),
        // it gives nothing: len( a blank copydef( `len' , `l' ) ) 2 end
        ("len(a copydef(`len',`l'))", [0, 0, 11, 25], "2"),
    ]);
}

/// The text behind a copy of each meaning under the name z, its steps with those of the end, and its
/// output.
const OF_EACH: [(Predefined, &str, u32, &str); 24] = [
    // z( [ , ] ) [len(a)] end
    (Predefined::Changecom, "z([,])[len(a)]", 7, "[len(a)]"),
    (Predefined::Changequote, "z([,])[a]", 7, "a"),
    (Predefined::Decr, "z(3)", 5, "2"),
    // z( `q' , `r' ) q r end
    (Predefined::Define, "z(`q',`r')q", 8, "r"),
    // define( `q' , `r' ) z( `q' ) `r' end
    (Predefined::Defn, "define(`q',`r')z(`q')", 10, "r"),
    // z( 1 ) a `' z `' b end
    (Predefined::Divert, "z(1)a`'z`'b", 9, "ba"),
    (Predefined::Divnum, "z", 3, "0"),
    (Predefined::Dnl, "z a\nb", 3, "b"),
    (Predefined::Eval, "z(1+2)", 7, "3"),
    // z( `z' , y , n ) y end
    (Predefined::Ifdef, "z(`z',y,n)", 9, "y"),
    (Predefined::Ifelse, "z(a,a,b)", 9, "b"),
    (Predefined::Incr, "z(3)", 5, "4"),
    (Predefined::Index, "z(abc,c)", 7, "2"),
    (Predefined::Len, "z(abc)", 5, "3"),
    // z( a ) b end a end
    (Predefined::M4wrap, "z(a)b", 7, "ba"),
    // it takes itself away: z( `z' ) z ( a ) end
    (Predefined::Popdef, "z(`z')z(a)", 8, "z(a)"),
    (Predefined::Pushdef, "z(`z',`x')z", 8, "x"),
    // z( a , b ) `b' end
    (Predefined::Shift, "z(a,b)", 7, "b"),
    (Predefined::Substr, "z(abc,1)", 7, "bc"),
    (Predefined::Translit, "z(abc,b,x)", 9, "axc"),
    (Predefined::Undefine, "z(`z')z", 5, "z"),
    // divert( 1 ) a `' divert `' z blank b end
    (Predefined::Undivert, "divert(1)a`'divert`'z b", 11, "a b"),
    // an unknown item gives nothing: z( a ) b end
    (Predefined::Sinclude, "z(a)b", 5, "b"),
    // z( `len' , `l' ) l( ab ) 2 end
    (Predefined::Copydef, "z(`len',`l')l(ab)", 10, "2"),
];

/// The text that gives z a meaning, and its length. It takes 5 steps.
fn copied(which: Predefined) -> (String, u32) {
    let text = format!("copydef(`{}',`z')", which.name());
    let length = text.len() as u32;
    (text, length)
}

#[test]
fn every_meaning_can_be_copied() {
    for (which, text, steps, output) in OF_EACH {
        let (copy, place) = copied(which);
        let got = expand(format!("{copy}{text}").as_bytes(), &Setting::ample());
        let numbers = [0, 0, 5 + steps, place + text.len() as u32];
        assert_eq!(got, report(numbers, output), "{which:?}");
    }
    let behind = |which, text: &str| {
        let (copy, place) = copied(which);
        let got = expand(format!("{copy}{text}").as_bytes(), &Setting::ample());
        (got, place)
    };
    // z( 3 )
    let (exit, place) = behind(Predefined::M4exit, "z(3)a");
    assert_eq!(exit, report([1, 3, 8, place + 4], ""));
    // z( a
    let (unknown, place) = behind(Predefined::Include, "z(a)");
    assert_eq!(unknown, report([15, 0, 7, place + 3], ""));
    // z( e ) end
    let (told, place) = behind(Predefined::Errprint, "z(e)");
    let errors = b"e".to_vec();
    assert_eq!(
        told,
        Report {
            errors,
            ..report([0, 0, 9, place + 4], "")
        }
    );
}

/// "Ask 2's rule follows the meaning, not the name".
#[test]
fn bare_by_the_meaning() {
    for which in NEED_PARENTHESIS {
        let (copy, place) = copied(which);
        let got = expand(format!("{copy}z (a)").as_bytes(), &Setting::ample());
        // z blank ( a ) end
        assert_eq!(got, report([0, 0, 11, place + 5], "z (a)"), "{which:?}");
    }
    answers(&[
        // copydef( `len' , `l' ) l blank l( ab ) 2 end
        ("copydef(`len',`l')l l(ab)", [0, 0, 12, 25], "l 2"),
        ("copydef(`divnum',`d')d", [0, 0, 8, 22], "0"),
        ("copydef(`divnum',`len')len", [0, 0, 8, 26], "0"),
        // copydef( `divnum' , `len' ) len 0 blank copydef( `decr' , `d' ) d end
        (
            "copydef(`divnum',`len')len copydef(`decr',`d')d",
            [0, 0, 15, 47],
            "0 d",
        ),
        ("copydef(`m4exit',`bye')a bye b", [1, 0, 8, 28], "a "),
        ("copydef(`dnl',`rem')a rem b\nc", [0, 0, 10, 29], "a c"),
        // copydef( `changecom' , `c' ) c # end
        ("copydef(`changecom',`c')c#", [0, 0, 8, 26], "#"),
        // a plain copy is collected: .. len( l blank a ) 3 end
        ("copydef(`len',`l')len(l a)", [0, 0, 12, 26], "3"),
        // across the border: define( `p' , `l' ) copydef( `len' , `l' ) p( ) l( ab ) 2 end
        (
            "define(`p',`l')copydef(`len',`l')p()(ab)",
            [0, 0, 17, 40],
            "2",
        ),
        // under the name of one of the seven: copydef( `len' , `dnl' ) dnl blank a end
        ("copydef(`len',`dnl')dnl a", [0, 0, 9, 25], "dnl a"),
        // copydef( `len' , `dnl' ) dnl( abc ) 3 end
        ("copydef(`len',`dnl')dnl(abc)", [0, 0, 10, 28], "3"),
    ]);
}

/// "the new name is judged first (6), then 16, the first argument has no definition".
#[test]
fn refusals() {
    answers(&[
        ("copydef()", [6, 0, 1, 8], ""),
        ("copydef(`x')", [6, 0, 2, 11], ""),
        ("copydef(`len')len", [6, 0, 2, 13], ""),
        ("copydef(`len',)", [6, 0, 3, 14], ""),
        ("copydef(`len',`')", [6, 0, 4, 16], ""),
        ("copydef(`len',`1a')", [6, 0, 4, 18], ""),
        ("copydef(`len',`a ')", [6, 0, 4, 18], ""),
        ("copydef(`x',`9')", [6, 0, 4, 15], ""),
        ("copydef(a)", [6, 0, 2, 9], ""),
        ("copydef(`x',`y')", [16, 0, 4, 15], ""),
        ("copydef(,`a')", [16, 0, 3, 12], ""),
        ("copydef(`',`a')", [16, 0, 4, 14], ""),
        ("copydef(1,`a')", [16, 0, 4, 13], ""),
        ("copydef(`len ',`a')", [16, 0, 4, 18], ""),
        // undefine( `len' ) copydef( `len' , `l'
        ("undefine(`len')copydef(`len',`l')", [16, 0, 7, 32], ""),
        // the end comes first: copydef( `x' , `9'
        ("copydef(`x',`9'", [5, 3, 4, 15], ""),
        // defn of a copy: copydef( `len' , `l' ) defn( `l'
        ("copydef(`len',`l')defn(`l')", [11, 0, 7, 26], ""),
        // copydef( `len' , `len' ) defn( `len'
        ("copydef(`len',`len')defn(`len')", [11, 0, 7, 30], ""),
    ]);
}

/// 6 and 16 "both before 4"; "before each step 3".
#[test]
fn what_is_judged_first() {
    let unknown = with_room("copydef(`nosuch',`y')", 3, 0);
    assert_eq!(unknown, report([16, 0, 4, 20], ""));
    let no_name = with_room("copydef(`len',`9')", 3, 0);
    assert_eq!(no_name, report([6, 0, 4, 17], ""));
    for text in ["copydef(`x',`y')", "copydef(`x',`9')", "copydef(`len',`l')"] {
        let setting = Setting {
            budget: 4,
            ..Setting::ample()
        };
        let got = expand(text.as_bytes(), &setting);
        let place = text.len() as u32 - 1;
        assert_eq!(got, report([3, 0, 4, place], ""), "{text}");
    }
}

#[test]
fn a_copy_does_not_follow() {
    answers(&[
        // define( `f' , `x' ) copydef( `f' , `g' ) define( `f' , `y' ) g x end
        (
            "define(`f',`x')copydef(`f',`g')define(`f',`y')g",
            [0, 0, 18, 47],
            "x",
        ),
        // renamed: copydef( `len' , `l' ) undefine( `len' ) l( ab ) 2 end
        (
            "copydef(`len',`l')undefine(`len')l(ab)",
            [0, 0, 13, 38],
            "2",
        ),
        // the meaning on top is copied: pushdef( .. ) copydef( .. ) popdef( `len' ) l( abc ) x end
        (
            "pushdef(`len',`x')copydef(`len',`l')popdef(`len')l(abc)",
            [0, 0, 18, 55],
            "x",
        ),
        (
            "pushdef(`len',`x')copydef(`len',`l')popdef(`len')l(ab)",
            [0, 0, 18, 54],
            "x",
        ),
    ]);
}

/// "The definition used is the one in force at closing."
#[test]
fn the_meaning_at_closing() {
    answers(&[
        // no name when read: l ( copydef( `len' , `l' ) ) end
        ("l(copydef(`len',`l'))", [0, 0, 9, 21], "l()"),
        // define( `l' ) l( copydef( `len' , `l' ) abc ) 3 end
        ("define(`l')l(copydef(`len',`l')abc)", [0, 0, 13, 35], "3"),
        // copydef( .. ) l( copydef( `divnum' , `l' ) abc ) 0 end
        (
            "copydef(`len',`l')l(copydef(`divnum',`l')abc)",
            [0, 0, 15, 45],
            "0",
        ),
        // copydef( copydef( `len' , `copydef' ) abc ) 3 end
        ("copydef(copydef(`len',`copydef')abc)", [0, 0, 10, 36], "3"),
        // gone: copydef( .. ) l( undefine( `l' )
        ("copydef(`len',`l')l(undefine(`l'))", [12, 0, 9, 33], ""),
        // a text by then: copydef( .. ) l( define( `l' , `[$1]' ) a ) [ a ] end
        (
            "copydef(`len',`l')l(define(`l',`[$1]')a)",
            [0, 0, 17, 40],
            "[a]",
        ),
    ]);
}

#[test]
fn the_name_that_was_called() {
    answers(&[
        // define( `f' , ``$0'' ) copydef( `f' , `g' ) g `g' end
        ("define(`f',``$0'')copydef(`f',`g')g", [0, 0, 13, 35], "g"),
        // define( .. ) copydef( `f' , `g' ) g( a ) < ag > end
        (
            "define(`f',`<$1$0>')copydef(`f',`g')g(a)",
            [0, 0, 17, 40],
            "<ag>",
        ),
    ]);
    // in buffer 2: 7, 3 and 10 bytes for copydef( len , .. ), then 10 and a byte for each digit
    let longer = "copydef(`len',`abcdefghij')abcdefghij(01234567890)";
    assert_eq!(with_room(longer, 2, 20), report([4, 2, 16, 48], ""));
    // eleven digits, a parenthesis, the two digits of 11, end
    assert_eq!(with_room(longer, 2, 21), report([0, 0, 21, 50], "11"));
    // 7, 8 and 1 bytes for copydef( undefine , u ), then 1 and 15
    let shorter = "copydef(`undefine',`u')u(abcdefghijklmno)";
    assert_eq!(with_room(shorter, 2, 16), report([0, 0, 9, 41], ""));
    assert_eq!(with_room(shorter, 2, 15), report([4, 2, 3, 19], ""));
}
