//! What is seen in texts, and what is not.

use super::*;

/// What is seen in a text: places and kinds.
fn seen(text: &str) -> Vec<(usize, Kind<'_>)> {
    let ends = [text.len()];
    let seen = scan(text.as_bytes(), Vec::leak(ends.to_vec()), &[]);
    seen.into_iter()
        .map(|seen| (seen.place, seen.kind))
        .collect()
}

/// A blank behind a name that is plain text so.
fn gap(name: &str) -> Gap<'_> {
    Gap {
        name,
        means: name,
        newline: false,
        called: false,
        counted: false,
    }
}

/// A blank behind a name that is called so.
fn called(name: &str) -> Kind<'_> {
    Kind::Gap(Gap {
        called: true,
        ..gap(name)
    })
}

#[test]
fn each_kind() {
    let (number, taker) = ("18.4", "eval");
    let (name, to) = ("h", "f");
    let mark = '\u{201c}';
    for (text, place, kind) in [
        ("a define (`n')", 2, Kind::Gap(gap("define"))),
        ("a include (`b')", 2, Kind::Gap(gap("include"))),
        ("a include (b/c.m4)", 2, Kind::Gap(gap("include"))),
        (
            "len\n(`a')",
            0,
            Kind::Gap(Gap {
                newline: true,
                ..gap("len")
            }),
        ),
        (
            "eval(len (a))",
            5,
            Kind::Gap(Gap {
                counted: true,
                ..gap("len")
            }),
        ),
        ("define(`f', `$1')f \t(1)", 17, called("f")),
        ("pushdef(`len', `$1')len (1)", 20, called("len")),
        ("popdef(`f')define(`f', `$1')f (1)", 28, called("f")),
        ("len (`a')pushdef(`len', `$1')", 0, Kind::Gap(gap("len"))),
        ("divert (1)", 0, called("divert")),
        ("we divert the cable", 3, Kind::Bare("divert")),
        ("we changecom here # “", 3, Kind::Bare("changecom")),
        (
            "eval(index / 2)",
            5,
            Kind::Plain {
                name: "index",
                taker,
            },
        ),
        ("eval((18.4) / 2)", 6, Kind::Point { number, taker }),
        (
            "define(`f', `eval(18.4)')",
            18,
            Kind::Point { number, taker },
        ),
        (
            "define(`h', `18.4')eval(h)",
            24,
            Kind::NamedPoint {
                name,
                number,
                taker,
            },
        ),
        (
            "define(`f', `eval($1)')f(18.4)",
            25,
            Kind::GivenPoint { number, to, taker },
        ),
        ("a\r\n", 1, Kind::Return),
        ("a\r", 1, Kind::Return),
        ("\u{feff}a", 0, Kind::OrderMark),
        (
            "a \u{201c}",
            2,
            Kind::LookAlike {
                mark,
                quoted: false,
            },
        ),
        ("format(`a')", 0, Kind::Foreign("format")),
        ("len(`a' # )\n)", 8, Kind::Closer { by: "#" }),
        ("len(`a'dnl (b))\n)", 7, Kind::Closer { by: "dnl" }),
    ] {
        assert_eq!(seen(text), [(place, kind)], "{text}");
    }
}

/// A copy is taken for what it is a copy of.
#[test]
fn each_kind_by_a_copy() {
    let (number, name) = ("18.4", "h");
    let rig = Gap {
        means: "define",
        ..gap("rig")
    };
    let away = Gap {
        means: "divert",
        called: true,
        ..gap("away")
    };
    for (text, place, kind) in [
        (
            "copydef (`len', `l')copydef(`len', `l')",
            0,
            Kind::Gap(gap("copydef")),
        ),
        ("copydef(`define', `rig')rig (`n', 5)", 24, Kind::Gap(rig)),
        ("copydef(`divert', `away')away (-1)", 25, Kind::Gap(away)),
        ("define(`f', `$1')copydef(`f', `g')g (1)", 34, called("g")),
        (
            "copydef(`len', `l')eval(l)",
            24,
            Kind::Plain {
                name: "l",
                taker: "eval",
            },
        ),
        (
            "copydef(`eval', `calc')calc(18.4)",
            28,
            Kind::Point {
                number,
                taker: "calc",
            },
        ),
        (
            "copydef(`define', `rig')rig(`h', `18.4')eval(h)",
            45,
            Kind::NamedPoint {
                name,
                number,
                taker: "eval",
            },
        ),
        (
            "copydef(`copydef', `also')also(`eval', `calc')calc(18.4)",
            51,
            Kind::Point {
                number,
                taker: "calc",
            },
        ),
        (
            "copydef(`dnl', `rem')len(`a' rem )\n)",
            29,
            Kind::Closer { by: "rem" },
        ),
        ("copydef(divnum, `d')", 8, Kind::Unquoted("divnum")),
        ("define(`a', `b')copydef(a, `c')", 24, Kind::Unquoted("a")),
        (
            "copydef(`dnl', `rem')define(`rem', `$1')rem (1)",
            40,
            called("rem"),
        ),
        (
            "copydef(`len', `l')undefine(`l')len (`a')",
            32,
            Kind::Gap(gap("len")),
        ),
    ] {
        assert_eq!(seen(text), [(place, kind)], "{text}");
    }
}

#[test]
fn remarks_at_borders() {
    let seen = |text: &'static str, ends: &'static [usize]| {
        let seen = scan(text.as_bytes(), ends, &[]);
        seen.iter()
            .map(|seen| (seen.place, seen.kind))
            .collect::<Vec<_>>()
    };
    let (comment, dropped) = (Kind::RunsOn { by: "#" }, Kind::RunsOn { by: "dnl" });
    assert_eq!(seen("a #b", &[4]), []);
    assert_eq!(seen("a #bc\n", &[4, 6]), [(2, comment)]);
    assert_eq!(seen("a #b\nc", &[4, 6]), []);
    assert_eq!(seen("a #b\nc", &[5, 6]), []);
    assert_eq!(seen("a #bc", &[4, 4, 5, 5]), [(2, comment)]);
    assert_eq!(seen("dnl bc\n", &[5, 7]), [(0, dropped)]);
    assert_eq!(seen("dnl b", &[3, 5]), [(0, dropped)]);
    assert_eq!(seen("`# b'", &[3, 5]), []);
    let closer = Kind::Closer { by: "#" };
    assert_eq!(seen("len(#b)\n", &[6, 8]), [(4, comment), (4, closer)]);
}

#[test]
fn word_or_call() {
    for name in ["define", "include", "index", "len", "shift"] {
        let found = vec![(4, Kind::Gap(gap(name)))];
        assert_eq!(seen(&format!("the {name} (see below)")), []);
        assert_eq!(seen(&format!("the {name} (gain, 5)")), found);
        assert_eq!(seen(&format!("abc={name} (boom)")), found);
    }
    for name in ["eval", "ifelse", "undefine"] {
        let found = vec![(4, Kind::Gap(gap(name)))];
        assert_eq!(seen(&format!("the {name} (see below)")), found);
    }
}

#[test]
fn no_mistake() {
    for text in [
        "# define (`n') len “\n",
        "a # define (`n') len “",
        "len(`a' # (b)\n) # )\n",
        "dnl define (`n') len “\r\n",
        "define(`f', `a dnl len (1)\n')",
        "define(`f', `# len (1)\n')",
        "`define (a), the len of “b”'",
        "errprint(`usage: define (a)')",
        "the len of the boom, define, eval, undefine, include it",
        "we include (e.g. this) and include (that)",
        "len(index) define(`f', `the len of it')",
        "define(`len', `x')the len (`a')",
        "define(`len', `2')eval(len)",
        "eval(2) len",
        "eval(len(index))",
        "undefine(`shift')shift (`a')",
        "define(`f', `x')f (1)",
        "define(`f', `$1')f(1)undefine(`f')f (1)",
        "pushdef(`len', `$1')len(1)popdef(`len')len (`a')",
        "divnum words",
        "the divnum of it",
        "m4exit dnl",
        "divert\n(a) divnum (b) dnl (c)",
        "divert dnl\nundivert",
        "word (a) Len (b) lens",
        "18.4 len(18.4) eval(1.2.3) eval(184)",
        "define(`h', `18.4')define(`h', `18')eval(h)",
        "define(`f', `[$1]')f(18.4)",
        "a\rb",
        "a\u{feff}",
        "the boom\u{2019}s end",
        "define(`format', `$1')format(`a')",
        "a format of",
        "copydef(`len', `format')format(`a')",
        "copydef(`define', `rig')the rig (see below), a rig",
        "copydef(`define', `rig')rig(`len', `x')len (`a')",
        "copydef(`dnl', `rem')rem define (`n') len “\n",
        "copydef(`divert', `away')away(-1)“it”\r\naway(0)",
        "copydef(`divert', `away')we away the cable",
        "copydef(`divnum', `len')eval(len)len (`a')",
        "copydef(`changequote', `marks')marks([, ])define (a)",
        "copydef(`len', `l')undefine(`l')l (`a')",
        "copydef(len, `l')copydef(rig(`a'), `b')copydef(`divnum', `d')",
        "changequote([, ])define (a) len “b”",
        "changecom # len (1)\n",
        "divert(-1)the len of “it”\r\ndivert(0)",
        "\u{e9} \u{9ad8}",
    ] {
        assert_eq!(seen(text), [], "{text}");
    }
}

#[test]
fn what_included_texts_define() {
    let items = [Item {
        name: b"a".to_vec(),
        text: b"define(`format', `$1')define(`h', `1.5')".to_vec(),
        told: String::new(),
    }];
    let text = "format(`a')format (`a')eval(h)";
    let seen = scan(text.as_bytes(), &[30], &items);
    let kinds: Vec<_> = seen.iter().map(|seen| seen.kind).collect();
    let (name, number, taker) = ("h", "1.5", "eval");
    let point = Kind::NamedPoint {
        name,
        number,
        taker,
    };
    assert_eq!(kinds, [called("format"), point]);
}

#[test]
fn what_included_texts_copy() {
    let items = [Item {
        name: b"a".to_vec(),
        text: b"copydef(`define', `rig')".to_vec(),
        told: String::new(),
    }];
    let text = "include(`a')rig(`len', `$1')len (2) rig (`n', 5)";
    let seen = scan(text.as_bytes(), &[48], &items);
    let kinds: Vec<_> = seen.iter().map(|seen| seen.kind).collect();
    let rig = Gap {
        means: "define",
        ..gap("rig")
    };
    assert_eq!(kinds, [called("len"), Kind::Gap(rig)]);
}

#[test]
fn names_with_a_definition() {
    let items = [Item {
        name: b"a".to_vec(),
        text: b"define(`theirs')".to_vec(),
        told: String::new(),
    }];
    let names = defined(
        b"define(`mine')undefine(`len', `x')copydef(`incr', `next')",
        &items,
    );
    for (name, is_one) in [
        ("mine", true),
        ("theirs", true),
        ("next", true),
        ("incr", true),
        ("len", false),
        ("rig", false),
    ] {
        assert_eq!(names.contains(&name), is_one, "{name}");
    }
    assert!(names.is_sorted());
}

#[test]
fn when_it_is_over() {
    let ends = |text: &'static str| {
        let seen = scan(text.as_bytes(), Vec::leak(vec![text.len()]), &[]);
        seen.iter().map(|seen| seen.ends).collect::<Vec<_>>()
    };
    assert_eq!(ends("we divert it"), [Some(9)]);
    assert_eq!(ends("f(incr(eval(1.5) + 1) )"), [Some(21)]);
    assert_eq!(ends("define(`f', `eval(1.5)')"), [None]);
    assert_eq!(ends("ifelse(1, 1, `eval(1.5)')"), [Some(25)]);
    assert_eq!(ends("len(eval(1.5)"), [None]);
}

#[test]
fn any_bytes() {
    let all: Vec<u8> = (0..=255).cycle().take(70_000).collect();
    scan(&all, &[70_000], &[]);
    for text in [
        "define(",
        "define(`a",
        "copydef(",
        "copydef(`a",
        "copydef(a,",
        "$",
        "`$",
        "eval(1.",
        "changequote(",
        "\u{e2}",
    ] {
        scan(text.as_bytes(), &[text.len()], &[]);
        scan(&text.as_bytes()[1..], &[text.len() - 1], &[]);
    }
    scan(b"\xe2\x80", &[2], &[]);
}
