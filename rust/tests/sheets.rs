//! The sheet: every line of tests/sheets.tsv of the repository, and the ways to one from Rust.

mod common;
#[path = "common/fields.rs"]
mod fields;

use common::{buffers, junk, run, Run};
use fields::{bytes, decimal, hexadecimal};
use quenhovach::sheet::{self, Line, Lines};
use quenhovach::{
    expand_to_sheet, Answer, BadLine, Buffer, Expander, Failure, NoSheet, Opened, Reading, BUDGET,
    EMPTY_SET, LONGEST,
};

const TABLE: &str = concat!(env!("CARGO_MANIFEST_DIR"), "/../tests/sheets.tsv");
const AMPLE: [usize; 7] = [LONGEST; 7];

/// Place and length, as `4+1`.
fn span(field: &str) -> (u64, u64) {
    let (place, length) = field.split_once('+').expect("a place and a length");
    (decimal(place), decimal(length))
}

/// Kind, value and length of a reading.
fn reading(field: &str) -> (u64, u64, u64) {
    match field.split_once(' ').expect("a kind and a value") {
        ("number", digits) => (1, u64::from(decimal::<i32>(digits) as u32), 0),
        ("decimal", bits) => (2, hexadecimal(bits), 0),
        ("word", place) => (3, span(place).0, span(place).1),
        _ => panic!("a reading: {field}"),
    }
}

/// The lines of a sheet, parted by `;`. One that is not there has none.
fn lines(field: &str) -> Lines {
    let mut all = Lines::EMPTY;
    let fields = field.split(';').filter(|&f| !["[]", "none"].contains(&f));
    for (line, place) in fields.zip(&mut all.lines) {
        let (name, of) = line.split_once(' ').expect("a name and a reading");
        let ((name, name_length), (kind, value, length)) = (span(name), reading(of));
        *place = Line {
            name,
            name_length,
            kind,
            value,
            length,
        };
        all.count += 1;
    }
    all
}

/// Lines full of junk.
fn junk_lines() -> Lines {
    let (name, name_length, kind, value, length) = (1, 2, 3, 4, 5);
    let line = Line {
        name,
        name_length,
        kind,
        value,
        length,
    };
    Lines {
        count: 7,
        lines: [line; sheet::MOST],
    }
}

/// A text that is read: the answer in numbers, and the lines.
fn read(text: &[u8]) -> (u32, u32, Lines) {
    let mut lines = junk_lines();
    let bad = sheet::read(text, &mut lines).err();
    let number = bad.map_or(0, BadLine::number);
    let line = bad.map_or(0, BadLine::line);
    (number, line as u32, lines)
}

#[test]
fn all_vectors() {
    let table = std::fs::read_to_string(TABLE).expect("tests/sheets.tsv");
    let mut tried = [0; 3];
    for row in table.lines().filter(|row| !row.starts_with('#')) {
        let fields: Vec<&str> = row.split('\t').collect();
        let [label, function, text, given, name, number, detail, steps, place, output, errors, expected, _] =
            fields[..]
        else {
            panic!("thirteen fields: {row}");
        };
        let text = bytes(text);
        let kind = match function {
            "read" => {
                let answer = (decimal(number), decimal(detail), lines(expected));
                assert_eq!(read(&text), answer, "{label}");
                0
            }
            "sheet" => {
                let lengths: Vec<usize> = given.split(',').map(decimal).collect();
                let mut left = junk(lengths.try_into().expect("seven lengths"));
                let mut found = junk_lines();
                let outcome =
                    sheet::expand(&text, EMPTY_SET, buffers(&mut left), BUDGET, &mut found);
                let (output, errors) = (bytes(output), bytes(errors));
                let numbers = [number, detail, steps, place].map(decimal);
                let counts = [&output, &errors].map(|text| text.len() as u32);
                assert_eq!(
                    outcome.numbers(),
                    [&numbers[..], &counts].concat()[..],
                    "{label}"
                );
                let run = Run {
                    report: outcome.report,
                    left,
                };
                assert_eq!(run.written(), (&errors[..], &output[..]), "{label}");
                assert!(run.leaves_the_rest_alone(), "{label}");
                assert_eq!(found, lines(expected), "{label}");
                assert_eq!(outcome.is_sheet(), expected != "none", "{label}");
                1
            }
            "question" => {
                let asked = lines(given);
                let found = asked.find(&text, &bytes(name)).map(|n| asked.lines[n]);
                let found = found.map(|line| (line.kind, line.value, line.length));
                let expected = (expected != "absent").then(|| reading(expected));
                assert_eq!(found, expected, "{label}");
                2
            }
            _ => panic!("a function: {row}"),
        };
        tried[kind] += 1;
    }
    assert!(tried.into_iter().all(|count| count >= 7), "{tried:?}");
}

#[test]
fn every_way_gives_the_same_sheet() {
    let text = b"define(`n',`5')dnl\nguy_count=n\nsway_gain=-0.n\nfamily=lattice";
    let expected = [
        (1, "guy_count", Reading::Number(5)),
        (2, "sway_gain", Reading::Decimal(-0.5)),
        (3, "family", Reading::Word("lattice")),
    ];
    let told = |sheet: sheet::Sheet| {
        assert_eq!(sheet.text(), b"guy_count=5\nsway_gain=-0.5\nfamily=lattice");
        assert_eq!((sheet.len(), sheet.is_empty()), (3, false));
        let settings = sheet.settings();
        let all: Vec<_> = settings.map(|s| (s.line, s.name, s.reading)).collect();
        assert_eq!(all, expected);
        for (line, name, reading) in expected {
            assert_eq!(sheet.get(name), Some(reading));
            assert_eq!(sheet.line_of(name.as_bytes()), Some(line));
            assert_eq!(sheet.setting(line).map(|s| s.name), Some(name));
        }
        for absent in ["", "n", "guy_coun", "guy_count=5", "Family", "lattice"] {
            assert_eq!((sheet.get(absent), sheet.line_of(absent)), (None, None));
        }
        assert!(sheet.setting(0).is_none() && sheet.setting(4).is_none());
    };
    let mut left = junk(AMPLE);
    let mut lines = junk_lines();
    let outcome = sheet::expand(text, EMPTY_SET, buffers(&mut left), BUDGET, &mut lines);
    told(lines.sheet(&left[6][..outcome.report.output]));
    let mut again = junk_lines();
    told(sheet::read(&left[6][..outcome.report.output], &mut again).expect("a sheet"));
    let mut expander = Expander::new();
    told(expander.expand_sheet(text).expect("a sheet"));
    told(expander.sheet().expect("it is still there"));
    told(expand_to_sheet(text).expect("a sheet").as_sheet());
}

#[test]
fn a_sheet_without_a_line() {
    let mut lines = junk_lines();
    let sheet = sheet::read(b"", &mut lines).expect("a sheet");
    assert!(sheet.is_empty() && sheet.settings().next().is_none());
    assert_eq!(sheet.get("a"), None);
    let sheet = expand_to_sheet(b"dnl\n").expect("a sheet");
    assert!(sheet.as_sheet().is_empty());
}

#[test]
fn what_an_expander_has_is_of_its_last_run() {
    let mut expander = Expander::new();
    assert!(expander.sheet().is_none());
    assert!(expander.run_sheet(b"a=1").is_sheet());
    assert_eq!(expander.sheet().map(|sheet| sheet.len()), Some(1));
    assert_eq!(expander.run(b"b=2").answer, Answer::Done);
    assert!(expander.sheet().is_none(), "none was asked for");
    for text in [&b"a=`"[..], b"a=1`'m4exit", b"a=1\na=1"] {
        assert!(expander.run_sheet(b"a=1").is_sheet());
        assert!(!expander.run_sheet(text).is_sheet());
        assert!(expander.sheet().is_none(), "{text:?}");
    }
    assert!(expander.run_sheet(b"a=1").is_sheet());
    assert!(expander.with_room(Buffer::Output, 9).sheet().is_none());
}

#[test]
fn a_run_that_is_not_done_comes_through() {
    let mut expander = Expander::new();
    let refused = expander.expand_sheet(b"sway=`on").map(|_| ());
    let report = run(b"sway=`on", AMPLE, BUDGET).report;
    assert_eq!(report.answer, Answer::Unclosed(Opened::Quote));
    let refusal = report.finished().expect_err("it is refused");
    assert_eq!(refused, Err(NoSheet::Failed(Failure::Refused(refusal))));
    assert_eq!(refused.map_err(|e| e.report()), Err(report));

    for code in [0, 3] {
        let text = format!("errprint(`no mast')sway=on\nm4exit({code})");
        let ended = expand_to_sheet(text.as_bytes()).expect_err("exit is not done");
        assert_eq!(ended.report().answer, Answer::Exit(code));
        assert_eq!(
            ended.to_string(),
            format!("the template ended with m4exit({code}): no mast")
        );
        let NoSheet::Failed(Failure::Exit(written)) = ended else {
            panic!("exit: {ended:?}");
        };
        assert_eq!(
            (&written.output[..], &written.errors[..]),
            (&b"sway=on\n"[..], &b"no mast"[..])
        );
    }
}

#[test]
fn a_bad_line_goes_with_all_that_was_written() {
    let lines: String = (0..257).map(|n| format!("n{n}=1\n")).collect();
    for (text, bad, line, told) in [
        (
            "a=1\nb =2\n",
            BadLine::Malformed(2),
            "b =2",
            "line 2 is not a name, `=` and a reading: \"b =2\"",
        ),
        (
            "a=1\nb=2\na=3\n",
            BadLine::Twice(3),
            "a=3",
            "line 3 gives a name a second time: \"a=3\"",
        ),
        (
            &lines,
            BadLine::TooMany,
            "n256=1",
            "there are more than 256 lines: \"n256=1\"",
        ),
    ] {
        let template = format!("errprint(`e'){text}");
        let error = expand_to_sheet(template.as_bytes()).expect_err("no sheet");
        assert_eq!(error.to_string(), format!("the output is no sheet: {told}"));
        let NoSheet::BadLine(found, written) = error else {
            panic!("a bad line: {error:?}");
        };
        assert_eq!(found, bad);
        assert_eq!(
            (&written.output[..], &written.errors[..]),
            (text.as_bytes(), &b"e"[..])
        );
        assert_eq!(written.report.answer, Answer::Done);
        assert_eq!(found.bytes(&written.output), Some(line.as_bytes()));
        assert_eq!(found.bytes(b""), None);
    }
}

#[test]
fn lines_that_no_text_made_are_answered() {
    let lines = lines("0+1 number 1;1+1 word 18446744073709551615+2;9+1 number 2;0+2 word 2+1");
    let sheet = lines.sheet(b"a=1");
    assert_eq!(sheet.get("a"), Some(Reading::Number(1)));
    assert_eq!((sheet.get("="), sheet.line_of("=")), (None, Some(2)));
    assert_eq!(sheet.get("a="), Some(Reading::Word("1")));
    let settings: Vec<_> = sheet.settings().map(|setting| setting.line).collect();
    assert_eq!((sheet.len(), settings), (4, vec![1, 4]));
}

#[test]
fn what_is_shown_of_them_is_their_readings() {
    let sheet = expand_to_sheet(b"errprint(`e')a=1\nb=0.5\nc=on").expect("a sheet");
    let readings = r#"{"a": Number(1), "b": Decimal(0.5), "c": Word("on")}"#;
    assert_eq!(format!("{:?}", sheet.as_sheet()), readings);
    let shown = format!("{sheet:?}");
    let begin = format!(r#"SheetBuf {{ sheet: {readings}, errors: "e", report: Report {{ "#);
    assert!(shown.starts_with(&begin), "{shown}");
    let lines = lines("0+1 number 1");
    assert_eq!(format!("{lines:?}").matches("Line {").count(), 1);
}
