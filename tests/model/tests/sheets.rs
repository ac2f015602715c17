//! Request 4 of document 02, "The sheet itself": its points one by one, worked out by hand from the
//! paper.

use model::sheet::{expand_and_read, expand_and_read_in, question, read, Expanded};
use model::sheet::{Fault, Judged, Line, Reading, Refused};
use model::{Report, Setting, LIMIT, NO_ITEMS};
use Fault::{Malformed, TooMany, Twice};
use Reading::{Decimal, Number, Word};

fn line(place: u64, length: u64, reading: Reading) -> Line {
    Line {
        place,
        length,
        reading,
    }
}

fn word(place: u64, length: u64) -> Reading {
    Word { place, length }
}

fn bad(fault: Fault, line: u32) -> Judged {
    Err(Refused { fault, line })
}

/// The reading behind `n=`.
fn reading(bytes: &str) -> Option<Reading> {
    let lines = read(format!("n={bytes}").as_bytes()).ok()?;
    assert_eq!((lines.len(), lines[0].place, lines[0].length), (1, 0, 1));
    Some(lines[0].reading)
}

/// So many good lines with names of their own.
fn good_lines(count: usize) -> String {
    (0..count).map(|i| format!("n{i}=1\n")).collect()
}

/// "20 malformed line, 21 name given twice, 22 a 257th line", "with the line number as detail".
#[test]
fn numbers_and_details() {
    let numbers = [Malformed, Twice, TooMany].map(|fault| {
        let refused = Refused { fault, line: 9 };
        (refused.number(), refused.detail())
    });
    assert_eq!(numbers, [(20, 9), (21, 9), (22, 9)]);
}

#[test]
fn a_text_without_bytes_has_no_line() {
    assert_eq!(read(b""), Ok(vec![]));
    assert_eq!(question(&[], b"", b""), None);
}

/// "Bytes after the last newline are a line too and need none."
#[test]
fn the_last_newline() {
    let sheet = Ok(vec![line(0, 1, Number(1))]);
    assert_eq!(read(b"a=1"), sheet);
    assert_eq!(read(b"a=1\n"), sheet);
}

#[test]
fn an_empty_line_is_a_line() {
    assert_eq!(read(b"a=1\n\n"), bad(Malformed, 2));
    assert_eq!(read(b"\n"), bad(Malformed, 1));
    assert_eq!(read(b"\na=1"), bad(Malformed, 1));
    assert_eq!(read(b"a=1\n\nb=1"), bad(Malformed, 2));
}

/// "a name, `=`, a reading, newline", and nothing round them.
#[test]
fn nothing_round_the_parts() {
    let lines = [
        "a =1",
        " a=1",
        "a= 1",
        "a=1 ",
        "\ta=1",
        "a=1\t",
        "a=1\r\n",
        "a\r=1",
        "a=b=c",
        "a==1",
        "a=1=",
        "# x\n",
        "a=1#",
        "a=1# x",
        "a",
        "=",
        "=1",
        "a=",
        "a:1",
        "9=1",
        "9a=1",
        "a-b=1",
        "a.b=1",
        "1=a",
        "a=`b'",
        "\0=1",
        "a=\0",
        "a=1\0",
        "a\u{e9}=1",
        "a=\u{e9}",
        "a=b\u{e9}",
        "a=b c",
        "a=\u{b}1",
    ];
    for text in lines {
        assert_eq!(read(text.as_bytes()), bad(Malformed, 1), "{text:?}");
    }
}

/// 01: "an optional minus and one or more decimal digits, within -2147483648 to 2147483647".
#[test]
fn numbers_of_01() {
    let good = [
        ("0", 0),
        ("-0", 0),
        ("-00", 0),
        ("007", 7),
        ("-12", -12),
        ("0000000000000000000012", 12),
        ("2147483647", i32::MAX),
        ("-2147483648", i32::MIN),
    ];
    for (bytes, number) in good {
        assert_eq!(reading(bytes), Some(Number(number)), "{bytes}");
    }
    let bad = [
        "+1",
        "-",
        "--1",
        "2147483648",
        "-2147483649",
        "4294967296",
        "18446744073709551616",
        "1e3",
        "0x10",
        "12a",
        "1_",
        "1,000",
        "- 1",
        "1-",
    ];
    for bytes in bad {
        assert_eq!(reading(bytes), None, "{bytes}");
    }
    let zeros = "0".repeat(60_000);
    assert_eq!(reading(&zeros), Some(Number(0)));
    assert_eq!(reading(&format!("-{zeros}5")), Some(Number(-5)));
}

/// "an optional minus, one or more digits, a point, one or more digits, at most 15 digits in all".
#[test]
fn decimals() {
    let good = [
        ("0.0", 0),
        ("1.0", 0x3ff0_0000_0000_0000),
        ("-1.0", 0xbff0_0000_0000_0000),
        ("0.5", 0x3fe0_0000_0000_0000),
        ("000.50", 0x3fe0_0000_0000_0000),
        ("0.00000000000001", 0x3d06_849b_86a1_2b9b),
        ("12345678901234.5", 0x42a6_74e7_9c5f_e500),
        ("5.5", 0x4016_0000_0000_0000),
    ];
    for (bytes, bits) in good {
        assert_eq!(reading(bytes), Some(Decimal(bits)), "{bytes}");
    }
    let bad = [
        "1.",
        ".5",
        ".",
        "-.5",
        "-1.",
        "0.000000000000001",
        "123456789012345.6",
        "000000000000000.0",
        "1.5.5",
        "+1.5",
        "1.5e3",
        "1.-5",
        "1,5",
        "--1.5",
        "1. 5",
        "1.5f",
    ];
    for bytes in bad {
        assert_eq!(reading(bytes), None, "{bytes}");
    }
}

/// "then negated if there was a minus"
#[test]
fn minus_zero() {
    assert_eq!(reading("-0.0"), Some(Decimal(1 << 63)));
    assert_eq!(reading("-000.000"), Some(Decimal(1 << 63)));
    assert_eq!(reading("0.0"), Some(Decimal(0)));
}

/// "divided once": no product, no sum of digits.
#[test]
fn one_division() {
    assert_eq!(reading("0.3"), Some(Decimal(0x3fd3_3333_3333_3333)));
    assert_ne!((3.0f64 * 0.1).to_bits(), 0x3fd3_3333_3333_3333);
    assert_eq!(reading("0.7"), Some(Decimal(0x3fe6_6666_6666_6666)));
    assert_eq!(reading("8.41"), Some(Decimal(0x4020_d1eb_851e_b852)));
}

/// "the first bad line counts, judged 22, 20, 21".
#[test]
fn which_line_and_which_number() {
    assert_eq!(read("?\n".repeat(300).as_bytes()), bad(Malformed, 1));
    for last in ["?", "\n", "n0=1", "z=1", "z=1\n", "?\n?"] {
        let text = good_lines(256) + last;
        assert_eq!(read(text.as_bytes()), bad(TooMany, 257), "{last:?}");
    }
    assert_eq!(read(b"a=1\na=?"), bad(Malformed, 2));
    assert_eq!(read(b"a=1\nb=1\na=1\n?"), bad(Twice, 3));
    assert_eq!(read(b"a=1\na=1\na=1"), bad(Twice, 2));
    assert_eq!(read(b"a=1\n?\na=1"), bad(Malformed, 2));
}

#[test]
fn line_256_and_line_257() {
    assert_eq!(read(good_lines(256).as_bytes()).unwrap().len(), 256);
    let most = good_lines(255);
    let more = |last: &str| read((most.clone() + last).as_bytes());
    assert_eq!(more("a=1").unwrap().len(), 256);
    assert_eq!(more("a=1\n").unwrap().len(), 256);
    assert_eq!(more("n0=1\n"), bad(Twice, 256));
    assert_eq!(more("n254=1"), bad(Twice, 256));
    assert_eq!(more("?\nb=1"), bad(Malformed, 256));
    assert_eq!(more("a=1\nb=1"), bad(TooMany, 257));
}

/// A run of the table of 01 in words: number, detail, steps, place.
fn expanded(numbers: [u32; 4], output: &str, errors: &str, sheet: Option<Vec<Line>>) -> Expanded {
    let [number, detail, steps, place] = numbers;
    let report = Report {
        number,
        detail,
        steps,
        place,
        output: output.as_bytes().to_vec(),
        errors: errors.as_bytes().to_vec(),
    };
    Expanded { report, sheet }
}

fn ample(text: &str) -> Expanded {
    expand_and_read(text.as_bytes(), NO_ITEMS, &Setting::ample())
}

/// "A run that did not end done gives no sheet at all, only its answer."
#[test]
fn a_run_that_is_not_done() {
    let exit = expanded([1, 2, 7, 13], "a=1 ", "", None);
    assert_eq!(ample("a=1 m4exit(2)"), exit);
    let good_so_far = expanded([1, 0, 5, 10], "a=1\n", "", None);
    assert_eq!(ample("a=1\nm4exit"), good_so_far);
    assert_eq!(ample("a=1`"), expanded([5, 1, 3, 3], "", "", None));
    let mut setting = Setting::ample();
    setting.lengths[6] = 2;
    let short = expand_and_read(b"a=1", NO_ITEMS, &setting);
    assert_eq!(short, expanded([4, 7, 2, 2], "", "", None));
}

/// "with the line number as detail and all else, the written text too, as after done, unlike demand 1".
#[test]
fn a_run_that_is_done() {
    let sheet = Some(vec![line(0, 1, Number(1))]);
    assert_eq!(ample("a=1"), expanded([0, 0, 4, 3], "a=1", "", sheet));
    assert_eq!(ample(""), expanded([0, 0, 1, 0], "", "", Some(vec![])));
    let malformed = expanded([20, 1, 5, 12], "?", "w", None);
    assert_eq!(ample("errprint(w)?"), malformed);
    let twice = expanded([21, 2, 8, 7], "a=1\na=1", "", None);
    assert_eq!(ample("a=1\na=1"), twice);
    let text = good_lines(257);
    let got = ample(&text).report;
    assert_eq!((got.number, got.detail), (22, 257));
    assert_eq!(got.output, text.as_bytes());
}

/// Steps: `define`, `` `n' ``, comma, `` `5' ``, parenthesis, `dnl`; a, =, n, 5, newline; b, =, n, 5,
/// point, 5, end.
#[test]
fn expanded_and_read() {
    let text = "define(`n',`5')dnl\na=n\nb=n.5";
    let sheet = vec![
        line(0, 1, Number(5)),
        line(4, 1, Decimal(0x4016_0000_0000_0000)),
    ];
    let done = expanded([0, 0, 18, 28], "a=5\nb=5.5", "", Some(sheet));
    assert_eq!(ample(text), done);
    let streams = ample("divert(1)b=2\ndivert`'a=1\n");
    assert_eq!(streams.report.output, b"a=1\nb=2\n");
    let sheet = vec![line(0, 1, Number(1)), line(4, 1, Number(2))];
    assert_eq!(streams.sheet, Some(sheet));
}

/// "A question by name, of a sheet and its written text": of others it is asked too.
#[test]
fn a_question_of_any_lines() {
    let text = b"a=1";
    let one = |place, length| question(&[line(place, length, Number(1))], text, b"a");
    assert_eq!(one(0, 1), Some(Number(1)));
    let outside = [
        (1 << 63, 1),
        (3, 1),
        (4, 0),
        (u64::MAX, 2),
        (u64::MAX, u64::MAX),
        (0, u64::MAX),
        (1, u64::MAX),
        (1 << 32, 1),
        (0, (1 << 32) + 1),
        ((1 << 32) - 1, 2),
    ];
    for (place, length) in outside {
        assert_eq!(one(place, length), None, "{place}+{length}");
        let lines = [line(place, length, Number(1)), line(0, 1, Number(2))];
        assert_eq!(question(&lines, text, b"a"), Some(Number(2)));
    }
    let empty = |place| question(&[line(place, 0, Number(7))], text, b"");
    let places = [0, 1, 3, 4, u64::MAX].map(|place| empty(place).is_some());
    assert_eq!(places, [true, true, true, false, false]);
}

#[test]
fn the_first_of_many_lines() {
    let mut lines = vec![line(0, 1, Number(1)), line(0, 1, Number(2))];
    assert_eq!(question(&lines, b"a=1", b"a"), Some(Number(1)));
    lines = (0..300).map(|i| line(2, 1, Number(i))).collect();
    lines.push(line(0, 1, word(u64::MAX, 2)));
    assert_eq!(question(&lines, b"a=1", b"1"), Some(Number(0)));
    assert_eq!(question(&lines, b"a=1", b"a"), Some(word(u64::MAX, 2)));
    assert_eq!(question(&lines, b"b=a", b"a"), Some(Number(0)));
    assert_eq!(question(&lines, b"a=1", b"="), None);
}

#[test]
fn a_place_is_one_of_the_written_text() {
    let sheet = vec![line(0, 1, Number(1)), line(4, 1, word(6, 4))];
    assert_eq!(read(b"a=1\nb=mast"), Ok(sheet.clone()));
    assert_eq!(read(b"a=1\nb=mast\n"), Ok(sheet.clone()));
    let text = "define(`m',`b=mast')dnl\na=1\nm";
    assert_eq!(ample(text).sheet, Some(sheet));
}

/// "those buffers hold that text from the front and their old bytes behind it".
#[test]
fn old_bytes_are_not_read() {
    let mut buffers: [Vec<u8>; 7] = std::array::from_fn(|_| vec![0; 9]);
    buffers[6] = b"zzzzrd=1\n".to_vec();
    let (numbers, sheet) = expand_and_read_in(b"a=wo", NO_ITEMS, &mut buffers, 100);
    assert_eq!(numbers, [0, 0, 4, 4, 4, 0]);
    assert_eq!(sheet, Some(vec![line(0, 1, word(2, 2))]));
    assert_eq!(buffers[6], b"a=word=1\n");
    let (numbers, sheet) = expand_and_read_in(b"?", NO_ITEMS, &mut buffers, 100);
    assert_eq!((numbers, sheet), ([20, 1, 2, 1, 1, 0], None));
    assert_eq!(buffers[6], b"?=word=1\n");
    let (numbers, sheet) = expand_and_read_in(b"a=1`", NO_ITEMS, &mut buffers, 100);
    assert_eq!((numbers, sheet), ([5, 1, 3, 3, 0, 0], None));
    assert_eq!(buffers[6], b"?=word=1\n");
    assert!(buffers[..5].iter().flatten().all(|&byte| byte == 0));
}

#[test]
fn a_question_for_what_is_no_name() {
    let text = b"ab=1";
    let sheet = read(text).unwrap();
    for name in ["", "a", "b", "ab=1", "ab=", "abc", "AB", "1", "\0ab"] {
        assert_eq!(question(&sheet, text, name.as_bytes()), None, "{name}");
    }
    assert_eq!(question(&sheet, text, b"ab"), Some(Number(1)));
}

/// "Refusals, after the expander's own": each of these texts would be no sheet either.
#[test]
fn the_expander_is_first() {
    let mut setting = Setting::ample();
    setting.budget = 1;
    let number = |text: &[u8], set, setting| expand_and_read(text, set, setting).report.number;
    assert_eq!(number(b"??", NO_ITEMS, &setting), 3);
    assert_eq!(number(b"??", &[0, 0], &setting), 14);
    assert_eq!(number(&[b'?'; LIMIT + 1], &[0, 0], &setting), 2);
    let refusals = [
        ("?`", 5),
        ("?define(1)", 6),
        ("?incr(a)", 7),
        ("?eval(a)", 8),
        ("?eval(1/0)", 9),
        ("?changequote(a)", 10),
        ("?defn(`len')", 11),
        ("?len(undefine(`len'))", 12),
        ("?include(a)", 15),
        ("?copydef(`a',`b')", 16),
    ];
    for (text, refusal) in refusals {
        let got = ample(text);
        assert_eq!((got.report.number, got.sheet), (refusal, None), "{text}");
        assert_eq!(got.report.output, b"", "{text}");
    }
    assert_eq!(ample(&"len(".repeat(65)).report.number, 13);
}

/// Shaped like names: case counts, nothing is looked up, and no name is too long.
#[test]
fn names_of_lines() {
    let sheet = vec![line(0, 1, Number(1)), line(4, 1, Number(1))];
    assert_eq!(read(b"a=1\nA=1"), Ok(sheet));
    assert_eq!(read(b"len=define"), Ok(vec![line(0, 3, word(4, 6))]));
    assert_eq!(read(b"_=_0"), Ok(vec![line(0, 1, word(2, 2))]));
    assert_eq!(read(b"a=1\nab=1\n_a=1").unwrap().len(), 3);
    let long = "n".repeat(LIMIT - 2);
    let longest = read(format!("{long}=1").as_bytes());
    assert_eq!(longest, Ok(vec![line(0, LIMIT as u64 - 2, Number(1))]));
    let name = "n".repeat(30_000);
    let text = |last: &str| format!("{name}a=1\n{name}{last}=1");
    assert_eq!(read(text("b").as_bytes()).unwrap().len(), 2);
    assert_eq!(read(text("a").as_bytes()), bad(Twice, 2));
}

/// "a point makes a decimal, a letter or underscore in front a word": no reading is of two kinds.
#[test]
fn three_kinds() {
    assert_eq!(reading("1"), Some(Number(1)));
    assert_eq!(reading("1.0"), Some(Decimal(0x3ff0_0000_0000_0000)));
    assert_eq!(reading("e1"), Some(word(2, 2)));
    assert_eq!(reading("_1"), Some(word(2, 2)));
    assert_eq!(reading("nan"), Some(word(2, 3)));
    assert_eq!(reading("inf"), Some(word(2, 3)));
    for bytes in ["a.5", "5.a", "-a", "-inf", "a-", "1a", "_1.0"] {
        assert_eq!(reading(bytes), None, "{bytes}");
    }
}
