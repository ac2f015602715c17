//! Expressions and their values, worked out by hand.

use super::*;

fn value(expression: &str) -> Result<i32, Refusal> {
    work_out(&read(expression.as_bytes())?)
}

#[test]
fn precedence_is_that_of_c() {
    let cases = [
        ("1&2==2", 1),
        ("!0+1", 2),
        ("2-1-1", 0),
        ("3>2>1", 0),
        ("1<<1+1", 4),
        ("1|2^3", 1),
        ("6^3&2", 4),
        ("2||0&&0", 1),
        ("7*-3%4", -1),
        ("~5 + - -3", -3),
        ("1<2==1", 1),
        ("(1\t+\n2)*3", 9),
    ];
    for (expression, expected) in cases {
        assert_eq!(value(expression), Ok(expected), "{expression}");
    }
}

#[test]
fn what_cannot_be_read() {
    for expression in [
        "",
        " ",
        "08",
        "0x",
        "1a",
        "1_0",
        "1L",
        "1--1",
        "--1",
        "1++1",
        "1 1",
        "(1",
        "1)",
        "()",
        "1,2",
        "1?2:3",
        "1=1",
        "2**3",
        "1< <1",
        "4294967296",
        "1//1",
        "1/**/",
        "1\r",
        "a",
        "&1",
        "*1",
        "1.0",
        "1<",
        "$1",
        "\u{e9}",
        "0b1",
        "0x100000000",
        "040000000000",
    ] {
        assert_eq!(value(expression), Err(Refusal::Expression), "{expression}");
    }
}

#[test]
fn wrapping_and_signs() {
    assert_eq!(value("2147483647+1"), Ok(i32::MIN));
    assert_eq!(value("-2147483648/-1"), Ok(i32::MIN));
    assert_eq!(value("-2147483648%-1"), Ok(0));
    assert_eq!(value("65536*65536"), Ok(0));
    assert_eq!(value("-1>>31"), Ok(-1));
    assert_eq!(value("4294967295>0"), Ok(0));
    assert_eq!(value("-7/2"), Ok(-3));
    assert_eq!(value("0XaB+017+0xe+1"), Ok(201));
}

#[test]
fn skipped_sides() {
    assert_eq!(value("0&&(1||1/0)||2"), Ok(1));
    assert_eq!(value("1||0&&1/0"), Ok(1));
    assert_eq!(value("0&&1||1/0"), Err(Refusal::Divisor));
    assert_eq!(value("0&&08"), Err(Refusal::Expression));
    assert_eq!(value("0>>32"), Err(Refusal::Divisor));
}

#[test]
fn long_rows_are_flat() {
    let expression = format!("1{}", "+1".repeat(32_767));
    assert_eq!(value(&expression), Ok(32_768));
    assert_eq!(
        value(&format!("{}1", "(".repeat(65_535))),
        Err(Refusal::Expression)
    );
}

#[test]
fn punctuators_are_longest_first() {
    for pair in PUNCTUATORS.windows(2) {
        assert!(pair[0].len() >= pair[1].len());
    }
}

#[test]
fn writing() {
    let written = |value, radix, least| write(value, radix, least).bytes().map(<[u8]>::to_vec);
    assert_eq!(written(255, 16, 4), Some(b"00ff".to_vec()));
    assert_eq!(written(-5, 10, 3), Some(b"-005".to_vec()));
    assert_eq!(written(0, 10, 0), Some(b"0".to_vec()));
    assert_eq!(written(-35, 36, 1), Some(b"-z".to_vec()));
    assert_eq!(
        written(1, 10, 65_536).map(|bytes| bytes.len()),
        Some(65_536)
    );
    assert_eq!(written(-1, 10, 65_536), None);
    assert_eq!(written(1, 10, 2_147_483_647), None);
}
