//! The ways of cases, worked out by hand.

use super::*;
use crate::answer::Setting;
use crate::sheet::case::Template;
use crate::sheet::{Line, Reading};
use crate::NO_ITEMS;

fn of(asked: Asked) -> Vec<&'static str> {
    ways(&Case::new(asked))
}

fn read(text: &str) -> Vec<&'static str> {
    of(Asked::Read(text.into()))
}

/// With this output buffer, and this in it behind what is written.
fn run(text: &str, output: usize, behind: &str) -> Vec<&'static str> {
    let mut setting = Setting::ample();
    setting.lengths[6] = output;
    of(Asked::Sheet(Template {
        text: text.into(),
        set: NO_ITEMS.to_vec(),
        setting,
        behind: behind.into(),
    }))
}

/// Of lines with the number 1 as their reading.
fn question(lines: &[(u64, u64)], text: &str, name: &str) -> Vec<&'static str> {
    let line = |&(place, length): &(u64, u64)| Line {
        place,
        length,
        reading: Reading::Number(1),
    };
    of(Asked::Question {
        lines: lines.iter().map(line).collect(),
        text: text.into(),
        name: name.into(),
    })
}

#[test]
fn each_has_a_name_of_its_own() {
    let sheets = Sheets::default();
    let mut names: Vec<_> = sheets.counts().iter().map(|&(name, _)| name).collect();
    let count = names.len();
    names.sort_unstable();
    names.dedup();
    assert_eq!(names.len(), count);
}

#[test]
fn ways_of_good_texts() {
    assert_eq!(read(""), ["read: no byte"]);
    assert_eq!(
        read("a=0\n"),
        [
            "read: one line",
            "read: a last newline",
            "read: a name of one byte",
            "number: 0"
        ]
    );
    assert_eq!(
        read("ab=-01\nlen=x"),
        [
            "read: a few lines",
            "read: no last newline",
            "read: a predefined name",
            "number: negative",
            "number: minus and a zero in front",
            "word: one byte",
            "word: to the end of the text"
        ]
    );
    assert_eq!(
        read("a=-0.0\nA=0.5"),
        [
            "read: a few lines",
            "read: no last newline",
            "read: a name of one byte",
            "read: names that differ in case",
            "read: but for the last byte the name before",
            "decimal: minus zero",
            "decimal: two digits",
            "decimal: exact"
        ]
    );
}

#[test]
fn ways_of_refused_texts() {
    assert_eq!(
        read("a=1\nb=1\na=2"),
        [
            "read: 21, as the first line",
            "read: 21, another reading",
            "read: 21, a last line without newline"
        ]
    );
    assert_eq!(
        read("\n"),
        [
            "20: line 1",
            "20: an empty first line",
            "20: only a newline",
            "20: no ="
        ]
    );
    assert_eq!(
        read("a=1\na=1 \n"),
        [
            "20: a later line",
            "20: a name given twice",
            "20: a blank behind the reading"
        ]
    );
    assert_eq!(
        read("a=-2147483649\n"),
        ["20: line 1", "20: one below the range"]
    );
    assert_eq!(
        read("a=-0.123456789012345\n"),
        [
            "20: line 1",
            "20: 16 digits",
            "20: minus and 16 digits",
            "20: 15 digits behind the point"
        ]
    );
    assert_eq!(
        read(" a=1\n"),
        ["20: line 1", "20: a blank before the name"]
    );
    let lines: String = (0..256).map(|i| format!("n{i}=1\n")).collect();
    assert_eq!(
        read(&(lines + "\n?")),
        ["read: 22, an empty line", "read: 22, then more lines"]
    );
}

#[test]
fn ways_of_runs() {
    assert_eq!(run("a=1", 3, ""), ["sheet: done", "sheet: exact output"]);
    assert_eq!(
        run("a=1", 4, "5"),
        ["sheet: done", "sheet: old bytes, another last reading"]
    );
    assert_eq!(
        run("a=1\n", 8, "b=1\n"),
        ["sheet: done", "sheet: old bytes, another line"]
    );
    assert_eq!(
        run("errprint(w)a=", 3, "5"),
        [
            "sheet: 20",
            "sheet: 20, error text",
            "sheet: 20, good with the old bytes"
        ]
    );
    assert_eq!(
        run("a=1\n", 3, ""),
        ["sheet: 4, buffer 7", "sheet: 4 for a last newline"]
    );
    assert_eq!(
        run("a=1\nm4exit", 9, ""),
        ["sheet: exit", "sheet: exit, a sheet written"]
    );
}

#[test]
fn ways_of_questions() {
    assert_eq!(question(&[], "a=1", "a"), ["question: no line"]);
    assert_eq!(
        question(&[(0, 1)], "a=1", "a"),
        [
            "question: of a sheet and its text",
            "found: the only line",
            "found: a number"
        ]
    );
    assert_eq!(
        question(&[(1 << 32, 2), (0, 2), (0, 1)], "ab=1", "ab"),
        [
            "found: a line between",
            "found: behind a line outside the text",
            "found: a number",
            "outside: the place but for 32 bits"
        ]
    );
    assert_eq!(
        question(&[(0, 2)], "ab=1", "aB"),
        [
            "question: of a sheet and its text, absent",
            "absent: another case",
            "absent: another last byte"
        ]
    );
    assert_eq!(
        question(&[(5, 0)], "ab=1", ""),
        ["outside: one behind the end, the empty name"]
    );
    assert_eq!(
        question(&[(2, 3)], "ab=1", "=1"),
        [
            "absent: it stands elsewhere in the text",
            "outside: one byte too long, the rest is the name"
        ]
    );
}
