//! The worked texts of document 01. "Budget and room are ample unless said."

use model::{Report, Setting, NO_ITEMS};

fn expand(text: &[u8], setting: &Setting) -> Report {
    model::expand(text, NO_ITEMS, setting)
}

fn ample(text: &str) -> Report {
    expand(text.as_bytes(), &Setting::ample())
}

/// A text that is done with this output and no error text.
fn gives(text: &str, output: &str) {
    let report = ample(text);
    assert_eq!((report.number, report.detail), (0, 0), "{text}");
    assert_eq!(report.output, output.as_bytes(), "{text}");
    assert_eq!(report.errors, b"", "{text}");
    assert_eq!(report.place as usize, text.len(), "{text}");
}

/// A text that is refused with this number and detail 0.
fn refused(text: &str, number: u32) {
    let report = ample(text);
    assert_eq!((report.number, report.detail), (number, 0), "{text}");
    assert_eq!(
        (report.output, report.errors),
        (Vec::new(), Vec::new()),
        "{text}"
    );
}

fn report(number: u32, detail: u32, steps: u32, place: u32, output: &str) -> Report {
    Report {
        number,
        detail,
        steps,
        place,
        output: output.as_bytes().to_vec(),
        errors: Vec::new(),
    }
}

fn with_budget(budget: u32) -> Setting {
    Setting {
        budget,
        ..Setting::ample()
    }
}

#[test]
fn empty_text() {
    assert_eq!(expand(b"", &with_budget(0)), report(3, 0, 0, 0, ""));
    assert_eq!(expand(b"", &with_budget(1)), report(0, 0, 1, 0, ""));
}

#[test]
fn nested_quotes() {
    let text = "`a `b' c'";
    assert_eq!(ample(text), report(0, 0, 2, text.len() as u32, "a `b' c"));
}

const THIRD: &str = "define(`n',`5')n";

/// "It needs 1, 8, 2 and 1 bytes in buffers 1, 2, 3 and 7."
const NEEDED: [usize; 7] = [1, 8, 2, 0, 0, 0, 1];

fn third_with(lengths: [usize; 7]) -> Report {
    let budget = Setting::ample().budget;
    expand(THIRD.as_bytes(), &Setting { lengths, budget })
}

#[test]
fn third_case() {
    assert_eq!(ample(THIRD), report(0, 0, 8, 16, "5"));
    assert_eq!(third_with(NEEDED), report(0, 0, 8, 16, "5"));
}

#[test]
fn needs_of_the_third_case() {
    let short = |buffer: usize| {
        let mut lengths = NEEDED;
        lengths[buffer - 1] -= 1;
        third_with(lengths)
    };
    assert_eq!(short(1), report(4, 1, 5, 15, ""));
    assert_eq!(short(2), report(4, 2, 3, 11, ""));
    assert_eq!(short(3), report(4, 3, 4, 14, ""));
    assert_eq!(short(7), report(4, 7, 6, 16, ""));
}

#[test]
fn budgets_of_the_third_case() {
    let places = [0, 7, 10, 11, 14, 15, 16, 16];
    for (steps, place) in places.into_iter().enumerate() {
        let steps = steps as u32;
        let got = expand(THIRD.as_bytes(), &with_budget(steps));
        assert_eq!(got, report(3, 0, steps, place, ""));
    }
    assert_eq!(
        expand(THIRD.as_bytes(), &with_budget(8)),
        report(0, 0, 8, 16, "5")
    );
}

#[test]
fn counts_of_arguments() {
    gives("define(`f',`$#:$*')f f() f(a,b)", "0: 1: 2:a,b");
}

#[test]
fn a_name_behind_a_digit() {
    gives("define(`N',`7')2N N2", "27 N2");
}

#[test]
fn diversions() {
    gives("divert(2)b`'divert(1)a`'divert(0)c", "cab");
}

#[test]
fn ifelse_and_shift() {
    gives("ifelse(`a',`b',`c',`d',`e')", "d");
    gives("shift(`a',`b',`c')", "b,c");
}

#[test]
fn substr_and_translit() {
    gives("substr(`abc',3)", "");
    gives("translit(`abcda',`ad',`x')", "xbcx");
}

#[test]
fn eval_proved() {
    gives("eval(0&&1/0)", "0");
    refused("eval(1/0)", 9);
    refused("eval(08)", 8);
}

#[test]
fn eval_others() {
    gives("eval(7/-2)", "-3");
    gives("eval(-7%2)", "-1");
    gives("eval(1<<31)", "-2147483648");
    gives("eval(255,16,4)", "00ff");
    // From the rules: "`1--1` is refused" and "`0xe+1` is 15".
    refused("eval(1--1)", 8);
    gives("eval(0xe+1)", "15");
}

#[test]
fn incr() {
    gives("incr(-1)", "0");
    refused("incr(2147483647)", 7);
}

#[test]
fn blanks_before_an_argument() {
    gives("define(`g',`[$2]')g(a,  b )", "[b ]");
}

#[test]
fn wrap_text() {
    gives("m4wrap(`z')y", "yz");
}
