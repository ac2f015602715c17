//! The worked texts of the rules, with the numbers and bytes that the rules state, and each answer once.

mod common;

use common::{run, run_with};
use quenhovach::{Answer, Buffer, Opened, BUDGET, LONGEST};

const AMPLE: [usize; 7] = [LONGEST; 7];

fn output(text: &str) -> String {
    let run = run(text.as_bytes(), AMPLE, BUDGET);
    assert_eq!(run.report.answer, Answer::Done, "{text}");
    assert!(run.leaves_the_rest_alone(), "{text}");
    String::from_utf8(run.written().1.to_vec()).expect("plain text")
}

fn answer(text: &str) -> Answer {
    let run = run(text.as_bytes(), AMPLE, BUDGET);
    assert!(run.leaves_the_rest_alone(), "{text}");
    run.report.answer
}

#[test]
fn the_budget_of_the_empty_text() {
    let spent = run(b"", AMPLE, 0).report;
    assert_eq!((spent.answer, spent.steps), (Answer::Spent, 0));
    let done = run(b"", AMPLE, 1).report;
    assert_eq!((done.answer, done.steps), (Answer::Done, 1));
}

#[test]
fn the_room_of_the_third_case() {
    let text = b"define(`n',`5')n";
    let needed = [1, 8, 2, 0, 0, 0, 1];
    let done = run(text, needed, 8);
    assert_eq!(done.report.numbers(), [0, 0, 8, 16, 1, 0]);
    assert_eq!(done.written(), (&b""[..], &b"5"[..]));
    assert!(done.leaves_the_rest_alone());

    let pending = run(text, [0, 8, 2, 0, 0, 0, 1], 8);
    assert_eq!(pending.report.answer, Answer::Room(Buffer::Pending));
    assert_eq!((pending.report.steps, pending.report.place), (5, 15));
    assert!(pending.leaves_the_rest_alone());

    let calls = run(text, [1, 7, 2, 0, 0, 0, 1], 8);
    assert_eq!(calls.report.answer, Answer::Room(Buffer::Calls));
    assert_eq!((calls.report.steps, calls.report.place), (3, 11));
    assert!(calls.leaves_the_rest_alone());
}

#[test]
fn texts() {
    assert_eq!(output("`a `b' c'"), "a `b' c");
    assert_eq!(output("define(`f',`$#:$*')f f() f(a,b)"), "0: 1: 2:a,b");
    assert_eq!(output("define(`N',`7')2N N2"), "27 N2");
    assert_eq!(output("divert(2)b`'divert(1)a`'divert(0)c"), "cab");
    assert_eq!(output("ifelse(`a',`b',`c',`d',`e')"), "d");
    assert_eq!(output("shift(`a',`b',`c')"), "b,c");
    assert_eq!(output("substr(`abc',3)"), "");
    assert_eq!(output("translit(`abcda',`ad',`x')"), "xbcx");
    assert_eq!(output("eval(0&&1/0)"), "0");
    assert_eq!(
        output("eval(7/-2) eval(-7%2) eval(1<<31)"),
        "-3 -1 -2147483648"
    );
    assert_eq!(output("eval(255,16,4)"), "00ff");
    assert_eq!(output("incr(-1)"), "0");
    assert_eq!(output("define(`g',`[$2]')g(a,  b )"), "[b ]");
    assert_eq!(output("m4wrap(`z')y"), "yz");
    assert_eq!(output("m4wrap(`len(a)')#x"), "#x1");
}

#[test]
fn every_answer() {
    assert_eq!(answer("x"), Answer::Done);
    assert_eq!(answer("m4exit(7)"), Answer::Exit(7));
    assert_eq!(answer(&"x".repeat(LONGEST + 1)), Answer::Lend);
    assert_eq!(run(b"x y", AMPLE, 2).report.answer, Answer::Spent);
    assert_eq!(answer("define(`f',`f f')f"), Answer::Room(Buffer::Pending));
    assert_eq!(answer("x`"), Answer::Unclosed(Opened::Quote));
    assert_eq!(answer("changecom(%,;)%"), Answer::Unclosed(Opened::Comment));
    assert_eq!(answer("len("), Answer::Unclosed(Opened::Call));
    assert_eq!(answer("define(`1')"), Answer::Name);
    assert_eq!(answer("incr(2147483647)"), Answer::Number);
    assert_eq!(answer("eval(08)"), Answer::Expression);
    assert_eq!(answer("eval(1/0)"), Answer::Divisor);
    assert_eq!(answer("changequote()"), Answer::Mark);
    assert_eq!(answer("defn(`len')"), Answer::NoText);
    assert_eq!(answer("len(undefine(`len'))"), Answer::Gone);
    assert_eq!(answer(&"len(".repeat(65)), Answer::Deep);
    assert_eq!(run_with(b"x", b"", AMPLE, 9).report.answer, Answer::BadSet);
    assert_eq!(answer("include(x)"), Answer::NoItem);
    assert_eq!(answer("copydef(`x',`y')"), Answer::NoDefinition);
}

#[test]
fn copies() {
    let own_name = "copydef(`define',`rig')rig(`gain',`7')gain rig";
    assert_eq!(output(own_name), "7 rig");
    assert_eq!(output("copydef(`len',`l')l l(ab)"), "l 2");
    assert_eq!(output("copydef(`divnum',`len')len"), "0");
    assert_eq!(
        output("copydef(`len',`l')undefine(`len')l(ab) len(ab)"),
        "2 len(ab)"
    );
    let later = "define(`f',``$0' x')copydef(`f',`g')define(`f',`y')g f";
    assert_eq!(output(later), "g x y");
    assert_eq!(answer("copydef(`x',`9')"), Answer::Name);
    assert_eq!(answer("copydef(`len')"), Answer::Name);
    assert_eq!(answer("copydef(,`a')"), Answer::NoDefinition);
    assert_eq!(answer("copydef(`len',`l')defn(`l')"), Answer::NoText);
}

/// A copy of a predefined macro takes its name, and a copy of a text name and text.
#[test]
fn the_room_of_copies() {
    for (text, needed, refused) in [
        ("copydef(`len',`l')", 1, [4, 3, 4, 17, 0, 0]),
        ("define(`f',`xyz')copydef(`f',`gg')", 9, [4, 3, 9, 33, 0, 0]),
    ] {
        let lent = |length| [9, 20, length, 0, 0, 0, 0];
        let done = run(text.as_bytes(), lent(needed), BUDGET);
        assert_eq!(done.report.answer, Answer::Done, "{text}");
        let less = run(text.as_bytes(), lent(needed - 1), BUDGET);
        assert_eq!(less.report.numbers(), refused, "{text}");
        assert!(done.leaves_the_rest_alone() && less.leaves_the_rest_alone());
    }
}

#[test]
fn each_buffer_is_named_when_it_is_too_small() {
    let cases = [
        (Buffer::Pending, "len(a)"),
        (Buffer::Calls, "len(a)"),
        (Buffer::Definitions, "define(`a')"),
        (Buffer::Streams, "divert(1)a"),
        (Buffer::Wrap, "m4wrap(a)"),
        (Buffer::Errors, "errprint(a)"),
        (Buffer::Output, "a"),
    ];
    for (buffer, text) in cases {
        let mut lengths = AMPLE;
        lengths[buffer as usize - 1] = 0;
        let run = run(text.as_bytes(), lengths, BUDGET);
        assert_eq!(run.report.answer, Answer::Room(buffer));
        assert!(run.leaves_the_rest_alone());
    }
}

#[test]
fn a_buffer_that_is_too_long_is_not_taken() {
    for i in 0..7 {
        let mut lengths = [0; 7];
        lengths[i] = LONGEST + 1;
        let run = run(b"", lengths, 1);
        assert_eq!(run.report.numbers(), [2, 0, 0, 0, 0, 0]);
        assert!(run.leaves_the_rest_alone());
    }
}

#[test]
fn calls_in_several_threads_do_not_meet() {
    let threads: Vec<_> = (0..4)
        .map(|n| std::thread::spawn(move || output(&format!("define(`n',`{n}')n"))))
        .collect();
    for (n, thread) in threads.into_iter().enumerate() {
        assert_eq!(thread.join().expect("it ends"), n.to_string());
    }
}
