//! Request 8 of document 02, "Every byte once": its points one by one, worked out by hand from the paper,
//! and what holds of random texts.

use model::generate::diversions;
use model::generate::{case, Case, Scale};
use model::history::Event::{self, *};
use model::history::{check, Numbers};
use model::random::Random;
use model::{expand, expand_recorded, expand_traced, Report, Setting, NO_ITEMS};

fn ran(text: &str) -> (Report, Numbers) {
    let (report, trace) = expand_recorded(text.as_bytes(), NO_ITEMS, &Setting::ample());
    let numbers = Numbers::of(&trace.history);
    assert_eq!(check(&report, &numbers), Ok(()), "{text}");
    (report, numbers)
}

/// A text, its output, the numbers of that, and the route of each number.
type Expected<'a> = (&'a str, &'a str, &'a [usize], &'a [&'a [i32]]);

fn come_to(number: u32, cases: &[Expected]) {
    for &(text, output, expected, routes) in cases {
        let (report, numbers) = ran(text);
        assert_eq!(report.number, number, "{text}");
        assert_eq!(report.output, output.as_bytes(), "{text}");
        assert_eq!(numbers.output(), expected, "{text}");
        assert_eq!(numbers.routes(), routes, "{text}");
    }
}

fn history(text: &str, setting: &Setting) -> (u32, Vec<Event>) {
    let (report, trace) = expand_recorded(text.as_bytes(), NO_ITEMS, setting);
    (report.number, trace.history)
}

fn written(bytes: &str) -> Event {
    Written(bytes.as_bytes().to_vec())
}

/// "The numbers come from the history of steps": what each step did, and nothing of those that only
/// collect, define or drop.
#[test]
fn what_steps_do() {
    let text = "a b`c d'#e\ndefine(`f',`[$1]')f(x)divert(2)undivert(1,1)undivert`'dnl g\ndivnum";
    let done = [
        written("a"),
        written(" "),
        written("b"),
        written("c d"),
        written("#e\n"),
        written("["),
        written("x"),
        written("]"),
        Diverted(2),
        Undiverted(vec![1, 1]),
        Undiverted(vec![]),
        written(""),
        written("2"),
        Joined,
    ];
    assert_eq!(history(text, &Setting::ample()), (0, done.to_vec()));
    let exit = vec![Diverted(0), written(";"), Dropped];
    assert_eq!(history("divert;m4exit(3)b", &Setting::ample()), (1, exit));
}

/// A refused step did nothing, and the wrap text that becomes pending is not written yet.
#[test]
fn what_a_refused_step_does_not_do() {
    let mut setting = Setting::ample();
    setting.lengths[6] = 2;
    let until = vec![written("ab")];
    assert_eq!(history("ab c", &setting), (4, until.clone()));
    assert_eq!(history("ab`", &Setting::ample()), (5, until.clone()));
    let until = [until, vec![written("")]].concat();
    assert_eq!(history("ab`'undivert(1,0)", &Setting::ample()), (7, until));
    let spent = Setting {
        budget: 4,
        ..Setting::ample()
    };
    assert_eq!(history("m4wrap(a)b", &spent), (3, vec![written("b")]));
}

/// "Number each byte when it is first placed in a stream 0 to 9": text that is discarded never is, and
/// text that is collected only once it is written.
#[test]
fn first_placed() {
    come_to(
        0,
        &[
            ("", "", &[], &[]),
            ("ab", "ab", &[0, 1], &[&[0], &[0]]),
            ("divert(-1)ab`'divert`'c", "c", &[0], &[&[0]]),
            ("divert(10)ab", "", &[], &[]),
            ("divert(2147483647)a`'divert(9)b", "b", &[0], &[&[9, 0]]),
            (
                "define(`f',`$1$1')f(`;'divert(4))",
                ";;",
                &[0, 1],
                &[&[4, 0], &[4, 0]],
            ),
            ("define(`f',`')f(`ab')c", "c", &[0], &[&[0]]),
            ("len(divert(3)ab)", "2", &[0], &[&[3, 0]]),
            ("m4wrap(`a')b", "ba", &[0, 1], &[&[0], &[0]]),
        ],
    );
}

/// Moves: "undivert moves text unscanned and skips the current stream"; the end.
#[test]
fn moves() {
    come_to(
        0,
        &[
            (
                "divert(1)ab`'divert`'undivert(1)c",
                "abc",
                &[0, 1, 2],
                &[&[1, 0], &[1, 0], &[0]],
            ),
            ("divert(1)a`'undivert(1)", "a", &[0], &[&[1, 0]]),
            ("divert(1)a`'undivert", "a", &[0], &[&[1, 0]]),
            (
                "divert(2)a`'divert(1)undivert(2)divert(2)undivert(1)",
                "a",
                &[0],
                &[&[2, 1, 2, 0]],
            ),
            (
                "divert(2)len(x)`'divert(3)undivert(2)divert`'undivert(2,3,2)",
                "1",
                &[0],
                &[&[2, 3, 0]],
            ),
            (
                "divert(9)a`'divert(1)b`'divert(5)c",
                "bca",
                &[1, 2, 0],
                &[&[9, 0], &[1, 0], &[5, 0]],
            ),
        ],
    );
}

/// "except the numbers that an undivert moved while a discarding stream was current; those it holds not
/// at all"
#[test]
fn lost_numbers() {
    come_to(
        0,
        &[
            ("divert(1)a`'divert(-1)undivert(1)", "", &[], &[&[1, -1]]),
            (
                "divert(1)a`'divert(2)undivert(1)b`'divert(10)undivert(1,2)divert(2)c",
                "c",
                &[2],
                &[&[1, 2, 10], &[2, 10], &[2, 0]],
            ),
            (
                "divert(1)a`'divert(3)b`'divert(-2147483648)undivert(3)divert(99)",
                "a",
                &[0],
                &[&[1, 0], &[3, i32::MIN]],
            ),
        ],
    );
}

/// "After m4exit the output holds exactly the numbers standing in stream 0, each once."
#[test]
fn after_m4exit() {
    come_to(
        1,
        &[
            ("m4exit", "", &[], &[]),
            ("a`'divert(1)b`'m4exit", "a", &[0], &[&[0], &[1]]),
            (
                "divert(1)a`'divert`'undivert(1)divert(1)b m4exit",
                "a",
                &[0],
                &[&[1, 0], &[1], &[1]],
            ),
            (
                "divert(1)a`'divert(2)undivert(1)m4exit",
                "",
                &[],
                &[&[1, 2]],
            ),
            (
                "a`'divert(1)b`'divert(-1)undivert(1)c`'m4exit(9)",
                "a",
                &[0],
                &[&[0], &[1, -1]],
            ),
        ],
    );
}

/// "Bytes placed in one stream that make every move together keep their order": of others nothing is
/// said.
#[test]
fn order() {
    come_to(
        0,
        &[
            // b is placed later, and moved with a
            (
                "divert(2)a`'divert(1)x`'divert(2)b`'divert(1)undivert(2)",
                "xab",
                &[1, 0, 2],
                &[&[2, 1, 0], &[1, 0], &[2, 1, 0]],
            ),
            // they meet only later
            (
                "divert(2)y`'divert(1)x`'undivert(2)",
                "xy",
                &[1, 0],
                &[&[2, 1, 0], &[1, 0]],
            ),
            // a is moved without b
            (
                "divert(2)a`'divert(3)undivert(2)divert(2)b",
                "ba",
                &[1, 0],
                &[&[2, 3, 0], &[2, 0]],
            ),
            // one route, each in a move of its own
            (
                "divert(2)a`'divert(1)undivert(2)divert(2)b`'divert(1)undivert(2)",
                "ab",
                &[0, 1],
                &[&[2, 1, 0], &[2, 1, 0]],
            ),
        ],
    );
}

/// The header of a mast, diverted and written out for each of them, is in the sheet once.
#[test]
fn the_header_of_another_mast() {
    let text = "define(`head',`divert(1)mast=$1;divert`'undivert(1)')head(7)head(8)";
    let (report, numbers) = ran(text);
    assert_eq!(report.output, b"mast=7;mast=8;");
    assert!(numbers.routes().iter().all(|route| route == &[1, 0]));
    assert_eq!(numbers.output(), Vec::from_iter(0..14));
}

fn random_cases(seed: u64, count: usize) -> impl Iterator<Item = Case> {
    let mut random = Random::new(seed);
    (0..count).map(move |i| match i % 2 {
        0 => case(&mut random, Scale::Small),
        _ => diversions::case(&mut random, Scale::Small),
    })
}

/// To record a history changes nothing, and no step does two things.
#[test]
fn recorded_runs() {
    for Case { text, set, setting } in random_cases(1, 3_000) {
        let (report, mut trace) = expand_recorded(&text, &set, &setting);
        assert_eq!(expand(&text, &set, &setting), report);
        assert!(trace.history.len() <= report.steps as usize);
        trace.history.clear();
        assert_eq!(expand_traced(&text, &set, &setting), (report, trace));
    }
}

/// Where all bytes that have a number differ, the output alone shows that each is there once, but for
/// those that were lost.
#[test]
fn different_bytes() {
    let (mut done, mut lost) = (0, 0);
    for Case { text, set, setting } in random_cases(2, 6_000) {
        let (report, trace) = expand_recorded(&text, &set, &setting);
        let bytes = Numbers::of(&trace.history).bytes;
        let mut all: Vec<u8> = bytes.iter().map(|byte| byte.value).collect();
        all.sort();
        all.dedup();
        if report.number != 0 || all.len() < bytes.len() || all.is_empty() {
            continue;
        }
        let kept = bytes.iter().filter(|byte| !byte.is_lost());
        let mut kept: Vec<u8> = kept.map(|byte| byte.value).collect();
        kept.sort();
        let mut output = report.output;
        output.sort();
        assert_eq!(output, kept, "{}", String::from_utf8_lossy(&text));
        done += 1;
        lost += usize::from(kept.len() < bytes.len());
    }
    assert!(done > 500 && lost > 50, "{done}, {lost}");
}
