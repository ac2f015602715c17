//! How a run leaves the seven lent buffers, and what its trace counts.

use model::predefined::Predefined;
use model::{expand_buffers, expand_traced, Setting, NO_ITEMS};

fn lent(lengths: [usize; 7]) -> [Vec<u8>; 7] {
    lengths.map(|length| vec![0xa5; length])
}

#[test]
fn done_and_exit_write_from_the_front() {
    for (text, number) in [("errprint(xy)ab", 0), ("errprint(xy)ab m4exit", 1)] {
        let mut buffers = lent([20; 7]);
        let numbers = expand_buffers(text.as_bytes(), NO_ITEMS, &mut buffers, 1_000);
        let written = if number == 0 { &b"ab"[..] } else { b"ab " };
        assert_eq!(numbers[0], number);
        assert_eq!(numbers[4..], [written.len() as u32, 2]);
        assert!(buffers[..5].iter().all(|buffer| buffer == &[0; 20]));
        assert_eq!(buffers[5], [&b"xy"[..], &[0xa5; 18]].concat());
        assert_eq!(
            buffers[6],
            [written, &vec![0xa5; 20 - written.len()]].concat()
        );
    }
}

#[test]
fn a_refusal_writes_no_text() {
    for (text, budget, number) in [
        ("errprint(xy)ab`", 1_000, 5),
        ("abcdefgh", 1, 3),
        ("errprint(xyz)", 1_000, 4),
    ] {
        let mut buffers = lent([20, 20, 20, 20, 20, 2, 20]);
        let numbers = expand_buffers(text.as_bytes(), NO_ITEMS, &mut buffers, budget);
        assert_eq!((numbers[0], numbers[4], numbers[5]), (number, 0, 0));
        assert!(buffers[..5].iter().flatten().all(|&byte| byte == 0));
        assert!(buffers[5..].iter().flatten().all(|&byte| byte == 0xa5));
    }
}

#[test]
fn lend_writes_nothing() {
    let mut buffers = lent([1, 1, 1, 65_537, 1, 1, 1]);
    let numbers = expand_buffers(b"a", NO_ITEMS, &mut buffers, 0);
    assert_eq!(numbers, [2, 0, 0, 0, 0, 0]);
    assert!(buffers.iter().flatten().all(|&byte| byte == 0xa5));
    let mut buffers = lent([1; 7]);
    let numbers = expand_buffers(&[b'a'; 65_537], NO_ITEMS, &mut buffers, 0);
    assert_eq!(numbers, [2, 0, 0, 0, 0, 0]);
    assert!(buffers.iter().flatten().all(|&byte| byte == 0xa5));
}

/// 01: zero "except with 2, which writes nothing". A bad set is refused before the first step, and 2
/// comes before it.
#[test]
fn a_bad_set_zeroes_the_working_buffers() {
    for set in [&b""[..], b"\x00\x00", &[0; 1_048_577]] {
        let mut buffers = lent([2; 7]);
        let numbers = expand_buffers(b"errprint(e)a", set, &mut buffers, 0);
        assert_eq!(numbers, [14, 0, 0, 0, 0, 0]);
        assert!(buffers[..5].iter().all(|buffer| buffer == &[0; 2]));
        assert!(buffers[5..].iter().all(|buffer| buffer == &[0xa5; 2]));
        let mut buffers = lent([2, 2, 2, 2, 2, 2, 65_537]);
        let numbers = expand_buffers(b"a", set, &mut buffers, 0);
        assert_eq!(numbers, [2, 0, 0, 0, 0, 0]);
        assert!(buffers.iter().flatten().all(|&byte| byte == 0xa5));
    }
}

#[test]
fn the_longest_text() {
    let report = model::expand(&[b'-'; 65_536], NO_ITEMS, &Setting::ample());
    assert_eq!(
        (report.number, report.steps, report.place),
        (0, 65_537, 65_536)
    );
    assert_eq!(report.output.len(), 65_536);
}

#[test]
fn results_that_are_not_built() {
    let ample = Setting::ample();
    for (text, number, detail) in [
        ("eval(1,10,2147483647)", 4, 1),
        ("eval(1/0,10,2147483647)", 9, 0),
        ("eval(-1,10,65536)", 4, 1),
    ] {
        let report = model::expand(text.as_bytes(), NO_ITEMS, &ample);
        assert_eq!((report.number, report.detail), (number, detail), "{text}");
    }
}

#[test]
fn calls_of_completed_steps_are_counted() {
    let (_, trace) = expand_traced(
        b"len(len(a))len divnum`'define(`len',`x')len(b)incr(x)",
        NO_ITEMS,
        &Setting::ample(),
    );
    let calls = |which: Predefined| trace.calls[which as usize];
    assert_eq!(calls(Predefined::Len), 2);
    assert_eq!(calls(Predefined::Divnum), 1);
    assert_eq!(calls(Predefined::Define), 1);
    assert_eq!(calls(Predefined::Incr), 0);
    assert_eq!(trace.calls.iter().sum::<u64>(), 4);
}

/// Neither a plain word nor a name that a text covers is a call of a predefined macro.
#[test]
fn plain_words_are_no_calls() {
    let (report, trace) = expand_traced(
        b"len eval(1) incr pushdef(len,`x')len len(b);len( divnum eval);popdef(`len')len",
        NO_ITEMS,
        &Setting::ample(),
    );
    assert_eq!(report.output, b"len 1 incr x x;x;len");
    let calls = |which: Predefined| trace.calls[which as usize];
    assert_eq!(calls(Predefined::Eval), 1);
    assert_eq!(calls(Predefined::Pushdef), 1);
    assert_eq!(calls(Predefined::Divnum), 1);
    assert_eq!(calls(Predefined::Popdef), 1);
    assert_eq!(trace.calls.iter().sum::<u64>(), 4);
}

#[test]
fn peaks_are_what_a_text_needs() {
    let (_, trace) = expand_traced(b"define(`n',`5')n", NO_ITEMS, &Setting::ample());
    assert_eq!(trace.peaks, [1, 8, 2, 0, 0, 0, 1]);
}
