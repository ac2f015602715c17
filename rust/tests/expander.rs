//! An `Expander` gives what the slices give, again and again, and takes nothing from the heap for it; and a template that ends in
//! `m4exit` with another number than 0 can't be taken for a success.

mod common;

use common::{run, run_with};
use quenhovach::{
    expand_to_vec, Answer, Buffer, Expander, Failure, Opened, Set, Written, BUDGET, LONGEST,
};
use std::alloc::{GlobalAlloc, Layout, System};
use std::cell::Cell;

/// The system's heap, with a count of what this thread takes from it.
struct Counting;

thread_local! {
    static TAKEN: Cell<usize> = const { Cell::new(0) };
}

// SAFETY: all is left to the system's heap.
unsafe impl GlobalAlloc for Counting {
    unsafe fn alloc(&self, layout: Layout) -> *mut u8 {
        TAKEN.set(TAKEN.get() + 1);
        System.alloc(layout)
    }

    unsafe fn dealloc(&self, memory: *mut u8, layout: Layout) {
        System.dealloc(memory, layout)
    }
}

#[global_allocator]
static HEAP: Counting = Counting;

/// What the work gives, and how often it took something from the heap.
fn counted<T>(work: impl FnOnce() -> T) -> (T, usize) {
    let before = TAKEN.get();
    let done = work();
    (done, TAKEN.get() - before)
}

/// Texts that end in each way that matters here, one behind the other.
const TEXTS: [&[u8]; 8] = [
    b"define(`n',`5')n",
    b"n",
    b"errprint(`a long error text')a long output",
    b"`",
    b"divert(1)b`'divert`'a",
    b"errprint(`e')x`'m4exit(3)",
    b"m4exit`'x",
    b"",
];

#[test]
fn a_call_gives_what_the_slices_give_whatever_came_before() {
    let mut expander = Expander::new();
    for text in TEXTS.into_iter().chain(TEXTS.into_iter().rev()) {
        let expected = run(text, [LONGEST; 7], BUDGET);
        assert!(expected.leaves_the_rest_alone());
        assert_eq!(expander.run(text), expected.report);
        assert_eq!((expander.errors(), expander.output()), expected.written());
    }
}

/// What an expander takes from the heap at the start: seven buffers, and the lines of a sheet.
const MADE: usize = 8;

#[test]
fn a_call_takes_nothing_from_the_heap() {
    let (mut expander, made) = counted(Expander::new);
    assert_eq!(made, MADE, "the count counts");
    for text in TEXTS {
        assert_eq!(counted(|| expander.run(text)).1, 0);
        assert_eq!(counted(|| expander.run_sheet(text)).1, 0);
        let (ended, taken) = counted(|| expander.expand(text).is_ok());
        let copied = matches!(expander.run(text).answer, Answer::Exit(1..));
        assert_eq!(taken > 0, copied, "only the text that goes with an error");
        assert_eq!(ended, !copied && text != b"`");
    }
}

#[test]
fn a_set_is_kept_and_not_copied() {
    let set = Set::of([("n", "define(`n',`5')")]).expect("it fits");
    let mut expander = Expander::new().with_set(set.clone());
    for text in [&b"include(`n')n"[..], b"sinclude(`m')n", b"include(`n')n"] {
        let expected = run_with(text, set.as_bytes(), [LONGEST; 7], BUDGET);
        let (report, taken) = counted(|| expander.run(text));
        assert_eq!((report, taken), (expected.report, 0));
        assert_eq!((expander.errors(), expander.output()), expected.written());
    }
    let mut without = expander.with_set(quenhovach::EMPTY_SET);
    assert_eq!(without.run(b"include(`n')n").answer, Answer::NoItem);
    let made = counted(|| Expander::new().with_set(b"\0")).1;
    assert_eq!(made, MADE, "static bytes are not copied");
}

#[test]
fn room_and_budget_are_as_chosen() {
    let text = b"define(`n',`5')n";
    let needed = [1, 8, 2, 0, 0, 0, 1];
    let least = || {
        let rooms = Buffer::ALL.into_iter().zip(needed);
        rooms.fold(Expander::new().with_budget(8), |e, (b, n)| {
            e.with_room(b, n)
        })
    };
    let mut expander = least();
    assert_eq!(expander.run(text).numbers(), [0, 0, 8, 16, 1, 0]);
    assert_eq!(expander.output(), b"5");
    assert_eq!(least().with_budget(7).run(text).answer, Answer::Spent);
    for (buffer, bytes) in Buffer::ALL.into_iter().zip(needed) {
        if bytes > 0 {
            let answer = least().with_room(buffer, bytes - 1).run(text).answer;
            assert_eq!(answer, Answer::Room(buffer));
        }
        let answer = least().with_room(buffer, LONGEST + 1).run(text).answer;
        assert_eq!(answer, Answer::Lend);
    }
}

#[test]
fn what_was_written_is_gone_with_its_room() {
    let mut expander = Expander::new();
    assert_eq!((expander.output(), expander.errors()), (&b""[..], &b""[..]));
    expander.run(b"errprint(`e')x");
    assert_eq!(
        (expander.output(), expander.errors()),
        (&b"x"[..], &b"e"[..])
    );
    let expander = expander.with_room(Buffer::Output, 0);
    assert_eq!((expander.output(), expander.errors()), (&b""[..], &b""[..]));
}

#[test]
fn only_done_and_exit_0_are_a_success() {
    let mut expander = Expander::new();
    for (text, output) in [(&b"x"[..], &b"x"[..]), (b"x`'m4exit(0)y", b"x")] {
        let Written {
            output: got,
            report,
            ..
        } = expander.expand(text).expect("a success");
        assert_eq!((got, report.output), (output, 1));
        assert_eq!(expand_to_vec(text).expect("a success").output, output);
    }
    for code in [1, 3, 255] {
        let text = format!("errprint(` e\n')x`'m4exit({code})y");
        let Err(Failure::Exit(expansion)) = expander.expand(text.as_bytes()) else {
            panic!("m4exit({code}) is no success");
        };
        assert_eq!(
            (&expansion.output[..], &expansion.errors[..]),
            (&b"x"[..], &b" e\n"[..])
        );
        assert_eq!(expansion.exit_code(), Some(code));
        let failure = expand_to_vec(text.as_bytes()).expect_err("no success");
        assert_eq!(failure, Failure::Exit(expansion));
        let said = format!("the template ended with m4exit({code}): e");
        assert_eq!(failure.to_string(), said);
    }
    let failure = expand_to_vec(b"m4exit(1)").expect_err("no success");
    assert_eq!(failure.to_string(), "the template ended with m4exit(1)");
}

#[test]
fn a_refusal_is_an_error_without_text() {
    let mut expander = Expander::new();
    expander.run(b"errprint(`e')x");
    let failure = expander.expand(b"x`").expect_err("a quote is open");
    assert_eq!(failure.report().answer, Answer::Unclosed(Opened::Quote));
    assert_eq!((expander.output(), expander.errors()), (&b""[..], &b""[..]));
    let refusal = expander.run(b"x`").finished().expect_err("it is refused");
    assert_eq!(failure, Failure::from(refusal));
    let error: Box<dyn std::error::Error + Send + Sync> = failure.into();
    assert_eq!(
        error.to_string(),
        "a quote is not closed (place 1, after 1 steps)"
    );
}

#[test]
fn what_is_shown_of_them_is_short() {
    let expansion = expand_to_vec(b"errprint(`e')x\n").expect("a success");
    let shown = format!("{expansion:?}");
    assert!(
        shown.starts_with(
            r#"Expansion { output: "x\n", errors: "e", report: Report { answer: Done, "#
        ),
        "{shown}"
    );
    let shown = format!("{:?}", Expander::new().with_room(Buffer::Wrap, 7));
    assert_eq!(
        shown,
        "Expander { room: [65536, 65536, 65536, 65536, 7, 65536, 65536], budget: 16777216, set: 1, .. }"
    );
}
