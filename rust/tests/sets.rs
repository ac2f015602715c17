//! Sets: the bytes that `Set` makes, as 02 says them; what the library finds in them; and where the reader finds one bad.

mod common;

use common::run_with;
use quenhovach::set::{items, Fault, Flaw, TooLong};
use quenhovach::{Answer, Set, BUDGET, EMPTY_SET, LONGEST, LONGEST_SET};

const AMPLE: [usize; 7] = [LONGEST; 7];

/// So many bytes, none of them like the one before.
fn pattern(length: usize) -> Vec<u8> {
    (0..length).map(|n| (n % 251) as u8).collect()
}

/// The names and texts of a good set.
fn listed(set: &[u8]) -> Vec<(Vec<u8>, Vec<u8>)> {
    let good = items(set).map(|item| item.expect("it is good"));
    good.map(|item| (item.name().collect(), item.text().collect()))
        .collect()
}

#[test]
fn the_bytes_are_those_of_the_form() {
    assert_eq!(Set::new().as_bytes(), [0]);
    assert_eq!(Set::new().as_bytes(), EMPTY_SET);
    let one = Set::of([("a", "xy")]).expect("it fits");
    assert_eq!(one.as_bytes(), b"\x81\x01\0\0\0\x02\0\0\0\x03axy\0");
    let two = Set::of([(&b""[..], &b""[..]), (b"\xff", b"\n")]).expect("they fit");
    let expected = b"\x81\0\0\0\0\0\0\0\0\x81\x01\0\0\0\x01\0\0\0\x02\xff\n\0";
    assert_eq!(two.as_bytes(), expected);
}

#[test]
fn chunks_are_full_but_the_last() {
    for (joined, sizes) in [
        (0, &[][..]),
        (1, &[1]),
        (127, &[127]),
        (128, &[128]),
        (129, &[128, 1]),
        (255, &[128, 127]),
        (256, &[128, 128]),
        (257, &[128, 128, 1]),
    ] {
        let bytes = pattern(joined);
        for name in [0, 1, 126, 127, 128, 129, joined] {
            let Some((name, text)) = bytes.split_at_checked(name) else {
                continue;
            };
            let mut expected = vec![129];
            expected.extend((name.len() as u32).to_le_bytes());
            expected.extend((text.len() as u32).to_le_bytes());
            let mut rest = &bytes[..];
            for &size in sizes {
                let (chunk, behind) = rest.split_at(size);
                expected.push(size as u8);
                expected.extend(chunk);
                rest = behind;
            }
            expected.push(0);
            let set = Set::of([(name, text)]).expect("it fits");
            assert_eq!(set.as_bytes(), expected, "{joined} {}", name.len());
            assert_eq!(listed(&expected), [(name.to_vec(), text.to_vec())]);
        }
    }
}

#[test]
fn the_library_finds_what_was_put_in() {
    for length in [0, 1, 127, 128, 129, 255, 256, 1000, LONGEST] {
        for name in ["", "n", &"n".repeat(126), &"n".repeat(130)] {
            let text = vec![b'%'; length];
            let set = Set::of([("other", &b"no"[..]), (name, &text)]).expect("they fit");
            let call = format!("include({name})");
            let run = run_with(call.as_bytes(), set.as_bytes(), AMPLE, BUDGET);
            assert_eq!(run.report.answer, Answer::Done, "{length} {name}");
            assert_eq!(run.written(), (&b""[..], &text[..]), "{length} {name}");
            assert!(run.leaves_the_rest_alone());
        }
    }
}

#[test]
fn the_first_of_two_counts() {
    let set = Set::of([("a", ""), ("b", "1"), ("a", "2"), ("b", "3")]).expect("they fit");
    assert_eq!(listed(set.as_bytes()).len(), 4);
    assert_eq!(set.get("a"), Some(Vec::new()));
    assert_eq!(set.get("b"), Some(b"1".to_vec()));
    assert_eq!(set.get(""), None);
    let text = b"include(a)-include(b)-sinclude(c)";
    let run = run_with(text, set.as_bytes(), AMPLE, BUDGET);
    assert_eq!(run.written(), (&b""[..], &b"-1-"[..]));
}

#[test]
fn what_would_not_fit_is_refused() {
    // The longest text beside a name of one byte: the end takes a byte, the head 9, and of 129 bytes a chunk takes 128.
    let joined = (LONGEST_SET - 10) * 128 / 129;
    let longest = vec![b'x'; joined - 1];
    let set = Set::of([("a", &longest)]).expect("it fits just");
    assert_eq!(set.as_bytes().len(), LONGEST_SET);
    assert_eq!(
        run_with(b"b", set.as_bytes(), AMPLE, BUDGET).report.answer,
        Answer::Done
    );

    let mut full = set.clone();
    let refused = full.add("", "");
    assert_eq!(
        refused,
        Err(TooLong {
            length: LONGEST_SET + 9
        })
    );
    assert_eq!(full, set, "it is as it was");
    let error: Box<dyn std::error::Error> = refused.unwrap_err().into();
    let said = "the set would have 1048585 bytes, and may have 1048576";
    assert_eq!(error.to_string(), said);
    let one_more = Set::of([("ab", &longest)]).map(|_| ());
    let length = LONGEST_SET + 1;
    assert_eq!(one_more, Err(TooLong { length }));

    let mut overlong = set.as_bytes().to_vec();
    overlong.insert(LONGEST_SET - 1, 129);
    let run = run_with(b"b", &overlong, AMPLE, BUDGET);
    assert_eq!(run.report.numbers(), [14, 0, 0, 0, 0, 0]);
    assert!(run.leaves_the_rest_alone());
}

#[test]
fn a_bad_set_is_bad_where_the_reader_says() {
    let item = |lengths: [u8; 2], rest: &[u8]| {
        let [name, text] = lengths;
        [&[129, name, 0, 0, 0, text, 0, 0, 0], rest].concat()
    };
    let size = |is, due| Flaw::Size { is, due };
    let wraps = b"\x81\xff\xff\xff\xff\x01\0\0\0\0".to_vec();
    let short_before_last = [&[129, 0, 0, 0, 0, 129, 0, 0, 0, 127], &[b'x'; 130][..]].concat();
    for (set, place, flaw) in [
        (b"".to_vec(), 0, Flaw::NoEnd),
        (b"\0\0".to_vec(), 1, Flaw::Behind),
        (b"\x82\xff\xff\xff\x07\0".to_vec(), 0, Flaw::Kind(130)),
        (b"\xff".to_vec(), 0, Flaw::Kind(255)),
        (b"\x01a\0".to_vec(), 0, Flaw::NotDue),
        (item([0, 0], b""), 9, Flaw::NoEnd),
        (item([0, 0], b"\x01a\0"), 9, Flaw::NotDue),
        (item([1, 0], b"\x01a\0?"), 12, Flaw::Behind),
        (item([1, 1], b"\x02ab"), 12, Flaw::NoEnd),
        (item([1, 1], b"\x02a"), 11, Flaw::CutOff),
        (item([1, 1], b""), 9, Flaw::CutOff),
        (b"\x81\x01\0\0".to_vec(), 4, Flaw::CutOff),
        (item([1, 1], b"\x01a\0"), 9, size(1, 2)),
        (item([2, 0], b"\x01a\x01b\0"), 9, size(1, 2)),
        (item([1, 0], b"\x02ab\0"), 9, size(2, 1)),
        (item([1, 0], b"\0"), 9, Flaw::Missing(1)),
        (item([1, 0], b"\x81"), 9, Flaw::Missing(1)),
        (item([1, 0], b"\x82"), 9, Flaw::Kind(130)),
        (wraps, 9, Flaw::Missing(128)),
        (short_before_last, 9, size(127, 128)),
        (vec![0; LONGEST_SET + 1], LONGEST_SET, Flaw::TooLong),
    ] {
        let found = items(&set).last().expect("something comes");
        assert_eq!(
            found,
            Err(Fault { place, flaw }),
            "{:?}",
            &set[..9.min(set.len())]
        );
        let run = run_with(b"a", &set, AMPLE, BUDGET);
        assert_eq!(run.report.numbers(), [14, 0, 0, 0, 0, 0], "{flaw}");
        assert!(run.leaves_the_rest_alone());
    }
}

#[test]
fn faults_are_told() {
    let told = |set: &[u8]| {
        items(set)
            .find_map(Result::err)
            .map(|fault| fault.to_string())
    };
    assert_eq!(told(b"\0"), None);
    for (set, words) in [
        (&b""[..], "byte 0: the set ends without its end, a byte 0"),
        (b"\0\0", "byte 1: there is more behind the end of the set"),
        (b"\x81", "byte 1: the set ends within an item"),
        (b"\x90", "byte 0: there is no kind 144 in a set"),
        (b"\x05", "byte 0: a chunk where an item or the end is due"),
        (
            b"\x81\x01\0\0\0\0\0\0\0\0",
            "byte 9: a chunk of 1 bytes is missing",
        ),
    ] {
        assert_eq!(told(set).as_deref(), Some(words));
    }
    assert_eq!(
        told(&vec![0; LONGEST_SET + 1]).as_deref(),
        Some("byte 1048576: the set has more than 1048576 bytes")
    );
}

#[test]
fn what_is_shown_of_it_is_short() {
    let set = Set::of([("a", "xy"), ("b", "")]).expect("they fit");
    assert_eq!(format!("{set:?}"), "Set { items: 2, bytes: 25, .. }");
}
