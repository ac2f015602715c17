//! Request 1 of document 02, the house form of a set: "one byte of kind, then a body whose length the
//! kind fixes". Every set below is written by hand from the paper.

use model::answer::Refusal;
use model::house::{write, Item, Set};
use model::{expand, Report, Setting, NO_ITEMS, SET_LIMIT};

/// Reads a set that is good.
fn items(set: &[u8]) -> Vec<Item> {
    Set::read(set).expect("a good set").items
}

fn is_bad(set: &[u8]) -> bool {
    Set::read(set) == Err(Refusal::BadSet)
}

/// The 9 bytes that begin an item, with two short lengths.
fn head(name: u8, text: u8) -> Vec<u8> {
    vec![129, name, 0, 0, 0, text, 0, 0, 0]
}

/// A kind and its body, or several of them.
fn joined(parts: &[&[u8]]) -> Vec<u8> {
    parts.concat()
}

#[test]
fn a_set_of_no_items() {
    assert_eq!(NO_ITEMS, [0]);
    assert_eq!(items(&[0]), []);
}

#[test]
fn items_of_one_chunk() {
    let set = joined(&[&head(1, 2), b"\x03axy", b"\x00"]);
    assert_eq!(items(&set), [Item::new(b"a", b"xy")]);
    let set = joined(&[&head(1, 0), b"\x01a", &head(0, 2), b"\x02bc", b"\x00"]);
    assert_eq!(items(&set), [Item::new(b"a", b""), Item::new(b"", b"bc")]);
}

/// "Kinds 1 to 128 carry that many bytes, joined to the item begun last": none are needed for none.
#[test]
fn items_of_no_bytes() {
    let none = Item::new(b"", b"");
    assert_eq!(items(&joined(&[&head(0, 0), b"\x00"])), vec![none.clone()]);
    let set = joined(&[&head(0, 0), &head(0, 0), &head(1, 0), b"\x01a", b"\x00"]);
    assert_eq!(items(&set), [none.clone(), none, Item::new(b"a", b"")]);
}

/// "name and text, joined, follow in chunks, each full at 128 except the last".
#[test]
fn items_of_several_chunks() {
    let chunk = |count: usize, byte: u8| [vec![count as u8], vec![byte; count]].concat();
    // 128 bytes are one full chunk, and nothing follows
    let set = joined(&[&head(1, 127), &chunk(128, b'n'), b"\x00"]);
    assert_eq!(items(&set), [Item::new(b"n", &[b'n'; 127])]);
    // the 129th byte has a chunk of its own
    let set = joined(&[&head(1, 128), &chunk(128, b'n'), &chunk(1, b'x'), b"\x00"]);
    let text = [&[b'n'; 127][..], b"x"].concat();
    assert_eq!(items(&set), [Item::new(b"n", &text)]);
    // a name that fills the first chunk, and one that goes on in the second
    let set = joined(&[&head(128, 2), &chunk(128, b'n'), b"\x02xy", b"\x00"]);
    assert_eq!(items(&set), [Item::new(&[b'n'; 128], b"xy")]);
    let set = joined(&[&head(129, 2), &chunk(128, b'n'), b"\x03nxy", b"\x00"]);
    assert_eq!(items(&set), [Item::new(&[b'n'; 129], b"xy")]);
    let set = joined(&[
        &head(255, 2),
        &chunk(128, b'n'),
        &chunk(128, b'n'),
        b"\x01x",
        b"\x00",
    ]);
    assert_eq!(items(&set), [Item::new(&[b'n'; 255], b"nx")]);
}

/// "32-bit, least byte first".
#[test]
fn lengths_of_four_bytes() {
    let text = vec![b't'; 0x1_0203];
    let set = write(&[Item::new(b"a", &text)]);
    assert_eq!(set[..9], [129, 1, 0, 0, 0, 3, 2, 1, 0]);
    assert_eq!(items(&set), [Item::new(b"a", &text)]);
}

/// "Kind 0 ends the set, with nothing after it."
#[test]
fn the_end() {
    let whole = joined(&[&head(1, 1), b"\x02ax"]);
    assert!(is_bad(b""));
    assert!(is_bad(&whole));
    assert!(!is_bad(&joined(&[&whole, b"\x00"])));
    assert!(is_bad(&joined(&[&whole, b"\x00\x00"])));
    assert!(is_bad(b"\x00\x00"));
    assert!(is_bad(&joined(&[b"\x00", &whole, b"\x00"])));
    // before all bytes of an item are there
    assert!(is_bad(&joined(&[&head(1, 1), b"\x00"])));
    assert!(is_bad(&joined(&[&head(1, 1), b"\x01a\x00"])));
}

#[test]
fn chunks_of_no_item() {
    assert!(is_bad(b"\x01a\x00"));
    assert!(is_bad(&joined(&[b"\x01a", &head(0, 0), b"\x00"])));
    assert!(is_bad(&joined(&[&head(0, 0), b"\x01a\x00"])));
    assert!(is_bad(&joined(&[
        &head(1, 1),
        b"\x02ax",
        b"\x01y",
        b"\x00"
    ])));
}

/// A set has one form: every chunk carries all that it can.
#[test]
fn chunks_of_another_length() {
    assert!(is_bad(&joined(&[&head(1, 1), b"\x01a", b"\x01x", b"\x00"])));
    assert!(is_bad(&joined(&[&head(1, 0), b"\x02ax", b"\x00"])));
    let many = [b'n'; 128];
    let one_too_few = joined(&[&head(2, 127), b"\x7f", &many[..127], b"\x02nx", b"\x00"]);
    assert!(is_bad(&one_too_few));
    // more than 128 bytes in one chunk would be another kind
    assert!(is_bad(&joined(&[
        &head(1, 128),
        b"\x81",
        &many,
        b"x",
        b"\x00"
    ])));
}

#[test]
fn an_item_in_an_item() {
    let set = joined(&[&head(1, 1), &head(0, 0), b"\x02ax", b"\x00"]);
    assert!(is_bad(&set));
    let set = joined(&[
        &head(2, 127),
        b"\x80",
        &[b'n'; 128],
        &head(0, 0),
        b"\x01x\x00",
    ]);
    assert!(is_bad(&set));
}

/// Kinds 130 and 131 belong to the tables of request 10.
#[test]
fn other_kinds() {
    for kind in 130..=255 {
        let body = [&[kind][..], &[0; 9], b"\x00"].concat();
        assert!(is_bad(&body), "{kind}");
        assert!(is_bad(&joined(&[&head(0, 0), &[kind], b"\x00"])), "{kind}");
        assert!(is_bad(&joined(&[&head(1, 0), &[kind], b"a\x00"])), "{kind}");
    }
}

/// A set that is cut anywhere is bad, and so is what is left of it, but for its end.
#[test]
fn every_cut() {
    let set = write(&[
        Item::new(b"a", b"text"),
        Item::new(b"", b""),
        Item::new(&[b'n'; 130], b"xyz"),
    ]);
    assert!(!is_bad(&set));
    for at in 0..set.len() {
        assert!(is_bad(&set[..at]), "{at}");
    }
    let good = |at: &usize| !is_bad(&set[*at..]);
    // the whole, the other two items, the last item, and the end
    let (second, third) = (9 + 6, 9 + 6 + 9);
    let places: Vec<usize> = (0..set.len()).filter(good).collect();
    assert_eq!(places, [0, second, third, set.len() - 1]);
}

/// The sum of the lengths is not taken in 32 bits, in which these bytes would be all.
#[test]
fn lengths_that_add_up_to_more() {
    const HALF: u32 = 1 << 31;
    let cases: [([u32; 2], &[u8]); 6] = [
        ([u32::MAX, 1], b""),
        ([1, u32::MAX], b""),
        ([HALF, HALF], b""),
        ([u32::MAX, 3], b"\x02ab"),
        ([3, u32::MAX], b"\x02ab"),
        ([HALF + 1, HALF + 1], b"\x02ab"),
    ];
    for ([name, text], chunks) in cases {
        let lengths = [name.to_le_bytes(), text.to_le_bytes()].concat();
        let set = joined(&[b"\x81", &lengths, chunks, b"\x00"]);
        assert!(is_bad(&set), "{name} and {text}");
        assert_eq!(
            name.wrapping_add(text),
            chunks.len().saturating_sub(1) as u32
        );
    }
}

/// "The set may have up to 1,048,576 bytes".
#[test]
fn the_longest_set() {
    // 9 bytes, then chunks of 129 with their kinds, and the end
    let chunks = (SET_LIMIT - 10) / 129;
    let full = |joined: usize| write(&[Item::new(b"a", &vec![b'x'; joined - 1])]);
    let longest = full(SET_LIMIT - 10 - chunks - 1);
    assert_eq!(longest.len(), SET_LIMIT);
    assert!(!is_bad(&longest));
    let overlong = full(SET_LIMIT - 10 - chunks);
    assert_eq!(overlong.len(), SET_LIMIT + 1);
    assert!(is_bad(&overlong));
}

/// What is written is read again.
#[test]
fn there_and_back() {
    let lengths = [0, 1, 2, 127, 128, 129, 255, 256, 257, 1_000];
    for name in lengths {
        for text in lengths {
            let item = Item::new(&vec![b'n'; name], &vec![b't'; text]);
            let all = [item.clone(), Item::new(b"", b""), item];
            assert_eq!(items(&write(&all)), all);
        }
    }
}

#[test]
fn the_first_of_two_counts() {
    let set = Set {
        items: vec![
            Item::new(b"ab", b"1"),
            Item::new(b"a", b""),
            Item::new(b"a", b"2"),
            Item::new(b"", b"3"),
        ],
    };
    assert_eq!(set.text_of(b"a"), Some(&b""[..]));
    assert_eq!(set.text_of(b"ab"), Some(&b"1"[..]));
    assert_eq!(set.text_of(b""), Some(&b"3"[..]));
    assert_eq!(set.text_of(b"b"), None);
    assert_eq!(set.text_of(b"a "), None);
    assert_eq!(set.text_of(b"abc"), None);
}

fn refused(number: u32) -> Report {
    Report {
        number,
        detail: 0,
        steps: 0,
        place: 0,
        output: Vec::new(),
        errors: Vec::new(),
    }
}

/// 14 comes "right after 2" and before the first step, whether anything is included or not.
#[test]
fn when_a_bad_set_is_refused() {
    let whole = joined(&[&head(1, 1), b"\x02ax", b"\x00"]);
    let later = joined(&[&whole[..whole.len() - 1], &head(1, 1), b"\x02b", b"\x00"]);
    for set in [&b""[..], b"\x00\x00", &later] {
        for text in ["", "a", "`", "include(a)", "m4exit"] {
            for budget in [0, 1, 100] {
                let setting = Setting {
                    lengths: [0; 7],
                    budget,
                };
                let got = expand(text.as_bytes(), set, &setting);
                assert_eq!(got, refused(14), "{text} with {set:?}");
            }
        }
        let mut long = Setting::ample();
        long.lengths[4] = 65_537;
        assert_eq!(expand(b"a", set, &long), refused(2));
        let text = vec![b'a'; 65_537];
        assert_eq!(expand(&text, set, &Setting::ample()), refused(2));
    }
    let got = expand(b"a", &whole, &Setting::ample());
    assert_eq!((got.number, got.output), (0, b"a".to_vec()));
}
