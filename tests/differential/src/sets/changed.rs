//! Good sets, and what becomes of them if a byte is changed, goes or comes.

use model::house::{write, Item};

/// Bytes that are kinds, or nearly.
const KINDS: [u8; 14] = [0, 1, 2, 3, 64, 126, 127, 128, 129, 130, 131, 132, 254, 255];
/// Bytes that begin what may be put in anywhere.
const PUT_IN: [u8; 4] = [0, 1, 128, 129];

/// Sets of no item, of one and of more, with items of no bytes, with names that are given twice, and
/// of one, two and three chunks.
pub fn good() -> Vec<Vec<u8>> {
    let item = Item::new;
    let sets = [
        vec![],
        vec![item(b"a", b"x")],
        vec![item(b"a", b"[include(b)]"), item(b"b", b"y,z")],
        vec![item(b"", b""), item(b"a", b""), item(b"a", b"later")],
        vec![item(b"", b""), item(b"", b""), item(b"ab", b"")],
        vec![item(b"b", &[b'.'; 126]), item(b"", b"e")],
        vec![item(b"ab", &[b'-'; 126])],
        vec![item(b"b", b"c"), item(b"a", &[b'+'; 128])],
        vec![item(b"ab", &[b'/'; 255]), item(b"b", b"d")],
    ];
    sets.iter().map(|items| write(items)).collect()
}

/// Each byte of a set with other values: all kinds, and those near its own.
pub fn with_a_byte_changed(set: &[u8]) -> Vec<Vec<u8>> {
    let near = |byte: u8| {
        let steps = [1, 255, 16, 240, 128];
        steps.map(|step| byte.wrapping_add(step))
    };
    let values = |byte: u8| near(byte).into_iter().chain(KINDS);
    at_each(set, |at| {
        let other = values(set[at]).filter(|&value| value != set[at]);
        other.map(|value| spliced(set, at, 1, &[value])).collect()
    })
}

/// Each byte of a set removed, doubled and swapped with the next, and others put before it.
pub fn with_a_byte_moved(set: &[u8]) -> Vec<Vec<u8>> {
    at_each(set, |at| {
        let byte = set[at];
        let mut sets = vec![spliced(set, at, 1, &[]), spliced(set, at, 0, &[byte])];
        if let Some(&next) = set.get(at + 1) {
            sets.push(spliced(set, at, 2, &[next, byte]));
        }
        sets.extend(PUT_IN.map(|other| spliced(set, at, 0, &[other])));
        sets
    })
}

/// A set up to each of its bytes, and from each of them on; and with bytes behind it.
pub fn cut(set: &[u8]) -> Vec<Vec<u8>> {
    let mut sets = at_each(set, |at| vec![set[..at].to_vec(), set[at..].to_vec()]);
    sets.extend(PUT_IN.map(|other| [set, &[other]].concat()));
    sets
}

fn at_each(set: &[u8], sets: impl Fn(usize) -> Vec<Vec<u8>>) -> Vec<Vec<u8>> {
    (0..set.len()).flat_map(sets).collect()
}

/// A set with other bytes in the place of some.
fn spliced(set: &[u8], at: usize, count: usize, bytes: &[u8]) -> Vec<u8> {
    [&set[..at], bytes, &set[at + count..]].concat()
}
