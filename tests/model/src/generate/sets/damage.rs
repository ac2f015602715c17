//! Ways to damage a set: bytes that change, go or come, lengths and chunks that are not what they
//! should be, and kinds that no set has. Few of them leave a good set, another one.

use crate::house::{write_chunks, write_item, Item, FULL};
use crate::random::Random;

/// Bytes that are kinds, or nearly.
const KINDS: [u8; 10] = [0, 1, 2, 127, 128, 129, 130, 131, 132, 255];

/// Damages the set of these items.
pub fn damage(random: &mut Random, items: &[Item], set: &mut Vec<u8>) {
    match random.below(12) {
        0..=4 => change_bytes(random, set),
        5..=6 if !items.is_empty() => *set = with_other_lengths(random, items),
        7..=8 if !items.is_empty() => *set = with_other_chunks(random, items),
        _ => change_pieces(random, set),
    }
}

/// Changes, drops or adds bytes anywhere.
fn change_bytes(random: &mut Random, set: &mut Vec<u8>) {
    let at = random.below(set.len());
    let kind = random.pick(&KINDS);
    match random.below(10) {
        0 => set[at] ^= 1 << random.below(8),
        1 => set[at] = set[at].wrapping_add(1),
        2 => set[at] = set[at].wrapping_sub(1),
        3 => set[at] = kind,
        4..=5 => set.truncate(at),
        6 => drop(set.remove(at)),
        7 => set.insert(at, kind),
        8 => set.push(kind),
        _ => drop(set.drain(..at)),
    }
}

/// Lengths that are not those of the bytes behind them: by one, or by 2^32 together.
fn with_other_lengths(random: &mut Random, items: &[Item]) -> Vec<u8> {
    let wrong = random.below(items.len());
    with_one(items, wrong, |item, set| {
        let [name, text] = item.lengths();
        let more = random.pick(&[1, 1, 127, 128, 256, 1 << 31]);
        let lengths = match random.below(10) {
            0 => [name.wrapping_add(more), text],
            1 => [name, text.wrapping_add(more)],
            2 => [name.wrapping_sub(1), text],
            3 => [name, text.wrapping_sub(1)],
            4 => [text, name],
            // the sum of these is the right one, in 32 bits or anyhow
            5..=6 => [name.wrapping_add(more), text.wrapping_sub(more)],
            _ => [name.wrapping_sub(more), text.wrapping_add(more)],
        };
        write_item(set, lengths, &item.joined());
    })
}

/// Chunks that are not full, overfull, missing, or one too many.
fn with_other_chunks(random: &mut Random, items: &[Item]) -> Vec<u8> {
    let wrong = random.below(items.len());
    with_one(items, wrong, |item, set| {
        let joined = item.joined();
        let (front, back) = joined.split_at(random.below(joined.len() + 1));
        write_item(set, item.lengths(), b"");
        match random.below(5) {
            0 => write_chunks(set, front, FULL),
            1 => write_parts(set, &[front, back]),
            2 => write_chunks(set, &joined, random.pick(&[1, 127, 127])),
            3 => write_parts(set, &[&joined, b"a"]),
            _ => write_chunks(set, &[&joined[..], b"a"].concat(), FULL),
        }
    })
}

/// Chunks of one part, then of another.
fn write_parts(set: &mut Vec<u8>, parts: &[&[u8]]) {
    for part in parts {
        write_chunks(set, part, FULL);
    }
}

/// Cuts a set where a piece begins, or puts another one there: a chunk of no item, one of a kind
/// that belongs to a table, an end, an item, or one that is not whole.
fn change_pieces(random: &mut Random, set: &mut Vec<u8>) {
    let piece = random.pick(&[
        &b"\x01a"[..],
        b"\x03abc",
        b"\x82\xff\xff\xff\x03",
        b"\x83\x00\x01\x00\x00\x00\x01\x00\x00\x00\x02fx",
        b"\x84",
        b"\x00",
        b"\x81\x00\x00\x00\x00\x00\x00\x00\x00\x01a",
        b"\x81\xff\xff\xff\xff\x01\x00\x00\x00",
        b"\x81\x00\x00\x00\x80\x00\x00\x00\x80",
        b"\x81\x03\x00\x00\x00",
    ]);
    let at = random.pick(&starts(set));
    match random.below(3) {
        0 => set.truncate(at),
        _ => drop(set.splice(at..at, piece.iter().copied())),
    }
}

/// Where the pieces of a good set begin.
fn starts(set: &[u8]) -> Vec<usize> {
    let mut starts = Vec::new();
    let mut at = 0;
    while let Some(&kind) = set.get(at) {
        starts.push(at);
        at += match kind {
            129 => 9,
            count => 1 + usize::from(count),
        };
    }
    starts
}

/// The set of these items with one of them written otherwise.
fn with_one(items: &[Item], wrong: usize, mut write: impl FnMut(&Item, &mut Vec<u8>)) -> Vec<u8> {
    let mut set = Vec::new();
    for (at, item) in items.iter().enumerate() {
        if at == wrong {
            write(item, &mut set);
        } else {
            write_item(&mut set, item.lengths(), &item.joined());
        }
    }
    set.push(0);
    set
}
