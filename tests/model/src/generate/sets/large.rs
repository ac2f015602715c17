//! Sets about as long as may be, of very many items, and contents about as long as buffer 1 may be.
//! They take long, so there are few of them.

use crate::generate::Input;
use crate::house::{write, Item, FULL};
use crate::random::Random;
use crate::{LIMIT, SET_LIMIT};

/// The kind that begins an item, and its body.
const HEAD: usize = 9;
const FILLING: &[u8] = b"filling";

/// A large set, and a text that includes from it.
pub fn large(random: &mut Random) -> Input {
    let name = random.pick(&["a", "", "ab"]).as_bytes();
    let set = match random.below(10) {
        0..=3 => {
            let length = random.pick(&[LIMIT - 1, LIMIT, LIMIT + 1, LIMIT + 1]);
            write(&[Item::new(name, &vec![b'x'; length])])
        }
        4 => many_items(random, name),
        5 => {
            let text = vec![b' '; random.pick(&[5_000, 30_000])];
            write(&[Item::new(b"b", b"x"), Item::new(name, &text)])
        }
        _ => long_set(random, name),
    };
    let text = random.pick(&[
        "include(@)",
        "include(@)",
        "sinclude(@)z",
        "len(include(@))",
        "a",
    ]);
    Input {
        text: text.replace('@', &String::from_utf8_lossy(name)).into(),
        set,
    }
}

/// Many items before the one that is asked for.
fn many_items(random: &mut Random, name: &[u8]) -> Vec<u8> {
    let count = random.pick(&[100, 1_000, 5_000]);
    let mut items: Vec<Item> = (0..count)
        .map(|number| Item::new(format!("n{number}").as_bytes(), b""))
        .collect();
    items.push(Item::new(name, b"[found]"));
    write(&items)
}

/// A set of 1,048,576 bytes, or of a few more, or a bad one of about as many.
fn long_set(random: &mut Random, name: &[u8]) -> Vec<u8> {
    let length = SET_LIMIT + random.pick(&[0, 0, 0, 1, 1, 200]);
    let mut set = of_length(length, &[Item::new(name, b"[found]")]);
    if random.chance(40) {
        let last = set.len() - 1;
        set[last] = random.pick(&[1, 129, 130]);
    }
    set
}

/// A good set of just so many bytes, which ends with these items. What stands before them has names
/// of its own.
pub fn of_length(length: usize, items: &[Item]) -> Vec<u8> {
    let rest = length - write(items).len();
    let mut all = match filling(rest) {
        Some(item) => vec![item],
        None => {
            let other = Item::new(b"f", b"");
            let rest = rest - written_length(&other);
            vec![other, filling(rest).expect("another length")]
        }
    };
    all.extend_from_slice(items);
    write(&all)
}

/// An item that comes to so many bytes. Not every number can be met: a 129th byte begins a chunk.
fn filling(length: usize) -> Option<Item> {
    let joined = length - HEAD;
    let text = joined - joined.div_ceil(usize::from(FULL) + 1) - FILLING.len();
    let item = Item::new(FILLING, &vec![b'.'; text]);
    (written_length(&item) == length).then_some(item)
}

fn written_length(item: &Item) -> usize {
    write(std::slice::from_ref(item)).len() - 1
}

#[cfg(test)]
mod tests {
    use super::*;
    use crate::house::Set;

    #[test]
    fn sets_of_a_length() {
        let items = [Item::new(b"a", b"text"), Item::new(b"", b"")];
        for length in 200..1_000 {
            let set = of_length(length, &items);
            assert_eq!(set.len(), length);
            let read = Set::read(&set).expect("a good set");
            assert!(read.items.ends_with(&items));
            assert_eq!(read.text_of(b"a"), Some(&b"text"[..]));
        }
    }
}
