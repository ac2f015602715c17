//! Sets in the house form of 02, request 1: most of few items, with names that texts ask for, and
//! with contents that include again; some are damaged, and few are large.

mod contents;
pub mod damage;
pub mod large;

use super::Scale;
use crate::house::{write, Item};
use crate::random::Random;
pub use contents::call;

/// How many bytes an item has, name and text joined, where its chunks turn.
pub const BORDERS: [usize; 8] = [0, 1, 127, 128, 129, 255, 256, 257];

/// Names of items. They need not be names of 01, and some begin with others.
const NAMES: [&[u8]; 26] = [
    b"a",
    b"a",
    b"a",
    b"b",
    b"b",
    b"c",
    b"ab",
    b"abc",
    b"f",
    b"2",
    b"",
    b"",
    b"a.m4",
    b"guys/top",
    b"x y",
    b"a ",
    b"a,b",
    b"(b)",
    b"len",
    b"include",
    b"\x00",
    b"\x81\x00",
    b"\xff",
    b"#c",
    b"`q'",
    b"q'",
];

/// Makes the items of a set.
pub fn items(random: &mut Random, scale: Scale) -> Vec<Item> {
    let count = match scale {
        Scale::Small => random.pick(&[0, 1, 1, 2, 2, 3]),
        Scale::Full => random.pick(&[0, 1, 1, 2, 2, 3, 4, 9]),
    };
    let mut names: Vec<Vec<u8>> = Vec::new();
    for at in 0..count {
        let again = at > 0 && random.chance(15);
        names.push(if again {
            names[random.below(at)].clone()
        } else {
            name(random)
        });
    }
    let longest = match scale {
        Scale::Small => 120,
        Scale::Full => 1_000,
    };
    let mut items = Vec::new();
    for (number, name) in names.iter().enumerate() {
        let mut text = contents::contents(random, number, &names);
        text.truncate(longest);
        items.push(Item::new(name, &text));
    }
    resize_some(random, &mut items, scale);
    items
}

/// A name of the list or, seldom, one that does not lie in one chunk, or just does.
pub fn name(random: &mut Random) -> Vec<u8> {
    match random.below(40) {
        0 => vec![b'n'; random.pick(&[127, 128, 129, 130, 255, 256, 257])],
        _ => random.pick(&NAMES).to_vec(),
    }
}

/// Brings some items to a border of their chunks, of small sets at most one.
fn resize_some(random: &mut Random, items: &mut [Item], scale: Scale) {
    let most = match scale {
        Scale::Small => 1,
        Scale::Full => items.len(),
    };
    let mut resized = 0;
    for item in items {
        if resized < most && random.chance(25) {
            resize(random, item);
            resized += 1;
        }
    }
}

fn resize(random: &mut Random, item: &mut Item) {
    let joined = random.pick(&BORDERS);
    let length = joined.saturating_sub(item.name.len());
    let filling: &[u8] = match random.below(4) {
        // bytes that are kinds, too
        0 => &[0, 1, 2, 127, 128, 129, 130, 131, 255],
        1 => b"x \n",
        _ => b"x",
    };
    while item.text.len() < length {
        item.text.push(random.pick(filling));
    }
    item.text.truncate(length);
}

/// The set of some items, now and then damaged.
pub fn written(random: &mut Random, items: &[Item]) -> Vec<u8> {
    let mut set = write(items);
    if random.chance(22) {
        damage::damage(random, items, &mut set);
    }
    set
}

#[cfg(test)]
mod tests {
    use super::*;
    use crate::generate::tests::go_by_the_seed;

    #[test]
    fn sets_go_by_the_seed() {
        go_by_the_seed(|random| {
            let items = items(random, Scale::Full);
            written(random, &items)
        });
    }

    /// Rows for judges that take long have small sets.
    #[test]
    fn small_sets_are_small() {
        let mut random = Random::new(1);
        let mut longest = 0;
        for _ in 0..5_000 {
            let items = items(&mut random, Scale::Small);
            longest = longest.max(written(&mut random, &items).len());
        }
        assert!((300..1_200).contains(&longest), "{longest}");
    }
}
