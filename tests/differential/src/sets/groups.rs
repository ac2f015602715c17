//! Which sets are tried, with which texts and in which rooms.

use super::changed;
use crate::case::Case;
use model::generate::sets::large::of_length;
use model::house::{write, write_item, Item};
use model::{Setting, LIMIT, SET_LIMIT};

/// Cases that are tried in one way.
pub struct Group {
    pub name: &'static str,
    pub cases: Vec<Case>,
    /// Whether they are tried between inaccessible pages too.
    pub fenced: bool,
}

/// One that includes nothing, one that is refused if there is no such item, and one that asks for
/// all.
const TEXTS: [&str; 3] = [
    "a",
    "include(a)",
    "sinclude(a)|sinclude(b)|sinclude()|sinclude(ab)",
];
/// Names and texts of these lengths, at which chunks turn.
const LENGTHS: [usize; 10] = [0, 1, 126, 127, 128, 129, 130, 255, 256, 257];

pub fn all() -> Vec<Group> {
    let good = changed::good();
    let each = |change: fn(&[u8]) -> Vec<Vec<u8>>| -> Vec<Vec<u8>> {
        good.iter().flat_map(|set| change(set)).collect()
    };
    // between inaccessible pages a run takes long, and this text looks at most
    let all_of_it = &TEXTS[2..];
    vec![
        fenced("good sets", with(&TEXTS, &good)),
        free(
            "each byte changed",
            with(&TEXTS, &each(changed::with_a_byte_changed)),
        ),
        free(
            "each byte moved",
            with(&TEXTS, &each(changed::with_a_byte_moved)),
        ),
        free("each cut", with(&TEXTS, &each(changed::cut))),
        fenced("each cut", with(all_of_it, &each(changed::cut))),
        fenced("all lengths", with(all_of_it, &all_lengths())),
        fenced("items at the borders of chunks", at_borders()),
        free("each byte in a name and in contents", every_byte()),
        fenced("the longest sets and contents", longest()),
        free("what is judged first", judged_first()),
    ]
}

fn free(name: &'static str, cases: Vec<Case>) -> Group {
    Group {
        name,
        cases,
        fenced: false,
    }
}

fn fenced(name: &'static str, cases: Vec<Case>) -> Group {
    Group {
        name,
        cases,
        fenced: true,
    }
}

fn case(text: impl Into<Vec<u8>>, set: Vec<u8>, room: usize) -> Case {
    Case {
        salt: set.len() as u64,
        text: text.into(),
        set,
        setting: Setting {
            lengths: [room; 7],
            budget: 5_000,
        },
    }
}

/// Each set with each text.
fn with(texts: &[&str], sets: &[Vec<u8>]) -> Vec<Case> {
    let of_set = |set: &Vec<u8>| -> Vec<Case> {
        let cases = texts.iter().map(|&text| case(text, set.clone(), 400));
        cases.collect()
    };
    sets.iter().flat_map(of_set).collect()
}

/// The same bytes under lengths of every kind, among them some whose sum is the right one in 32 bits.
fn all_lengths() -> Vec<Vec<u8>> {
    let turns = [8, 16, 24, 31, 32].map(|bit| 1u64 << bit);
    let near = turns.into_iter().flat_map(|turn| turn - 4..turn + 2);
    let lengths: Vec<u32> = (0..6)
        .chain(near)
        .filter_map(|length| u32::try_from(length).ok())
        .collect();
    let mut sets = Vec::new();
    for &name in &lengths {
        for &text in &lengths {
            let mut set = Vec::new();
            write_item(&mut set, [name, text], b"abx");
            set.push(0);
            sets.push(set);
        }
    }
    sets
}

/// Names and texts of all lengths at which chunks turn. Before the item that is asked for stand two
/// whose names differ from its name in the first and in the last byte. There is room for the contents,
/// or one byte too little.
fn at_borders() -> Vec<Case> {
    let mut cases = Vec::new();
    for name in LENGTHS {
        for text in LENGTHS {
            let name = vec![b'n'; name];
            let wanted = Item::new(&name, &contents(text));
            let set = write(&[others(&name), vec![wanted]].concat());
            let call = [b"include(`", &name[..], b"')"].concat();
            for pending in rooms(text) {
                let mut case = case(call.clone(), set.clone(), 600);
                case.setting.lengths[0] = pending;
                cases.push(case);
            }
        }
    }
    cases
}

/// Items whose names differ from this one in one byte.
fn others(name: &[u8]) -> Vec<Item> {
    if name.is_empty() {
        return Vec::new();
    }
    let differing = |at: usize| {
        let mut other = name.to_vec();
        other[at] = b'm';
        Item::new(&other, b"other")
    };
    vec![differing(0), differing(name.len() - 1)]
}

/// Enough room for so many bytes, and one too few.
fn rooms(length: usize) -> [usize; 2] {
    [length, length.saturating_sub(1)]
}

/// Contents of so many bytes, among them all those that are kinds of a set.
fn contents(length: usize) -> Vec<u8> {
    let bytes = (b'A'..=b'Z').chain([0, 1, 127, 128, 129, 130, 131, 255]);
    bytes.cycle().take(length).collect()
}

/// Each byte as a name, in a name, and as contents; names compare byte by byte, whatever their class.
fn every_byte() -> Vec<Case> {
    let quoted = |name: &[u8]| match name.iter().any(|byte| b"`'".contains(byte)) {
        false => [b"sinclude(`", name, b"')"].concat(),
        true => [b"changequote([,])sinclude([", name, b"])"].concat(),
    };
    let of_byte = |byte: u8| {
        let items = [
            Item::new(&[byte], b"alone"),
            Item::new(&[b'a', byte, b'b'], b"among others"),
            Item::new(b"contents", &[byte]),
        ];
        let set = write(&items);
        items.map(|item| case(quoted(&item.name), set.clone(), 200))
    };
    (0..=u8::MAX).flat_map(of_byte).collect()
}

/// Sets of 1,048,576 bytes, and of one more, good and bad ones; the item that is asked for stands
/// last. Contents of 65,536 bytes, and of one more.
fn longest() -> Vec<Case> {
    let last = [Item::new(b"ab", b"later"), Item::new(b"a", b"found")];
    let long = [SET_LIMIT - 1, SET_LIMIT, SET_LIMIT + 1].map(|length| of_length(length, &last));
    let bad = long.clone().map(|mut set| {
        *set.last_mut().expect("an end") = 129;
        set
    });
    let contents = [LIMIT - 1, LIMIT, LIMIT + 1].map(|length| {
        let text = vec![b'x'; length];
        write(&[Item::new(b"a", &text)])
    });
    let sets = long.into_iter().chain(bad).chain(contents);
    let texts = |set: Vec<u8>| ["a", "include(a)"].map(|text| case(text, set.clone(), LIMIT));
    sets.flat_map(texts).collect()
}

/// Bad sets with no step left, with an overlong text and with overlong buffers.
fn judged_first() -> Vec<Case> {
    let sets = [
        &b""[..],
        b"\x00\x00",
        b"\x01a\x00",
        b"\x81\x00\x00\x00",
        b"\x00",
    ];
    let of_set = |set: &[u8]| {
        let good = case("include(a)", set.to_vec(), 20);
        let mut spent = good.clone();
        spent.setting.budget = 0;
        let overlong = (0..7).map(|buffer| {
            let mut case = good.clone();
            case.setting.lengths[buffer] = LIMIT + 1;
            case
        });
        let text = case(vec![b'a'; LIMIT + 1], set.to_vec(), 20);
        overlong.chain([spent, text]).collect::<Vec<Case>>()
    };
    sets.into_iter().flat_map(of_set).collect()
}
