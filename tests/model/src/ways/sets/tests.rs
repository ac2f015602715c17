//! The forms of sets, told apart: each set below with all forms that are met with it.

use super::Form::{self, *};
use super::{Sets, FORMS};
use crate::house::{write, Item};
use crate::{expand, Report, Setting, NO_ITEMS, SET_LIMIT};

fn setting(budget: u32) -> Setting {
    Setting {
        budget,
        ..Setting::ample()
    }
}

/// The forms of a set, in the order of the list.
fn forms(text: &str, set: &[u8], setting: &Setting) -> Vec<Form> {
    let mut sets = Sets::default();
    let report = expand(text.as_bytes(), set, setting);
    let verdict = sets.note(text.as_bytes(), set, setting, &report);
    assert_eq!(verdict, Ok(()), "{set:?}");
    let all = FORMS.into_iter().map(|(form, _)| form);
    all.filter(|&form| sets.met[form as usize] > 0).collect()
}

/// One that includes something, so that a bad set is of use to it.
fn used(set: &[u8]) -> Vec<Form> {
    forms("include(a)", set, &setting(10))
}

/// The beginning of an item.
const EMPTY: &[u8] = b"\x81\x00\x00\x00\x00\x00\x00\x00\x00";
const OF_TWO: &[u8] = b"\x81\x01\x00\x00\x00\x01\x00\x00\x00";
/// An item of 130 bytes, and its chunks.
const OF_130: &[u8] = b"\x81\x02\x00\x00\x00\x80\x00\x00\x00";

#[test]
fn grounds() {
    let cases: [(&[&[u8]], Form); 20] = [
        (&[], NoBytes),
        (&[EMPTY], NoEnd),
        (&[b"\x00\x00"], BehindEnd),
        (&[b"\x01a\x00"], ChunkFirst),
        (&[EMPTY, b"\x01a\x00"], ChunkOfNone),
        (&[OF_TWO, b"\x02ax\x01y\x00"], ChunkTooMany),
        (&[OF_130, b"\x7f", &[b'n'; 127], b"\x03nnn\x00"], ShortChunk),
        (
            &[OF_130, b"\x80", &[b'n'; 128], b"\x01n\x01n\x00"],
            ShortLastChunk,
        ),
        (&[OF_TWO, b"\x01a\x01x\x00"], ShortLastChunk),
        (&[OF_TWO, b"\x03axy\x00"], LongChunk),
        (&[b"\x82\xff\xff\xff\x03\x00"], Kind130),
        (&[b"\x83\x00"], Kind131),
        (&[b"\x84\x00"], KindAbove),
        (&[OF_TWO, b"\x00"], EndInItem),
        (&[OF_TWO, EMPTY, b"\x02ax\x00"], ItemInItem),
        (&[b"\x81\x01\x00"], CutLengths),
        (&[OF_TWO, b"\x02a"], CutChunk),
        (&[OF_TWO], CutItem),
        (&[b"\x81\xff\xff\xff\xff\x01\x00\x00\x00\x00"], LengthsWrap),
        (&[b"\x81\xff\xff\xff\xff\x02\x00\x00\x00\x00"], EndInItem),
    ];
    for (parts, ground) in cases {
        let set = parts.concat();
        let mut expected = vec![ground];
        if [NoEnd, ChunkOfNone, ChunkTooMany].contains(&ground) {
            expected.push(BadLater);
        }
        assert_eq!(used(&set), expected, "{set:?}");
        // behind an item that is whole
        let later = [&write(&[Item::new(b"b", b"")])[..11], &set].concat();
        if !set.is_empty() && ground != ChunkFirst {
            assert_eq!(used(&later), [ground, BadLater], "{later:?}");
        }
    }
}

#[test]
fn what_comes_of_bad_sets() {
    assert_eq!(forms("a", b"", &setting(1)), [NoBytes, BadAndNotUsed]);
    assert_eq!(forms("include", b"", &setting(0)), [NoBytes, BadAndSpent]);
    let mut long = setting(0);
    long.lengths[2] = 65_537;
    assert_eq!(forms("a", b"", &long), [NoBytes, BadAndLend]);
    let mut set = vec![0; SET_LIMIT + 1];
    assert_eq!(used(&set), [BehindEnd, TooLongAndBad]);
    set.truncate(SET_LIMIT);
    assert_eq!(used(&set), [BehindEnd]);
}

fn shapes(items: &[(usize, usize)]) -> Vec<Form> {
    let item = |(name, text): &(usize, usize)| Item::new(&vec![b'n'; *name], &vec![b't'; *text]);
    let items: Vec<Item> = items.iter().map(item).collect();
    used(&write(&items))
}

#[test]
fn shapes_of_good_sets() {
    assert_eq!(used(NO_ITEMS), [NoItem]);
    assert_eq!(shapes(&[(1, 1)]), [OneItem]);
    assert_eq!(shapes(&[(1, 1), (2, 1)]), [SeveralItems]);
    assert_eq!(shapes(&[(1, 1), (1, 2)]), [SeveralItems, TwoOfOneName]);
    assert_eq!(shapes(&[(0, 0)]), [OneItem, ItemOfNone]);
    assert_eq!(
        shapes(&[(0, 0), (1, 1)]),
        [SeveralItems, ItemOfNone, ItemBehindNone]
    );
    assert_eq!(shapes(&[(0, 1), (1, 0)]), [SeveralItems, NoName, NoText]);
    assert_eq!(shapes(&[(1, 126)]), [OneItem, Of127]);
    assert_eq!(shapes(&[(1, 127)]), [OneItem, Of128, TextFills]);
    assert_eq!(shapes(&[(1, 128)]), [OneItem, Of129, TextAcross]);
    assert_eq!(shapes(&[(128, 1)]), [OneItem, Of129, NameFills]);
    assert_eq!(shapes(&[(129, 0)]), [OneItem, NoText, Of129, NameAcross]);
    assert_eq!(shapes(&[(128, 127)]), [OneItem, Of255, NameFills]);
    assert_eq!(
        shapes(&[(128, 128)]),
        [OneItem, Of256, NameFills, TextFills]
    );
    assert_eq!(
        shapes(&[(129, 128)]),
        [OneItem, Of257, NameAcross, TextAcross]
    );
}

/// An answer that 02 does not ask for is found out.
#[test]
fn faults() {
    let ample = Setting::ample();
    let noted = |set: &[u8], report: &Report| Sets::default().note(b"a", set, &ample, report);
    let done = expand(b"a", NO_ITEMS, &ample);
    let bad = expand(b"a", b"", &ample);
    assert!(noted(NO_ITEMS, &done).is_ok() && noted(b"", &bad).is_ok());
    assert!(noted(NO_ITEMS, &bad).is_err() && noted(b"", &done).is_err());
    let later = Report { steps: 1, ..bad };
    assert!(noted(b"", &later).is_err());
}
