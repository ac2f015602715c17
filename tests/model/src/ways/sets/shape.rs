//! What a good set is like.

use super::Form;
use crate::house::Item;
use std::collections::HashSet;

/// A chunk has no more bytes.
const FULL: usize = 128;

/// Tells every form of a set of these items.
pub fn shape(items: &[Item], mut meet: impl FnMut(Form)) {
    meet(match items.len() {
        0 => Form::NoItem,
        1 => Form::OneItem,
        _ => Form::SeveralItems,
    });
    for item in items {
        of_item(item, &mut meet);
    }
    if items.windows(2).any(|pair| joined(&pair[0]) == 0) {
        meet(Form::ItemBehindNone);
    }
    let names: HashSet<&[u8]> = items.iter().map(|item| &item.name[..]).collect();
    if names.len() < items.len() {
        meet(Form::TwoOfOneName);
    }
}

fn joined(item: &Item) -> usize {
    item.name.len() + item.text.len()
}

fn of_item(item: &Item, meet: &mut impl FnMut(Form)) {
    let (name, all) = (item.name.len(), joined(item));
    let has_text = all > name;
    let forms = [
        (all == 0, Form::ItemOfNone),
        (name == 0 && has_text, Form::NoName),
        (name > 0 && !has_text, Form::NoText),
        (all == 127, Form::Of127),
        (all == 128, Form::Of128),
        (all == 129, Form::Of129),
        (all == 255, Form::Of255),
        (all == 256, Form::Of256),
        (all == 257, Form::Of257),
        (name > FULL, Form::NameAcross),
        (name > 0 && name % FULL == 0, Form::NameFills),
        (has_text && name / FULL < (all - 1) / FULL, Form::TextAcross),
        (has_text && all % FULL == 0, Form::TextFills),
    ];
    for (_, form) in forms.into_iter().filter(|(is_so, _)| *is_so) {
        meet(form);
    }
}
