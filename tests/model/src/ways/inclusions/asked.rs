//! A call of include or sinclude that closes, and what it asks for.

use super::Inclusion;
use crate::bytes::{is_blank, is_name};
use crate::house::Item;
use crate::predefined::Predefined;

pub struct Asked<'s> {
    which: Predefined,
    name: &'s [u8],
    arguments: usize,
    items: &'s [Item],
    /// The number of the item that it is to find, from 0 on.
    pub found: Option<usize>,
}

impl<'s> Asked<'s> {
    /// What a call with these arguments asks for.
    pub fn of(which: Predefined, arguments: &'s [Vec<u8>], items: &'s [Item]) -> Asked<'s> {
        let name = &arguments[0][..];
        Asked {
            which,
            name,
            arguments: arguments.len(),
            items,
            // "The first of two items with one name counts."
            found: (0..items.len()).find(|&at| items[at].name == name),
        }
    }

    /// What is to be included; "an unknown name gives `sinclude` nothing".
    pub fn contents(&self) -> &'s [u8] {
        self.found.map_or(&[], |at| &self.items[at].text)
    }

    /// The ways of what is asked and found.
    pub fn ways(&self) -> Vec<Inclusion> {
        let ways = match self.found {
            Some(at) => self.ways_of_found(at),
            None => self.ways_of_unknown(),
        };
        let taken = ways.into_iter().filter(|(is_so, _)| *is_so);
        taken.map(|(_, way)| way).collect()
    }

    fn ways_of_found(&self, at: usize) -> Vec<(bool, Inclusion)> {
        let Item { name, text } = &self.items[at];
        let mut later = self.items[at + 1..].iter();
        let another = later.any(|item| item.name == *name && item.text != *text);
        let include = self.which == Predefined::Include;
        let all = name.len() + text.len();
        let in_two = !text.is_empty() && name.len() / 128 < (all - 1) / 128;
        vec![
            (include, Inclusion::IncludeFound),
            (!include, Inclusion::SincludeFound),
            (name.is_empty(), Inclusion::NoNameFound),
            (at > 0, Inclusion::LaterItem),
            (another, Inclusion::FirstOfTwo),
            (another && text.is_empty(), Inclusion::FirstOfTwoEmpty),
            (!name.is_empty() && !is_name(name), Inclusion::OddName),
            (name.len() > 128, Inclusion::NameAcross),
            (in_two, Inclusion::TextAcross),
            (text.is_empty(), Inclusion::EmptyContents),
            (self.arguments > 1, Inclusion::Surplus),
        ]
    }

    fn ways_of_unknown(&self) -> Vec<(bool, Inclusion)> {
        let name = self.name;
        let any = |is_so: &dyn Fn(&[u8]) -> bool| self.items.iter().any(|item| is_so(&item.name));
        let goes_on = |item: &[u8]| !item.is_empty() && name.starts_with(item);
        let blank_behind =
            |item: &[u8]| goes_on(item) && name[item.len()..].iter().all(|&byte| is_blank(byte));
        let is_front = |item: &[u8]| !name.is_empty() && item.starts_with(name);
        let include = self.which == Predefined::Include;
        vec![
            (include, Inclusion::IncludeUnknown),
            (!include, Inclusion::SincludeUnknown),
            (name.is_empty(), Inclusion::NoNameUnknown),
            (any(&goes_on), Inclusion::GoesOn),
            (any(&blank_behind), Inclusion::BlankBehind),
            (any(&is_front), Inclusion::IsFront),
        ]
    }
}
