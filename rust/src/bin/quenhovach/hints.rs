//! What in a template's text commonly causes trouble, seen without expanding it.
//!
//! It is a guess. The text is read once, from front to back, with the usual marks, and nothing is expanded: what a macro gives is not
//! seen, and behind a change of the marks little is. A byte has the class that it has in the expander (bytes.rs).

use crate::scanner;
use crate::sets::Item;
use crate::suspects::{self, needs_call, takes_call};
use std::collections::HashMap;

/// Something that may be a mistake.
#[derive(Clone, Debug, PartialEq)]
pub struct Seen<'t> {
    /// Where it stands in the text.
    pub place: usize,
    /// The place behind which it is read and over; none if it is kept and read later, or stands in a call that is not closed.
    pub ends: Option<usize>,
    /// Whether it stands in the arguments of a call; CR in a quote, of one that takes numbers.
    pub within: bool,
    pub kind: Kind<'t>,
}

#[derive(Clone, Copy, Debug, PartialEq)]
pub enum Kind<'t> {
    /// A name that takes arguments, blanks, and then `(`.
    Gap(Gap<'t>),
    /// A predefined name that is called without arguments, between two plain words.
    Bare(&'t str),
    /// A predefined name that is plain text without `(`, in an argument of a macro that takes whole numbers.
    Plain { name: &'t str, taker: &'t str },
    /// A number with a point in an argument of a macro that takes whole numbers.
    Point { number: &'t str, taker: &'t str },
    /// A name in such an argument that the text defines as a number with a point.
    NamedPoint {
        name: &'t str,
        number: &'t str,
        taker: &'t str,
    },
    /// A number with a point in an argument of a macro of the text, which has one that takes whole numbers in its text.
    GivenPoint {
        number: &'t str,
        to: &'t str,
        taker: &'t str,
    },
    /// CR at the end of a line.
    Return,
    /// A byte-order mark at the beginning of a template.
    OrderMark,
    /// A character that looks like a quote mark; in a quote, one that looks like the end mark.
    LookAlike { mark: char, quoted: bool },
    /// A macro of GNU m4 that this expander has not, with `(`.
    Foreign(&'t str),
    /// A name for copydef to copy that is not quoted and is called without arguments.
    Unquoted(&'t str),
    /// A comment, or what dnl drops, at the end of a template that goes on in the next one; `#`, or the name that drops it.
    RunsOn { by: &'t str },
    /// A comment, or what dnl drops, that has a `)` for a call in it.
    Closer { by: &'t str },
}

/// The blanks between a name and `(`.
#[derive(Clone, Copy, Debug, PartialEq)]
pub struct Gap<'t> {
    pub name: &'t str,
    /// The predefined macro that the name is a copy of, or the name itself.
    pub means: &'t str,
    /// There is a newline among them.
    pub newline: bool,
    /// The name is called, without arguments; else it is plain text.
    pub called: bool,
    /// It stands in an argument of a macro that takes whole numbers.
    pub counted: bool,
}

impl Kind<'_> {
    /// Whether it does no more than to be other text than is meant.
    pub fn is_mere_text(&self) -> bool {
        matches!(self, Kind::Return | Kind::LookAlike { .. })
    }
}

/// What the text itself makes of a name.
#[derive(Clone, Copy, Default)]
pub struct Own<'t> {
    /// Its text has `$1` or the like.
    pub takes: bool,
    /// Its text has this macro, which takes whole numbers.
    pub taker: Option<&'t str>,
    /// Its only definition is a number with a point.
    pub point: Option<&'t str>,
    /// A definition of it was taken away, and none has been made since: it may mean something else, or nothing.
    pub popped: bool,
    /// It is a copy of this predefined macro, and no text.
    pub copies: Option<&'t str>,
}

/// The names of which the text makes something.
pub type Owned<'t> = HashMap<&'t str, Own<'t>>;

/// All that is seen in a text of templates that end at these places, in order. It may include the items, and so know what they define.
pub fn scan<'t>(text: &'t [u8], ends: &'t [usize], items: &'t [Item]) -> Vec<Seen<'t>> {
    let (mut seen, own) = walk(text, ends, items);
    seen.retain_mut(|seen| stands(seen, &own));
    seen
}

/// The names that have a definition somewhere, in order: those that the text or an item defines, and the predefined.
pub fn defined<'t>(text: &'t [u8], items: &'t [Item]) -> Vec<&'t str> {
    let (_, own) = walk(text, &[], items);
    let mut names: Vec<&str> = suspects::predefined()
        .filter(|name| !own.contains_key(name))
        .collect();
    let made = own.iter().filter(|(_, own)| !own.popped);
    names.extend(made.map(|(name, _)| name));
    names.sort_unstable();
    names
}

/// What is seen in the text, and what it and the items define. An item is mostly included at the beginning, so what it copies is known from there on.
fn walk<'t>(text: &'t [u8], ends: &'t [usize], items: &'t [Item]) -> (Vec<Seen<'t>>, Owned<'t>) {
    let mut theirs = Owned::new();
    for item in items {
        for (name, own) in scanner::walk(&item.text, &[], Owned::new()).1 {
            theirs.entry(name).or_insert(own);
        }
    }
    let is_copy = |(_, own): &(&str, Own)| own.copies.is_some();
    let copies = theirs.clone().into_iter().filter(is_copy).collect();
    let (seen, mut own) = scanner::walk(text, ends, copies);
    for (name, theirs) in theirs {
        own.entry(name).or_insert(theirs);
    }
    (seen, own)
}

/// Whether what was seen may be a mistake, now that all definitions of the text are known.
fn stands<'t>(seen: &mut Seen<'t>, own: &Owned<'t>) -> bool {
    match &mut seen.kind {
        Kind::Gap(gap) => match own.get(gap.name) {
            Some(own) if own.copies.is_none() => own.takes,
            _ => needs_call(gap.means) || takes_call(gap.means) && !gap.newline,
        },
        Kind::Plain { name, .. } => own.get(name).is_none_or(|own| own.copies.is_some()),
        Kind::Bare(name) | Kind::Foreign(name) => !own.contains_key(name),
        Kind::NamedPoint { name, number, .. } => {
            let point = own.get(name).and_then(|own| own.point);
            *number = point.unwrap_or_default();
            point.is_some()
        }
        Kind::GivenPoint { to, taker, .. } => {
            let found = own.get(to).and_then(|own| own.taker);
            *taker = found.unwrap_or_default();
            found.is_some()
        }
        Kind::Point { .. } | Kind::Return | Kind::OrderMark | Kind::LookAlike { .. } => true,
        Kind::Unquoted(_) | Kind::RunsOn { .. } | Kind::Closer { .. } => true,
    }
}

#[cfg(test)]
mod tests;
