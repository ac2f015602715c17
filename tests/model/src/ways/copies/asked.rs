//! A call of copydef that closes, and what it asks for.

use super::table::{text_length, Table};
use super::Copied;
use crate::answer::Refusal;
use crate::bytes::is_name;
use crate::definitions::{Definitions, Meaning};
use crate::predefined::Predefined;
use crate::LIMIT;
use std::cmp::Ordering::{Equal, Greater, Less};

pub struct Asked {
    pub source: Vec<u8>,
    pub new_name: Vec<u8>,
    arguments: usize,
    before: Table,
}

impl Asked {
    /// What a call with these arguments asks for.
    pub fn of(definitions: &Definitions, arguments: &[Vec<u8>]) -> Asked {
        let argument = |at: usize| arguments.get(at).cloned().unwrap_or_default();
        Asked {
            source: argument(0),
            new_name: argument(1),
            arguments: arguments.len(),
            before: Table::of(definitions),
        }
    }

    /// The definitions that it has to leave, or how it has to be refused: "the new name is judged
    /// first (6), then 16".
    pub fn answer(&self) -> Result<Table, Refusal> {
        if !is_name(&self.new_name) {
            return Err(Refusal::Name);
        }
        let meaning = self.meaning().ok_or(Refusal::NoDefinition)?;
        Ok(self.after(meaning))
    }

    /// The meaning that is copied.
    pub fn meaning(&self) -> Option<Meaning> {
        self.before.meaning(&self.source)
    }

    fn after(&self, meaning: Meaning) -> Table {
        let mut after = self.before.clone();
        after.set(&self.new_name, meaning);
        after
    }

    /// The ways of a copy that is made.
    pub fn ways(&self, meaning: &Meaning) -> Vec<Copied> {
        let lists = [
            self.ways_of_source(meaning),
            self.ways_of_target(),
            self.ways_of_replacing(meaning),
            vec![(self.arguments > 2, Copied::Surplus)],
        ];
        taken(lists.concat())
    }

    fn ways_of_source(&self, meaning: &Meaning) -> Vec<(bool, Copied)> {
        let (before, source) = (&self.before, &self.source[..]);
        let made = before.place(source).is_some();
        let text = matches!(meaning, Meaning::Text(_));
        vec![
            (!made, Copied::OwnMeaning),
            (made && !text, Copied::OfCopy),
            (text, Copied::OfText),
            (text && text_length(meaning) == 0, Copied::NoBytes),
            (text && before.own(source).is_some(), Copied::TextOverOwn),
            (before.has_several(source), Copied::NewestOfSeveral),
        ]
    }

    fn ways_of_target(&self) -> Vec<(bool, Copied)> {
        let (before, name) = (&self.before, &self.new_name[..]);
        let place = before.place(name);
        let own = before.own(name).is_some();
        let itself = self.source == name;
        let onto = match place.map(|place| &before.made[place].1) {
            Some(Meaning::Text(_)) if itself => Copied::TextItself,
            Some(Meaning::Predefined(_)) if itself => Copied::CopyItself,
            Some(Meaning::Text(_)) => Copied::OntoText,
            Some(Meaning::Predefined(_)) => Copied::OntoCopy,
            None if own && itself => Copied::OwnItself,
            None if own => Copied::OntoOwn,
            None => Copied::OntoNone,
        };
        let gone = is_predefined(name) && onto == Copied::OntoNone;
        vec![
            (true, onto),
            (gone, Copied::OntoGone),
            (before.has_several(name), Copied::OntoSeveral),
            (place.is_some() && own, Copied::OwnBelow),
            (name == b"copydef", Copied::OntoCopydef),
        ]
    }

    /// The ways of a definition that takes the place of another.
    fn ways_of_replacing(&self, meaning: &Meaning) -> Vec<(bool, Copied)> {
        let Some(place) = self.before.place(&self.new_name) else {
            return Vec::new();
        };
        let old = &self.before.made[place].1;
        let longer = text_length(meaning).cmp(&text_length(old));
        let last = place + 1 == self.before.made.len();
        let by = match (old, meaning) {
            (Meaning::Text(_), Meaning::Text(_)) => Copied::TextByText,
            (Meaning::Text(_), Meaning::Predefined(_)) => Copied::TextByMeaning,
            (Meaning::Predefined(_), Meaning::Text(_)) => Copied::MeaningByText,
            (Meaning::Predefined(_), Meaning::Predefined(_)) => Copied::MeaningByMeaning,
        };
        let mut ways = vec![
            (self.source != self.new_name, by),
            (!last && longer == Greater, Copied::OthersMoveUp),
            (!last && longer == Less, Copied::OthersMoveDown),
        ];
        if let (Meaning::Text(_), Some(source)) = (meaning, self.before.place(&self.source)) {
            let way = match (source.cmp(&place), longer) {
                (Less, Greater) => Copied::BeforeLonger,
                (Less, Less) => Copied::BeforeShorter,
                (Less, Equal) => Copied::BeforeSame,
                (_, Greater) => Copied::BehindLonger,
                (_, Less) => Copied::BehindShorter,
                (_, Equal) => Copied::BehindSame,
            };
            ways.push((source != place, way));
        }
        ways
    }

    /// The ways of a copy for which there is so much of buffer 3, and it is enough.
    pub fn ways_of_room(&self, after: &Table, meaning: &Meaning, room: usize) -> Vec<Copied> {
        let (held, before) = (after.held(), self.before.held());
        let both = before + self.new_name.len() + text_length(meaning);
        let full = match meaning {
            Meaning::Predefined(_) => Copied::FullByMeaning,
            Meaning::Text(_) => Copied::FullByText,
        };
        taken(vec![
            (held > before && held == room, full),
            (both > room, Copied::OldRoom),
        ])
    }

    /// The ways of a copy for which there is too little of buffer 3.
    pub fn ways_of_no_room(&self, after: &Table, meaning: &Meaning, room: usize) -> Vec<Copied> {
        let short = after.held() - room;
        let by = match meaning {
            _ if short > 1 => Copied::NoRoom,
            Meaning::Predefined(_) => Copied::ShortByMeaning,
            Meaning::Text(_) => Copied::ShortByText,
        };
        let in_place = self.before.place(&self.new_name).is_some();
        taken(vec![
            (true, by),
            (in_place, Copied::NoRoomInPlace),
            (after.held() > LIMIT, Copied::OverLimit),
        ])
    }

    /// The ways of a new name that is none.
    pub fn ways_of_bad_name(&self, room: usize) -> Vec<Copied> {
        let bad = match self.new_name.len() {
            0 if self.arguments < 2 => Copied::NoNewName,
            0 => Copied::EmptyNewName,
            _ => Copied::BadNewName,
        };
        let meaning = self.meaning();
        let unknown = meaning.is_none();
        let no_room = meaning.is_some_and(|meaning| self.after(meaning).held() > room);
        taken(vec![
            (true, bad),
            (unknown, Copied::NameBeforeSource),
            (no_room, Copied::NameBeforeRoom),
        ])
    }

    /// The ways of a first argument without a definition.
    pub fn ways_of_no_source(&self, room: usize) -> Vec<Copied> {
        let source = &self.source[..];
        let why = match source {
            b"" => Copied::EmptySource,
            _ if !is_name(source) => Copied::OddSource,
            _ if is_predefined(source) => Copied::GoneSource,
            _ => Copied::UnknownSource,
        };
        // whatever it could be costs the name
        let least = self.after(Meaning::Predefined(Predefined::Len)).held();
        taken(vec![(true, why), (least > room, Copied::SourceBeforeRoom)])
    }
}

fn is_predefined(name: &[u8]) -> bool {
    let mut all = Predefined::ALL.into_iter();
    all.any(|which| which.name().as_bytes() == name)
}

/// Those ways that are so.
fn taken(ways: Vec<(bool, Copied)>) -> Vec<Copied> {
    let taken = ways.into_iter().filter(|(is_so, _)| *is_so);
    taken.map(|(_, way)| way).collect()
}
