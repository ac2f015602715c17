//! The definitions as a plain list with the bucket of each, and what a search in a bucket meets.

use super::{Bucketed, LARGE, LAST, LONG, MANY};
use crate::buckets::{bucket_of, predefined_in};
use crate::predefined::Predefined;

#[derive(Clone)]
struct Made {
    name: Vec<u8>,
    bucket: usize,
    /// Whether one before it went.
    moved: bool,
}

/// The definitions that the text made, oldest first, and which names keep their own meaning.
pub struct Shelf {
    made: Vec<Made>,
    own: [bool; Predefined::ALL.len()],
}

/// What a search in a bucket comes to.
pub struct Search {
    /// The place of the definition.
    pub found: Option<usize>,
    /// The others of the bucket that were passed by.
    passed: Vec<usize>,
    /// The predefined name of the bucket, and whether it is the one that is sought.
    predefined: Option<(Predefined, bool)>,
}

impl Search {
    pub fn behind_others(&self) -> bool {
        !self.passed.is_empty()
    }
}

impl Shelf {
    pub fn at_start() -> Shelf {
        Shelf {
            made: Vec::new(),
            own: [true; Predefined::ALL.len()],
        }
    }

    pub fn count(&self) -> usize {
        self.made.len()
    }

    /// The names, oldest first.
    pub fn names(&self) -> impl Iterator<Item = &[u8]> {
        self.made.iter().map(|made| &made.name[..])
    }

    pub fn has_moved(&self, place: usize) -> bool {
        self.made[place].moved
    }

    /// The newest first, but only those of the bucket.
    pub fn search(&self, name: &[u8]) -> Search {
        let bucket = bucket_of(name);
        let mut passed = Vec::new();
        let mut found = None;
        for (place, made) in self.made.iter().enumerate().rev() {
            if made.bucket == bucket && made.name == name {
                found = Some(place);
                break;
            }
            if made.bucket == bucket {
                passed.push(place);
            }
        }
        let predefined = predefined_in(bucket);
        Search {
            found,
            passed,
            predefined: predefined.map(|which| (which, which.name().as_bytes() == name)),
        }
    }

    /// Whether a name keeps its own meaning, in force or covered.
    pub fn keeps_own(&self, name: &[u8]) -> bool {
        own_number(name).is_some_and(|number| self.own[number])
    }

    /// The ways of a search.
    pub fn ways(&self, name: &[u8], search: &Search) -> Vec<Bucketed> {
        match search.found {
            Some(place) => self.ways_of_found(name, search, place),
            None => self.ways_of_none(search),
        }
    }

    fn ways_of_found(&self, name: &[u8], search: &Search, place: usize) -> Vec<Bucketed> {
        let passed = search.passed.len();
        let mut ways = vec![match passed {
            0 => Bucketed::First,
            1 => Bucketed::Second,
            _ => Bucketed::Later,
        }];
        let older = self.made[..place]
            .iter()
            .rposition(|made| made.name == name);
        let bucket = self.made[place].bucket;
        let between = |older: usize| {
            let mut between = self.made[older + 1..place].iter();
            between.any(|made| made.bucket == bucket)
        };
        let mut others = search.passed.iter().map(|&other| &self.made[other].name);
        let front = name.len().saturating_sub(LAST);
        let alike = |other: &Vec<u8>| other.len() == name.len() && other[..front] == name[..front];
        let longer = |other: &Vec<u8>| {
            other.len() != name.len() && (other.starts_with(name) || name.starts_with(other))
        };
        let more = [
            (Bucketed::BehindMany, passed >= MANY),
            (Bucketed::NewestOfSeveral, older.is_some()),
            (Bucketed::SeveralAmongOthers, older.is_some_and(between)),
            (Bucketed::OverOwn, self.keeps_own(name)),
            (Bucketed::PassedLastBytes, others.clone().any(alike)),
            (Bucketed::PassedBeginning, others.any(longer)),
            (Bucketed::Moved, self.made[place].moved),
            (Bucketed::InLarge, self.count() >= LARGE),
            (Bucketed::OfOneByte, name.len() == 1),
            (Bucketed::OfLongName, name.len() >= LONG),
        ];
        ways.extend(
            more.into_iter()
                .filter_map(|(way, taken)| taken.then_some(way)),
        );
        ways
    }

    fn ways_of_none(&self, search: &Search) -> Vec<Bucketed> {
        let others = search.behind_others();
        let mut ways = vec![match (search.predefined, others) {
            (Some((which, true)), _) => match (self.own[which as usize], others) {
                (true, false) => Bucketed::OwnAlone,
                (true, true) => Bucketed::OwnBehind,
                (false, false) => Bucketed::OwnGoneAlone,
                (false, true) => Bucketed::OwnGoneBehind,
            },
            (Some((_, false)), false) => Bucketed::NonePredefined,
            (Some((_, false)), true) => Bucketed::NonePredefinedBehind,
            (None, false) => Bucketed::NoneEmpty,
            (None, true) => Bucketed::NoneBehind,
        }];
        if search.passed.len() >= MANY {
            ways.push(Bucketed::NoneBehindMany);
        }
        ways
    }

    /// A definition arrives.
    pub fn push(&mut self, name: &[u8]) -> Vec<Bucketed> {
        let bucket = bucket_of(name);
        let mut ways = vec![if self.others(bucket, name) == 0 && self.of(name) == 0 {
            Bucketed::AddedFirst
        } else {
            Bucketed::AddedToOthers
        }];
        if predefined_in(bucket).is_some_and(|which| which.name().as_bytes() != name) {
            ways.push(Bucketed::AddedToOwnBucket);
        }
        self.made.push(Made {
            name: name.to_vec(),
            bucket,
            moved: false,
        });
        ways
    }

    /// "define replaces the newest definition", else one arrives.
    pub fn define(&mut self, name: &[u8]) -> Vec<Bucketed> {
        let search = self.search(name);
        match search.found {
            Some(_) if search.behind_others() => vec![Bucketed::ReplacedBehind],
            Some(_) => vec![Bucketed::ReplacedFirst],
            None => {
                let own = self.lose_own(name).then_some(Bucketed::AddedForOwn);
                self.push(name).into_iter().chain(own).collect()
            }
        }
    }

    /// "popdef uncovers it".
    pub fn pop(&mut self, name: &[u8]) -> Vec<Bucketed> {
        let search = self.search(name);
        let Some(place) = search.found else {
            let others = search.behind_others();
            return match (self.lose_own(name), others) {
                (true, true) => vec![Bucketed::PoppedOwn],
                (false, true) => vec![Bucketed::PoppedNothing],
                (_, false) => Vec::new(),
            };
        };
        let bucket = self.made[place].bucket;
        let mut below = self.made[..place].iter();
        let below = below.any(|made| made.bucket == bucket);
        let last = place + 1 == self.count();
        let mut ways = vec![match (last, search.behind_others(), below) {
            _ if self.count() == 1 => Bucketed::PoppedOnly,
            (true, _, true) => Bucketed::PoppedLastOthersBelow,
            (true, _, false) => Bucketed::PoppedLastEmpties,
            (false, true, _) => Bucketed::PoppedMiddleBehind,
            (false, false, true) => Bucketed::PoppedMiddleFirst,
            (false, false, false) => Bucketed::PoppedMiddleEmpties,
        }];
        if place == 0 && !last {
            ways.push(Bucketed::PoppedOldest);
        }
        self.remove(|at, _| at == place);
        if self.of(name) > 0 {
            ways.push(Bucketed::PoppedToOlder);
        }
        ways
    }

    /// "undefine drops all".
    pub fn undefine(&mut self, name: &[u8]) -> Vec<Bucketed> {
        let bucket = bucket_of(name);
        let others = self.others(bucket, name);
        let own = self.lose_own(name);
        let oldest = self.made.iter().position(|made| made.name == name);
        let Some(oldest) = oldest else {
            return match (own, others) {
                (_, 0) => Vec::new(),
                (true, _) => vec![Bucketed::UndefinedOwn],
                (false, _) => vec![Bucketed::UndefinedNothing],
            };
        };
        let mut ways = match (self.of(name), others) {
            (1, 0) => Vec::new(),
            (1, _) => vec![Bucketed::UndefinedOne],
            (_, 0) => vec![Bucketed::UndefinedSeveralAlone],
            _ => vec![Bucketed::UndefinedSeveral],
        };
        let mut later = self.made[oldest..].iter();
        if later.any(|made| made.bucket == bucket && made.name != name) {
            ways.push(Bucketed::UndefinedMoves);
        }
        if self.made.last().is_some_and(|made| made.name == name) {
            ways.push(Bucketed::UndefinedLast);
        }
        self.remove(|_, other| other == name);
        ways
    }

    /// How many definitions a name has.
    fn of(&self, name: &[u8]) -> usize {
        self.names().filter(|other| *other == name).count()
    }

    /// How many definitions of other names a bucket has.
    fn others(&self, bucket: usize, name: &[u8]) -> usize {
        let others = self.made.iter().filter(|made| made.bucket == bucket);
        others.filter(|made| made.name != name).count()
    }

    /// Some go, and those behind move.
    fn remove(&mut self, goes: impl Fn(usize, &[u8]) -> bool) {
        let mut kept = Vec::new();
        for (at, mut made) in self.made.drain(..).enumerate() {
            if !goes(at, &made.name) {
                made.moved |= kept.len() < at;
                kept.push(made);
            }
        }
        self.made = kept;
    }

    /// Whether there was an own meaning to lose.
    fn lose_own(&mut self, name: &[u8]) -> bool {
        let own = own_number(name).map(|number| &mut self.own[number]);
        own.is_some_and(|own| std::mem::replace(own, false))
    }
}

fn own_number(name: &[u8]) -> Option<usize> {
    let mut all = Predefined::ALL.iter();
    all.position(|which| which.name().as_bytes() == name)
}
