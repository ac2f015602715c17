//! What an undivert names and moves.

use super::{Histories, Walk, Way};
use crate::history::numbers::moved;
use crate::history::Numbers;
use std::collections::HashSet;

impl Walk<'_, '_> {
    /// Notes an undivert, and takes it stream by stream.
    pub fn undiverted(&mut self, named: &[i32]) {
        self.ways.note_names(self.numbers.current, named);
        for stream in moved(named) {
            let nothing = self.ways.note_nothing(&self.numbers, stream, named);
            if !nothing {
                self.ways.note_move(&self.numbers, stream);
                self.ways.note_if(self.sources.wrapped, Way::MovedByWrap);
            }
            self.numbers.undivert(stream);
        }
    }
}

impl Histories {
    /// What an undivert names while this stream is current.
    fn note_names(&mut self, current: i32, named: &[i32]) {
        let bare = match current {
            0 => Way::Bare,
            1..=9 => Way::BareInStream,
            _ => Way::BareDiscarding,
        };
        self.note_if(named.is_empty(), bare);
        let different: HashSet<&i32> = named.iter().collect();
        self.note_if(different.len() < named.len(), Way::NamedTwice);
        self.note_if(!named.is_sorted(), Way::NotAscending);
    }

    /// Whether a stream moves nothing, and why, if it is named.
    fn note_nothing(&mut self, numbers: &Numbers, stream: i32, named: &[i32]) -> bool {
        let current = stream == numbers.current;
        let empty = numbers.streams[stream as usize].is_empty();
        if !named.is_empty() {
            self.note_if(current, Way::CurrentNamed);
            self.note_if(!current && empty, Way::EmptyNamed);
        }
        current || empty
    }

    /// What becomes of the numbers of a stream that is moved.
    fn note_move(&mut self, numbers: &Numbers, stream: i32) {
        let to = numbers.current;
        self.note(match to {
            0 => Way::MovedTo0,
            1..=9 => Way::MovedTo1To9,
            _ => Way::Lost,
        });
        let carried = &numbers.streams[stream as usize];
        let bytes: Vec<_> = carried
            .iter()
            .map(|&number| &numbers.bytes[number])
            .collect();
        let twice = bytes.iter().any(|byte| !byte.moves.is_empty());
        self.note_if(twice, Way::MovedTwice);
        let back = bytes.iter().any(|byte| byte.route.contains(&to));
        self.note_if(back, Way::Back);
        let mut together = bytes.windows(2);
        let together = together.any(|pair| {
            (pair[0].first_place(), &pair[0].moves) == (pair[1].first_place(), &pair[1].moves)
        });
        self.note_if(together, Way::Together);
        let met = (0..=9).contains(&to) && !numbers.streams[to as usize].is_empty();
        self.note_if(met, Way::Met);
    }
}
