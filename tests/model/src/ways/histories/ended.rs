//! How a run ends, and what its output holds.

use super::{Histories, Way};
use crate::history::Numbers;
use std::collections::HashMap;

impl Histories {
    /// The end step is due.
    pub fn note_joined(&mut self, numbers: &Numbers) {
        let standing = standing(numbers);
        self.note_if(standing > 0, Way::Joined);
        self.note_if(standing > 1, Way::JoinedSeveral);
        self.note_current(numbers, Way::DoneInStream, Way::DoneDiscarding);
        let kept = numbers.bytes.iter().any(|byte| !byte.is_lost());
        self.note_if(lost(numbers) && kept, Way::LostBesideKept);
    }

    /// m4exit is due.
    pub fn note_dropped(&mut self, numbers: &Numbers) {
        self.note_if(standing(numbers) > 0, Way::Dropped);
        self.note_current(numbers, Way::ExitInStream, Way::ExitDiscarding);
        let mut output = numbers.output().iter();
        let moved = output.any(|&number| !numbers.bytes[number].moves.is_empty());
        self.note_if(moved, Way::MovedThenExit);
        self.note_if(lost(numbers), Way::LostThenExit);
    }

    /// One way for a current stream 1 to 9, and one for a discarding one.
    fn note_current(&mut self, numbers: &Numbers, stream: Way, discarding: Way) {
        match numbers.current {
            0 => {}
            1..=9 => self.note(stream),
            _ => self.note(discarding),
        }
    }

    /// The run is finished.
    pub fn note_output(&mut self, numbers: &Numbers) {
        self.note_if(numbers.bytes.is_empty(), Way::NoNumber);
        self.note_if(!numbers.output().is_sorted(), Way::OutOfOrder);
        self.note_if(one_route_in_two_moves(numbers), Way::EqualRoute);
    }
}

/// How many of the streams 1 to 9 hold something.
fn standing(numbers: &Numbers) -> usize {
    let diverted = numbers.streams[1..].iter();
    diverted.filter(|stream| !stream.is_empty()).count()
}

fn lost(numbers: &Numbers) -> bool {
    numbers.bytes.iter().any(|byte| byte.is_lost())
}

/// Whether two numbers of the output went one route, but not in the same moves.
fn one_route_in_two_moves(numbers: &Numbers) -> bool {
    let mut moves = HashMap::new();
    let mut bytes = numbers
        .output()
        .iter()
        .map(|&number| &numbers.bytes[number]);
    bytes.any(|byte| {
        moves
            .insert(&byte.route, &byte.moves)
            .is_some_and(|last| *last != byte.moves)
    })
}
