//! The numbers of a run: 02, "Number each byte when it is first placed in a stream 0 to 9; it keeps
//! number and value."

use super::{keeps, Event};
use std::ops::RangeInclusive;

/// The streams that undivert and the end may move.
const DIVERTED: RangeInclusive<i32> = 1..=9;

/// A byte that has a number.
#[derive(Clone, Debug, PartialEq, Eq)]
pub struct Byte {
    pub value: u8,
    /// The streams in which it stood, oldest first: that in which it was first placed, and for each
    /// move that took it the stream that it was moved to. A byte that was lost has a last one that
    /// keeps nothing.
    pub route: Vec<i32>,
    /// The moves that took it, by their numbers in the run: each stream that an undivert takes is a
    /// move of its own, and the end is one.
    pub moves: Vec<usize>,
}

impl Byte {
    /// Where it was first placed.
    pub fn first_place(&self) -> i32 {
        self.route[0]
    }

    /// Where it stands, or where it was lost.
    pub fn last_place(&self) -> i32 {
        self.route[self.route.len() - 1]
    }

    /// Whether "an undivert moved [it] while a discarding stream was current".
    pub fn is_lost(&self) -> bool {
        !keeps(self.last_place())
    }
}

/// What a history comes to, so far.
#[derive(Clone, Debug, Default, PartialEq, Eq)]
pub struct Numbers {
    /// The current stream.
    pub current: i32,
    /// Streams 0 to 9, each a list of numbers.
    pub streams: [Vec<usize>; 10],
    /// All bytes that got a number, by their numbers from 0 on.
    pub bytes: Vec<Byte>,
    /// How many moves there were.
    moves: usize,
}

impl Numbers {
    /// What a whole history comes to.
    pub fn of(history: &[Event]) -> Numbers {
        let mut numbers = Numbers::default();
        history.iter().for_each(|event| numbers.take(event));
        numbers
    }

    /// Takes what one step did.
    pub fn take(&mut self, event: &Event) {
        match event {
            Event::Written(bytes) => bytes.iter().for_each(|&value| self.place(value)),
            Event::Diverted(stream) => self.current = *stream,
            Event::Undiverted(named) => {
                for stream in moved(named) {
                    self.undivert(stream);
                }
            }
            Event::Joined => self.join(),
            // no move: no route goes on
            Event::Dropped => self.streams[1..].iter_mut().for_each(Vec::clear),
        }
    }

    /// The next number for a byte that is first placed in a stream. What is discarded is placed
    /// nowhere.
    fn place(&mut self, value: u8) {
        if keeps(self.current) {
            self.streams[self.current as usize].push(self.bytes.len());
            self.bytes.push(Byte {
                value,
                route: vec![self.current],
                moves: Vec::new(),
            });
        }
    }

    /// Moves one stream to the current one, or loses it there; "skips the current stream".
    pub fn undivert(&mut self, stream: i32) {
        if stream != self.current {
            self.carry(stream, self.current);
            self.moves += 1;
        }
    }

    /// The end moves 1 to 9 to stream 0, whatever stream is current.
    fn join(&mut self) {
        DIVERTED.for_each(|stream| self.carry(stream, 0));
        self.moves += 1;
    }

    /// All numbers of a stream leave it for another, in their order. What stands there stays in front.
    fn carry(&mut self, from: i32, to: i32) {
        let carried = std::mem::take(&mut self.streams[from as usize]);
        for &number in &carried {
            self.bytes[number].route.push(to);
            self.bytes[number].moves.push(self.moves);
        }
        if keeps(to) {
            self.streams[to as usize].extend(carried);
        }
    }

    /// The numbers of the output: stream 0.
    pub fn output(&self) -> &[usize] {
        &self.streams[0]
    }

    /// The values that the numbers of the output have; nothing if one of them was never given.
    pub fn written(&self) -> Option<Vec<u8>> {
        let bytes = self.output().iter().map(|&number| self.bytes.get(number));
        bytes.map(|byte| byte.map(|byte| byte.value)).collect()
    }

    /// The route of each number.
    pub fn routes(&self) -> Vec<Vec<i32>> {
        self.bytes.iter().map(|byte| byte.route.clone()).collect()
    }
}

/// The streams that an undivert moves in turn; "undivert all nine" is the default.
pub fn moved(named: &[i32]) -> Vec<i32> {
    if named.is_empty() {
        DIVERTED.collect()
    } else {
        named.to_vec()
    }
}

#[cfg(test)]
mod tests {
    use super::*;
    use Event::*;

    fn of(history: &[Event]) -> Numbers {
        Numbers::of(history)
    }

    fn written(bytes: &[u8]) -> Event {
        Written(bytes.to_vec())
    }

    #[test]
    fn numbers_from_0_in_the_order_of_placing() {
        let numbers = of(&[written(b"ab"), Diverted(3), written(b"c"), written(b"")]);
        let values: Vec<u8> = numbers.bytes.iter().map(|byte| byte.value).collect();
        assert_eq!(values, b"abc");
        assert_eq!(numbers.routes(), [[0], [0], [3]]);
        assert_eq!(numbers.output(), [0, 1]);
        assert_eq!(numbers.streams[3], [2]);
    }

    #[test]
    fn what_is_discarded_has_no_number() {
        for stream in [-1, 10, i32::MIN, i32::MAX] {
            let numbers = of(&[Diverted(stream), written(b"x"), Diverted(9), written(b"y")]);
            assert_eq!(numbers.routes(), [[9]]);
            assert_eq!(numbers.bytes[0].value, b'y');
        }
    }

    #[test]
    fn there_and_back_is_two_moves() {
        let there = [Diverted(2), written(b"x"), Diverted(1), Undiverted(vec![2])];
        let back = [Diverted(2), Undiverted(vec![1]), Joined];
        let numbers = of(&[&there[..], &back].concat());
        assert_eq!(numbers.bytes[0].route, [2, 1, 2, 0]);
        assert_eq!(numbers.bytes[0].moves, [0, 1, 2]);
    }

    #[test]
    fn the_current_stream_stays() {
        let history = [Diverted(2), written(b"x"), Undiverted(vec![2, 2])];
        assert_eq!(of(&history).routes(), [[2]]);
        assert_eq!(of(&history).bytes[0].moves, [0; 0]);
        let all = [Diverted(2), written(b"x"), Undiverted(vec![])];
        assert_eq!(of(&all).routes(), [[2]]);
    }

    #[test]
    fn lost_where_nothing_is_kept() {
        let history = [
            Diverted(4),
            written(b"x"),
            Diverted(10),
            Undiverted(vec![4]),
            Joined,
        ];
        let numbers = of(&history);
        assert_eq!(numbers.bytes[0].route, [4, 10]);
        assert!(numbers.bytes[0].is_lost());
        assert_eq!(numbers.streams, <[Vec<usize>; 10]>::default());
    }

    #[test]
    fn in_the_order_of_the_names() {
        let placed = [
            Diverted(1),
            written(b"a"),
            Diverted(2),
            written(b"b"),
            Diverted(0),
        ];
        let output = |named: &[i32]| {
            let mut numbers = of(&placed);
            numbers.take(&Undiverted(named.to_vec()));
            numbers.output().to_vec()
        };
        assert_eq!(output(&[2, 1]), [1, 0]);
        assert_eq!(output(&[1, 2, 1]), [0, 1]);
        assert_eq!(output(&[2]), [1]);
        assert_eq!(output(&[]), [0, 1]);
    }

    #[test]
    fn the_end_takes_1_to_9_and_m4exit_nothing() {
        let placed = [
            Diverted(9),
            written(b"a"),
            Diverted(1),
            written(b"b"),
            Diverted(0),
            written(b"c"),
            Diverted(-1),
        ];
        let end = |event| {
            let mut numbers = of(&placed);
            numbers.take(&event);
            (numbers.output().to_vec(), numbers.routes())
        };
        assert_eq!(
            end(Joined),
            (vec![2, 1, 0], vec![vec![9, 0], vec![1, 0], vec![0]])
        );
        assert_eq!(end(Dropped), (vec![2], vec![vec![9], vec![1], vec![0]]));
    }
}
