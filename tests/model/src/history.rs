//! Request 8 of document 02, "Every byte once": the history of a run, and the numbers that it gives to
//! the bytes of the streams.
//!
//! "The numbers come from the history of steps and not from the stored lengths": a history is what the
//! steps of a run did to the streams, one thing after the other, as each step said it. No stream of a
//! state is looked at. From the history alone come the numbers ([`numbers`]); what the request says of
//! them and of the output is in [`sentences`].

pub mod numbers;
pub mod sentences;

pub use numbers::{Byte, Numbers};
pub use sentences::check;

/// What a step did to the streams.
#[derive(Clone, Debug, PartialEq, Eq)]
pub enum Event {
    /// The bytes of a token went to the current stream, or were discarded there.
    Written(Vec<u8>),
    /// divert made a stream the current one.
    Diverted(i32),
    /// undivert moved these streams in turn; all nine if none is named.
    Undiverted(Vec<i32>),
    /// The end: "streams 1 to 9 are appended to the output in order and the run is done".
    Joined,
    /// m4exit: "streams 1 to 9 and wrap text are dropped".
    Dropped,
}

/// Whether text that goes to a stream stays there: 01, "divert outside 0 to 9 discards".
pub fn keeps(stream: i32) -> bool {
    (0..=9).contains(&stream)
}
