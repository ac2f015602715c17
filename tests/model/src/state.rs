//! The standing state: all that one step takes and changes.

use crate::ahead::Ahead;
use crate::calls::OpenCalls;
use crate::definitions::Definitions;
use crate::house::Set;
use crate::marks::Marks;
use crate::predefined::Predefined;
use crate::streams::Streams;

/// "Each step takes the standing state and yields the next one."
#[derive(Debug)]
pub struct State<'a> {
    pub ahead: Ahead<'a>,
    pub marks: Marks,
    pub calls: OpenCalls,
    pub definitions: Definitions,
    pub streams: Streams,
    pub wrap: Vec<u8>,
    pub errors: Vec<u8>,
    /// What may be included. No step changes it.
    pub set: Set,
    /// The predefined macro that the last step called. It shapes nothing and serves the trace only.
    pub called: Option<Predefined>,
}

impl<'a> State<'a> {
    /// The state before the first step.
    pub fn at_start(input: &'a [u8], set: Set) -> State<'a> {
        State {
            ahead: Ahead::new(input),
            marks: Marks::at_start(),
            calls: OpenCalls::default(),
            definitions: Definitions::at_start(),
            streams: Streams::default(),
            wrap: Vec::new(),
            errors: Vec::new(),
            set,
            called: None,
        }
    }

    /// What each of the seven buffers holds.
    pub fn held(&self) -> [usize; 7] {
        [
            self.ahead.held(),
            self.calls.held(),
            self.definitions.held(),
            self.streams.held(),
            self.wrap.len(),
            self.errors.len(),
            self.streams.output().len(),
        ]
    }
}
