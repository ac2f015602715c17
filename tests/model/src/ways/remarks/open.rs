//! A comment at the front of the text ahead that no end mark closes, and what its way depends on.

use crate::state::State;
use crate::ways::held_if_placed;

pub struct Open {
    /// All of the text ahead.
    pub bytes: Vec<u8>,
    /// The length of the begin mark.
    pub mark: usize,
    /// Whether the end mark is a newline.
    pub newline_ends: bool,
    /// What the buffers hold before its step.
    held: [usize; 7],
    /// Whether a call is open before its step.
    pub collecting: bool,
}

impl Open {
    /// The comment there, if there is one.
    pub fn at_front(state: &State) -> Option<Open> {
        let marks = state.marks.comment.as_ref()?;
        if !state.ahead.matches(0, &marks.begin) {
            return None;
        }
        let bytes = state.ahead.copy(0, state.ahead.length());
        let mark = marks.begin.len();
        let closed = contains(&bytes[mark..], &marks.end);
        (!closed).then(|| Open {
            bytes,
            mark,
            newline_ends: marks.end == b"\n",
            held: state.held(),
            collecting: state.calls.collecting(),
        })
    }

    /// How many bytes are pending.
    pub fn pending(&self) -> usize {
        self.held[0]
    }

    /// Whether a step took it as 02 asks: the end of the text ahead closes it, and it went to one
    /// place, whole, with nothing added.
    pub fn taken_as_asked(&self, after: &State) -> Result<(), String> {
        let held = held_if_placed(&self.held, self.bytes.len(), self.collecting, after);
        if !self.newline_ends {
            return Err("the end closes a comment that another mark ends".to_string());
        }
        if after.ahead.length() > 0 || after.held() != held {
            let left = after.ahead.length();
            let kept = after.held();
            return Err(format!("it leaves {left}, {kept:?} instead of 0, {held:?}"));
        }
        if !self.stands_last(after) {
            return Err("its place does not end in its bytes".to_string());
        }
        Ok(())
    }

    /// Whether the argument or the output that it went to ends in its bytes. Other streams do not
    /// show theirs.
    fn stands_last(&self, after: &State) -> bool {
        if self.collecting {
            let argument = after
                .calls
                .innermost()
                .and_then(|call| call.arguments.last());
            return argument.is_some_and(|argument| argument.ends_with(&self.bytes));
        }
        after.streams.current() != 0 || after.streams.output().ends_with(&self.bytes)
    }
}

/// Whether a part stands anywhere in the bytes.
pub fn contains(bytes: &[u8], part: &[u8]) -> bool {
    bytes.windows(part.len()).any(|window| window == part)
}
