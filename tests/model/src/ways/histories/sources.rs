//! What the text ahead comes from: wrap text, and results of calls that collected text before.

use crate::state::State;
use crate::tokens::{Read, Token};

/// The result of a call that is not used up.
struct CallResult {
    arguments: Vec<Vec<u8>>,
    /// How many bytes stand behind it.
    behind: usize,
}

#[derive(Default)]
pub struct Sources {
    /// Whether wrap text became pending: there is no input any more.
    pub wrapped: bool,
    /// Results in results, the innermost last.
    results: Vec<CallResult>,
    /// Before the step that is due: the arguments of the call that it may close, how many calls are
    /// open, and how many bytes stand behind its token.
    closing: Option<Vec<Vec<u8>>>,
    calls: usize,
    behind: usize,
}

impl Sources {
    /// The step of a token is due.
    pub fn before(&mut self, state: &State, read: &Read) {
        let ahead = state.ahead.length();
        self.results.retain(|result| result.behind < ahead);
        self.wrapped |= read.token == Token::End;
        self.calls = state.calls.count();
        self.behind = ahead - read.length;
        self.closing = match (&read.token, state.calls.innermost()) {
            (Token::Byte(b')'), Some(call)) => Some(call.arguments.clone()),
            _ => None,
        };
    }

    /// It was taken.
    pub fn after(&mut self, state: &State) {
        let closed = state.calls.count() < self.calls;
        let behind = self.behind;
        if let Some(arguments) = self.closing.take().filter(|_| closed) {
            self.results.push(CallResult { arguments, behind });
        }
    }

    /// Whether these bytes, which the step wrote, were collected in a call whose result they stood in.
    pub fn collected(&self, bytes: &[u8]) -> bool {
        let mut arguments = self.results.iter().flat_map(|result| &result.arguments);
        arguments.any(|argument| argument.windows(bytes.len()).any(|part| part == bytes))
    }
}
