//! One step. 01: "A step takes one token, and all its consequences belong to that step."

use crate::answer::{Open, Refusal};
use crate::definitions::Meaning;
use crate::expansion::substitute;
use crate::macros::{perform, Outcome};
use crate::state::State;
use crate::tokens::{next, Token};

/// Whether the run goes on after a step.
#[derive(Clone, Copy, Debug, PartialEq, Eq)]
pub enum Progress {
    Going,
    /// Answer 0: "the text is used up".
    Done,
    /// Answer 1, with the code of m4exit.
    Exit(u32),
}

/// Takes one token with all its consequences. A refusal may leave the state half changed; it ends
/// the run.
pub fn step(state: &mut State) -> Result<Progress, Refusal> {
    let read = next(&state.ahead, &state.marks)?;
    state.ahead.take(read.length);
    match read.token {
        Token::End => end(state),
        Token::Comment(bytes) | Token::Quoted(bytes) => Ok(place_text(state, &bytes)),
        Token::Name(name) => take_name(state, name),
        Token::Byte(byte) => take_byte(state, byte),
    }
}

/// "At end: an open call is refused; else waiting wrap text of one byte or more, joined in call
/// order, becomes pending; else streams 1 to 9 are appended to the output in order and the run is
/// done."
fn end(state: &mut State) -> Result<Progress, Refusal> {
    if state.calls.collecting() {
        return Err(Refusal::Unclosed(Open::Call));
    }
    if !state.wrap.is_empty() {
        let wrap = std::mem::take(&mut state.wrap);
        state.ahead.make_pending(&wrap);
        return Ok(Progress::Going);
    }
    state.streams.finish();
    Ok(Progress::Done)
}

/// Collects text for an open call; "Outside calls, tokens go to the current stream."
fn place_text(state: &mut State, bytes: &[u8]) -> Progress {
    if state.calls.collecting() {
        state.calls.collect(bytes);
    } else {
        state.streams.write(bytes);
    }
    Progress::Going
}

/// "A defined name directly followed by `(` opens a call, and that byte belongs to the same step.
/// Otherwise it is called at once without arguments"; but 02, request 2: some predefined meanings
/// "shall stand as plain text unless `(` directly follows", and then a name of such a meaning is a
/// token for itself, delivered or collected like a name without a definition.
fn take_name(state: &mut State, name: Vec<u8>) -> Result<Progress, Refusal> {
    let Some(meaning) = state.definitions.newest(&name) else {
        return Ok(place_text(state, &name));
    };
    if state.ahead.byte(0) == Some(b'(') {
        state.ahead.take(1);
        state.calls.open(name)?;
        return Ok(Progress::Going);
    }
    if meaning.needs_parenthesis() {
        return Ok(place_text(state, &name));
    }
    call(state, &name, &[])
}

fn take_byte(state: &mut State, byte: u8) -> Result<Progress, Refusal> {
    if !state.calls.collecting() {
        return Ok(place_text(state, &[byte]));
    }
    match state.calls.take_byte(byte)? {
        Some(closed) => call(state, &closed.name, &closed.arguments),
        None => Ok(Progress::Going),
    }
}

/// "The definition used is the one in force at closing." Without one the call is gone.
fn call(state: &mut State, name: &[u8], arguments: &[Vec<u8>]) -> Result<Progress, Refusal> {
    let outcome = match state.definitions.newest(name) {
        None => return Err(Refusal::Gone),
        Some(Meaning::Text(text)) => {
            Outcome::Result(substitute(text, name, arguments, &state.marks.quote))
        }
        Some(&Meaning::Predefined(which)) => {
            state.called = Some(which);
            perform(which, state, arguments)?
        }
    };
    match outcome {
        Outcome::Exit(code) => Ok(Progress::Exit(code)),
        Outcome::Result(result) => {
            state.ahead.push_back(&result);
            Ok(Progress::Going)
        }
    }
}
