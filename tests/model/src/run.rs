//! A run: steps until an answer. 01: "A run is one call of the expander."

use crate::answer::{Refusal, Report, Setting};
use crate::history::Event;
use crate::house::Set;
use crate::predefined::Calls;
use crate::state::State;
use crate::step::{step, Progress};
use crate::LIMIT;

/// What a run did on its way, seen over its completed steps.
#[derive(Clone, Debug, Default, PartialEq, Eq)]
pub struct Trace {
    /// How often each predefined macro was called, closed or bare.
    pub calls: Calls,
    /// The most that each buffer held after a step.
    pub peaks: [usize; 7],
    /// How many steps took pending text and input: a token, or a line that was dropped, across the
    /// border.
    pub crossings: u64,
    /// What the steps did to the streams, in order, if it was recorded.
    pub history: Vec<Event>,
}

impl Trace {
    fn note(&mut self, state: &mut State, held: &[usize; 7]) {
        if let Some(which) = state.called.take() {
            self.calls[which as usize] += 1;
        }
        self.history.extend(state.streams.did());
        for (peak, held) in self.peaks.iter_mut().zip(held) {
            *peak = (*peak).max(*held);
        }
    }
}

/// Expands a text, which may include from a set in the house form.
pub fn expand(text: &[u8], set: &[u8], setting: &Setting) -> Report {
    expand_traced(text, set, setting).0
}

/// Expands a text and tells what the run did, but not its history.
pub fn expand_traced(text: &[u8], set: &[u8], setting: &Setting) -> (Report, Trace) {
    run(text, set, setting, false)
}

/// Expands a text and tells what the run did, with its history.
pub fn expand_recorded(text: &[u8], set: &[u8], setting: &Setting) -> (Report, Trace) {
    run(text, set, setting, true)
}

fn run(text: &[u8], set: &[u8], setting: &Setting, recorded: bool) -> (Report, Trace) {
    let mut trace = Trace::default();
    let set = match judge_lent(text, set, setting) {
        Ok(set) => set,
        // no input byte is taken before the first step
        Err(refusal) => return (refusal.report(0, 0), trace),
    };
    let mut state = State::at_start(text, set);
    if recorded {
        state.streams.record();
    }
    let mut steps = 0;
    loop {
        let place = state.ahead.place();
        match judged_step(&mut state, setting, steps, &mut trace) {
            // "on a refusal before the refused step"
            Err(refusal) => return (refusal.report(steps, place), trace),
            Ok(Progress::Going) => steps += 1,
            Ok(Progress::Done) => return (finished(state, 0, 0, steps + 1), trace),
            Ok(Progress::Exit(code)) => return (finished(state, 1, code, steps + 1), trace),
        }
    }
}

/// What is judged before the first step. 01: "Order: 2 first"; 02: "14 bad or overlong set, right
/// after 2".
fn judge_lent(text: &[u8], set: &[u8], setting: &Setting) -> Result<Set, Refusal> {
    let too_long = setting.lengths.iter().any(|&length| length > LIMIT);
    if text.len() > LIMIT || too_long {
        return Err(Refusal::Lend);
    }
    Set::read(set)
}

/// "before each step 3; within a step 5 to 13 come before 4"; so do 15 and 16, says 02.
fn judged_step(
    state: &mut State,
    setting: &Setting,
    steps: u32,
    trace: &mut Trace,
) -> Result<Progress, Refusal> {
    if steps == setting.budget {
        return Err(Refusal::Spent);
    }
    let (pending, place) = (state.ahead.held(), state.ahead.place());
    let progress = step(state)?;
    let held = state.held();
    judge_room(&held, &setting.lengths)?;
    trace.note(state, &held);
    trace.crossings += u64::from(pending > 0 && state.ahead.place() > place);
    Ok(progress)
}

/// 4: "after the step a buffer would hold more than its length"; "of several full buffers the
/// lowest number is named".
fn judge_room(held: &[usize; 7], lengths: &[usize; 7]) -> Result<(), Refusal> {
    match (0..7).find(|&buffer| held[buffer] > lengths[buffer]) {
        Some(buffer) => Err(Refusal::Room(buffer as u32 + 1)),
        None => Ok(()),
    }
}

/// Answers 0 and 1. The step that ends in them is counted, and the place is the count of input
/// bytes taken in all.
fn finished(state: State, number: u32, detail: u32, steps: u32) -> Report {
    Report {
        number,
        detail,
        steps,
        place: state.ahead.place() as u32,
        output: state.streams.output().to_vec(),
        errors: state.errors,
    }
}

/// Expands a text in lent buffers and leaves them as 01 says. Gives number, detail, completed
/// steps, place and the counts of output and error bytes.
pub fn expand_buffers(
    text: &[u8],
    set: &[u8],
    buffers: &mut [Vec<u8>; 7],
    budget: u32,
) -> [u32; 6] {
    let lengths = std::array::from_fn(|i| buffers[i].len());
    let report = expand(text, set, &Setting { lengths, budget });
    // "Buffers 1 to 5 are all zero afterwards, except with 2, which writes nothing."
    if report.number != Refusal::Lend.number() {
        buffers[..5].iter_mut().for_each(|buffer| buffer.fill(0));
    }
    // "those buffers hold that text from the front and their old bytes behind it"; nothing is
    // written on a refusal.
    buffers[5][..report.errors.len()].copy_from_slice(&report.errors);
    buffers[6][..report.output.len()].copy_from_slice(&report.output);
    [
        report.number,
        report.detail,
        report.steps,
        report.place,
        report.output.len() as u32,
        report.errors.len() as u32,
    ]
}
