//! Takes the steps of a run once more and notes what became of open comments. That is told by what
//! their step did, not by the rule, and then held to what 02 asks.

use super::open::{contains, Open};
use super::{Remark, Remarks};
use crate::ahead::Ahead;
use crate::predefined::Predefined;
use crate::state::State;
use crate::step::{step, Progress};
use crate::Report;

/// A run on its way.
pub struct Walk<'w, 't> {
    remarks: &'w mut Remarks,
    state: State<'t>,
    /// How the comment marks in force were set.
    marks_by: Remark,
    /// Whether wrap text became pending.
    wrapped: bool,
    /// Whether the last step took an open comment.
    behind: bool,
    /// What an open comment did that 02 does not ask of it.
    pub verdict: Result<(), String>,
}

impl<'w, 't> Walk<'w, 't> {
    pub fn at_start(remarks: &'w mut Remarks, state: State<'t>) -> Walk<'w, 't> {
        Walk {
            remarks,
            state,
            marks_by: Remark::MarksOfStart,
            wrapped: false,
            behind: false,
            verdict: Ok(()),
        }
    }

    /// Takes a step that the run completed.
    pub fn completed(&mut self) {
        let open = Open::at_front(&self.state);
        match &open {
            Some(open) => self.comment(open),
            None => self.other(),
        }
        self.behind = open.is_some();
    }

    /// Takes an open comment.
    fn comment(&mut self, open: &Open) {
        step(&mut self.state).expect("a completed step");
        if let Err(fault) = open.taken_as_asked(&self.state) {
            self.verdict = Err(fault);
        }
        self.remarks.note(self.marks_by);
        self.note_target(open);
        self.note_place(open);
        self.note_wrap();
        if open.bytes.len() == open.mark {
            self.remarks.note(Remark::OnlyMark);
        }
    }

    /// Takes a step that takes none.
    fn other(&mut self) {
        self.note_lookalike();
        let at_end = self.state.ahead.length() == 0;
        let arguments = self
            .state
            .calls
            .innermost()
            .map(|call| call.arguments.len());
        self.state.called = None;
        let progress = step(&mut self.state).expect("a completed step");
        if self.state.called == Some(Predefined::Changecom) {
            self.marks_by = match arguments {
                Some(1) => Remark::OneArgument,
                _ => Remark::NewlineGiven,
            };
        }
        self.wrapped |= at_end && progress == Progress::Going;
        if self.behind && progress == Progress::Done {
            self.remarks.note(Remark::ThenDone);
        }
    }

    /// What would be an open comment if comments were on, or if its mark were whole.
    fn note_lookalike(&mut self) {
        let ahead = &self.state.ahead;
        let way = match &self.state.marks.comment {
            None if ahead.matches(0, b"#") && !newline_in(ahead) => Remark::Off,
            Some(marks) if half_a_mark(&marks.begin, ahead) => Remark::HalfMark,
            _ => return,
        };
        self.remarks.note(way);
    }

    /// Where the comment of the last step went.
    fn note_target(&mut self, open: &Open) {
        let way = match self.state.streams.current() {
            _ if open.collecting => Remark::InCall,
            0 => Remark::ToOutput,
            1..=9 => Remark::ToStream,
            _ => Remark::Discarded,
        };
        self.remarks.note(way);
        if open.collecting {
            self.note_call(open);
        }
    }

    /// More of a comment that was collected.
    fn note_call(&mut self, open: &Open) {
        if open.bytes.contains(&b')') {
            self.remarks.note(Remark::ParenthesisInCall);
        }
        if self.wrapped {
            self.remarks.note(Remark::WrapInCall);
        } else if open.pending() > 0 {
            self.remarks.note(Remark::PendingInCall);
        }
    }

    /// Where the comment of the last step stood. Wrap text is pending and has ways of its own.
    fn note_place(&mut self, open: &Open) {
        let way = match open.pending() {
            _ if self.wrapped => return,
            0 => Remark::InInput,
            pending if pending == open.bytes.len() => Remark::InPending,
            pending if pending < open.mark => Remark::MarkAcross,
            _ => Remark::Across,
        };
        self.remarks.note(way);
    }

    /// Which wrap text the comment of the last step stood in or before.
    fn note_wrap(&mut self) {
        let way = match (self.wrapped, self.state.wrap.is_empty()) {
            (false, true) => return,
            (false, false) => Remark::BeforeWrap,
            (true, false) => Remark::WrapBeforeWrap,
            (true, true) => Remark::LastWrap,
        };
        self.remarks.note(way);
    }

    /// Looks at the step that was refused, if one was.
    pub fn refused(&mut self, report: &Report) {
        match (report.number, report.detail, Open::at_front(&self.state)) {
            // no step was refused, or none was due yet
            (0..=2 | 14, ..) => {}
            (number, detail, Some(open)) => self.note_refused([number, detail], &open),
            (5, 2, None) => {
                self.verdict = Err("no comment is open, and one is refused".to_string())
            }
            (5, 3, None) if self.behind => self.remarks.note(Remark::ThenOpenCall),
            (3, 0, None) if self.behind => self.remarks.note(Remark::ThenSpent),
            (5, 1, None) => self.note_quote(),
            _ => {}
        }
    }

    /// An open comment was refused, or there was no room or no step left for it.
    fn note_refused(&mut self, refusal: [u32; 2], open: &Open) {
        let way = match refusal {
            [5, 2] if !open.newline_ends => return self.note_other(open),
            [3, 0] if !open.newline_ends => return,
            [3, 0] => Remark::Spent,
            [4, 2] if open.newline_ends && open.collecting => Remark::Room2,
            [4, 4] if open.newline_ends && !open.collecting => Remark::Room4,
            [4, 7] if open.newline_ends && !open.collecting => Remark::Room7,
            other => {
                self.verdict = Err(format!("an open comment is refused by {other:?}"));
                return;
            }
        };
        self.remarks.note(way);
    }

    /// A comment was refused that another mark ends.
    fn note_other(&mut self, open: &Open) {
        let way = match self.state.streams.current() {
            _ if open.collecting => Remark::OtherInCall,
            0 => Remark::OtherMark,
            1..=9 => Remark::OtherToStream,
            _ => Remark::OtherDiscarded,
        };
        self.remarks.note(way);
        if self.wrapped {
            self.remarks.note(Remark::OtherInWrap);
        } else if open.pending() > 0 {
            self.remarks.note(Remark::OtherPending);
        }
        if open.bytes.contains(&b'\n') {
            self.remarks.note(Remark::OtherWithNewline);
        }
    }

    /// A quote was refused, maybe with a begin-comment mark in it.
    fn note_quote(&mut self) {
        let ahead = &self.state.ahead;
        let all = ahead.copy(0, ahead.length());
        let marks = self.state.marks.comment.as_ref();
        if marks.is_some_and(|marks| contains(&all, &marks.begin)) {
            self.remarks.note(Remark::InOpenQuote);
        }
    }
}

/// Whether a newline is ahead.
fn newline_in(ahead: &Ahead) -> bool {
    (0..ahead.length()).any(|at| ahead.byte(at) == Some(b'\n'))
}

/// Whether the text ahead is the front of a mark, and less than all of it.
fn half_a_mark(mark: &[u8], ahead: &Ahead) -> bool {
    let length = ahead.length();
    0 < length && length < mark.len() && ahead.matches(0, &mark[..length])
}
