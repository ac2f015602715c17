//! The ways of request 3 of 02: comments that the end of the text ahead closes, and those that it
//! does not close. Tests look here at runs from outside.

mod open;
mod walk;

use super::start;
use crate::Report;
use walk::Walk;

/// Where an open comment stood at the end of the text ahead, and what came of it.
#[derive(Clone, Copy, Debug, PartialEq, Eq)]
pub enum Remark {
    ToOutput,
    ToStream,
    Discarded,
    InCall,
    ParenthesisInCall,
    PendingInCall,
    WrapInCall,
    OnlyMark,
    InInput,
    InPending,
    Across,
    MarkAcross,
    BeforeWrap,
    WrapBeforeWrap,
    LastWrap,
    MarksOfStart,
    OneArgument,
    NewlineGiven,
    ThenDone,
    ThenOpenCall,
    ThenSpent,
    Spent,
    Room2,
    Room4,
    Room7,
    OtherMark,
    OtherInCall,
    OtherPending,
    OtherInWrap,
    OtherToStream,
    OtherDiscarded,
    OtherWithNewline,
    HalfMark,
    Off,
    InOpenQuote,
}

const REMARKS: [(Remark, &str); 35] = [
    (Remark::ToOutput, "remark to output"),
    (Remark::ToStream, "remark to a stream"),
    (Remark::Discarded, "remark discarded"),
    (Remark::InCall, "remark in a call"),
    (Remark::ParenthesisInCall, "in a call, with )"),
    (Remark::PendingInCall, "in a call, pending"),
    (Remark::WrapInCall, "in a call of wrap"),
    (Remark::OnlyMark, "only its mark"),
    (Remark::InInput, "remark in the input"),
    (Remark::InPending, "remark in pending"),
    (Remark::Across, "across the border"),
    (Remark::MarkAcross, "its mark across it"),
    (Remark::BeforeWrap, "before waiting wrap"),
    (Remark::WrapBeforeWrap, "in wrap, more waits"),
    (Remark::LastWrap, "in the last wrap"),
    (Remark::MarksOfStart, "marks of the start"),
    (Remark::OneArgument, "one argument"),
    (Remark::NewlineGiven, "newline given"),
    (Remark::ThenDone, "remark, then done"),
    (Remark::ThenOpenCall, "remark, open call"),
    (Remark::ThenSpent, "spent behind it"),
    (Remark::Spent, "spent before it"),
    (Remark::Room2, "remark, no room 2"),
    (Remark::Room4, "remark, no room 4"),
    (Remark::Room7, "remark, no room 7"),
    (Remark::OtherMark, "other end mark"),
    (Remark::OtherInCall, "other, in a call"),
    (Remark::OtherPending, "other, pending"),
    (Remark::OtherInWrap, "other, in wrap"),
    (Remark::OtherToStream, "other, to a stream"),
    (Remark::OtherDiscarded, "other, discarding"),
    (Remark::OtherWithNewline, "other, with newline"),
    (Remark::HalfMark, "half a mark"),
    (Remark::Off, "comments are off"),
    (Remark::InOpenQuote, "in an open quote"),
];

/// How often each way was taken.
pub struct Remarks {
    taken: [u64; REMARKS.len()],
}

impl Default for Remarks {
    fn default() -> Remarks {
        Remarks {
            taken: [0; REMARKS.len()],
        }
    }
}

impl Remarks {
    /// Notes what the run of a text with a set did that ended in this report. Fails if an open
    /// comment did not do what 02 asks.
    pub fn walk(&mut self, text: &[u8], set: &[u8], report: &Report) -> Result<(), String> {
        let mut walk = Walk::at_start(self, start(text, set));
        for _ in 0..report.steps {
            walk.completed();
        }
        walk.refused(report);
        walk.verdict
    }

    fn note(&mut self, way: Remark) {
        self.taken[way as usize] += 1;
    }

    /// Every count, with its name. None must stay 0.
    pub fn counts(&self) -> [(&'static str, u64); REMARKS.len()] {
        REMARKS.map(|(way, name)| (name, self.taken[way as usize]))
    }
}

#[cfg(test)]
mod tests {
    use super::*;
    use crate::{expand, Setting, NO_ITEMS};
    use Remark::*;

    /// The ways of a text, in the order of the list.
    fn ways(text: &str, setting: &Setting) -> Vec<Remark> {
        let mut remarks = Remarks::default();
        let report = expand(text.as_bytes(), NO_ITEMS, setting);
        let verdict = remarks.walk(text.as_bytes(), NO_ITEMS, &report);
        assert_eq!(verdict, Ok(()), "{text}");
        let all = REMARKS.into_iter().map(|(way, _)| way);
        all.filter(|&way| remarks.taken[way as usize] > 0).collect()
    }

    #[test]
    fn ways_of_texts() {
        let cases: [(&str, &[Remark]); 18] = [
            ("a#b\n", &[]),
            ("#", &[ToOutput, OnlyMark, InInput, MarksOfStart, ThenDone]),
            ("divert(1)#a", &[ToStream, InInput, MarksOfStart, ThenDone]),
            (
                "divert(-1)#a",
                &[Discarded, InInput, MarksOfStart, ThenDone],
            ),
            (
                "changecom(`[')len([a)",
                &[
                    InCall,
                    ParenthesisInCall,
                    InInput,
                    OneArgument,
                    ThenOpenCall,
                ],
            ),
            (
                "define(`p',`#a')len(p",
                &[InCall, PendingInCall, InPending, MarksOfStart, ThenOpenCall],
            ),
            (
                "changecom(`[',`\n')define(`p',`[')p()a",
                &[ToOutput, Across, NewlineGiven, ThenDone],
            ),
            (
                "changecom(`[[')define(`p',`[')p()[a",
                &[ToOutput, MarkAcross, OneArgument, ThenDone],
            ),
            (
                "m4wrap(`x')#a",
                &[ToOutput, InInput, BeforeWrap, MarksOfStart],
            ),
            (
                "m4wrap(`m4wrap(`x')#a')",
                &[ToOutput, WrapBeforeWrap, MarksOfStart],
            ),
            (
                "m4wrap(`len(#a')",
                &[InCall, WrapInCall, LastWrap, MarksOfStart, ThenOpenCall],
            ),
            ("changecom(`[',`]')[a\n", &[OtherMark, OtherWithNewline]),
            (
                "changecom(`[',`]')define(`p',`[')len(p",
                &[OtherInCall, OtherPending],
            ),
            (
                "m4wrap(`divert(1)[')changecom(`[',`]')",
                &[OtherInWrap, OtherToStream],
            ),
            ("changecom(`[',`]')divert(-1)[", &[OtherDiscarded]),
            ("changecom(`[[')a[", &[HalfMark]),
            ("changecom#a", &[Off]),
            ("`#a", &[InOpenQuote]),
        ];
        for (text, expected) in cases {
            assert_eq!(ways(text, &Setting::ample()), expected, "{text}");
        }
    }

    #[test]
    fn ways_of_settings() {
        let spent = |budget| Setting {
            budget,
            ..Setting::ample()
        };
        assert_eq!(ways("#a", &spent(0)), [Spent]);
        assert_eq!(
            ways("#a", &spent(1)),
            [ToOutput, InInput, MarksOfStart, ThenSpent]
        );
        let short = |buffer: usize, length| {
            let mut setting = Setting::ample();
            setting.lengths[buffer - 1] = length;
            setting
        };
        assert_eq!(ways("len(#a", &short(2, 4)), [Room2]);
        assert_eq!(ways("divert(1)#a", &short(4, 1)), [Room4]);
        assert_eq!(ways("#a", &short(7, 1)), [Room7]);
    }

    /// An answer that 02 does not ask for is found out.
    #[test]
    fn faults() {
        let faulty = |text: &str, other: &str| {
            let report = expand(other.as_bytes(), NO_ITEMS, &Setting::ample());
            let verdict = Remarks::default().walk(text.as_bytes(), NO_ITEMS, &report);
            verdict.is_err()
        };
        // refused as if another mark ended the comment: both reports have five steps before
        assert!(faulty("a,,,,#a", "changecom(`[',`]')[a"));
        assert!(!faulty("a,,,,#a", "a,,,,#a"));
    }
}
