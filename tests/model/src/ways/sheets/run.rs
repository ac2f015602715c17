//! Ways of a text that is expanded and read.

use crate::predefined::Predefined::{self, *};
use crate::run::expand_traced;
use crate::sheet::case::Template;
use crate::sheet::{read, Expanded, Judged};
use crate::{Trace, LIMIT};

pub struct Run<'a> {
    template: &'a Template,
    expanded: &'a Expanded,
    trace: Trace,
    /// The expander's own number.
    run: u32,
    /// What was written, read as a sheet, and what all of the output buffer would be.
    written: Judged,
    with_old: Judged,
}

impl<'a> Run<'a> {
    pub fn of(template: &'a Template, expanded: &'a Expanded) -> Run<'a> {
        let Template {
            text, set, setting, ..
        } = template;
        let (report, trace) = expand_traced(text, set, setting);
        let output = &expanded.report.output;
        let mut whole = template.output(output.len());
        whole[..output.len()].copy_from_slice(output);
        Run {
            template,
            expanded,
            trace,
            run: report.number,
            written: read(output),
            with_old: read(&whole),
        }
    }

    fn number(&self, number: u32) -> bool {
        self.expanded.report.number == number
    }

    /// With room 4, this buffer.
    fn room(&self, buffer: u32) -> bool {
        self.number(4) && self.expanded.report.detail == buffer
    }

    fn errors(&self) -> bool {
        !self.expanded.report.errors.is_empty()
    }

    /// The run was done, whatever became of its text, and called this macro.
    fn done_with(&self, which: Predefined) -> bool {
        self.run == 0 && self.trace.calls[which as usize] > 0
    }

    /// How many bytes the output buffer has behind what was written.
    fn behind(&self) -> usize {
        self.template.setting.lengths[6] - self.expanded.report.output.len()
    }

    fn lines(judged: &Judged) -> usize {
        judged.as_ref().map_or(0, Vec::len)
    }

    /// Done, and a good sheet with the old bytes too.
    fn good_with_old(&self) -> bool {
        self.number(0) && self.with_old.is_ok() && self.with_old != self.written
    }

    /// All of the output buffer would be refused so.
    fn refused_with_old(&self, number: u32) -> bool {
        let refused = self.with_old.as_ref();
        refused.is_err_and(|refused| refused.number() == number)
    }

    fn steps_left(&self) -> u32 {
        self.template.setting.budget - self.expanded.report.steps
    }
}

type Way = (&'static str, fn(&Run) -> bool);

pub const WAYS: &[Way] = &[
    ("sheet: done", |r| r.number(0)),
    ("sheet: exit", |r| r.number(1)),
    ("sheet: 2", |r| r.number(2)),
    ("sheet: 3", |r| r.number(3)),
    ("sheet: 4, buffer 1", |r| r.room(1)),
    ("sheet: 4, buffer 2", |r| r.room(2)),
    ("sheet: 4, buffer 3", |r| r.room(3)),
    ("sheet: 4, buffer 4", |r| r.room(4)),
    ("sheet: 4, buffer 5", |r| r.room(5)),
    ("sheet: 4, buffer 6", |r| r.room(6)),
    ("sheet: 4, buffer 7", |r| r.room(7)),
    ("sheet: 5", |r| r.number(5)),
    ("sheet: 6", |r| r.number(6)),
    ("sheet: 7", |r| r.number(7)),
    ("sheet: 8", |r| r.number(8)),
    ("sheet: 9", |r| r.number(9)),
    ("sheet: 10", |r| r.number(10)),
    ("sheet: 11", |r| r.number(11)),
    ("sheet: 12", |r| r.number(12)),
    ("sheet: 13", |r| r.number(13)),
    ("sheet: 14", |r| r.number(14)),
    ("sheet: 15", |r| r.number(15)),
    ("sheet: 16", |r| r.number(16)),
    ("sheet: 20", |r| r.number(20)),
    ("sheet: 21", |r| r.number(21)),
    ("sheet: 22", |r| r.number(22)),
    ("sheet: no line", |r| {
        r.number(0) && r.expanded.report.output.is_empty()
    }),
    ("sheet: 256 lines", |r| {
        r.number(0) && Run::lines(&r.written) == 256
    }),
    ("sheet: 65,536 bytes", |r| {
        r.number(0) && r.expanded.report.output.len() == LIMIT
    }),
    ("sheet: done, error text", |r| r.number(0) && r.errors()),
    ("sheet: 20, error text", |r| r.number(20) && r.errors()),
    ("sheet: 21, error text", |r| r.number(21) && r.errors()),
    ("sheet: exit, error text", |r| r.number(1) && r.errors()),
    ("sheet: exit, a sheet written", |r| {
        r.number(1) && Run::lines(&r.written) > 0
    }),
    ("sheet: exit, no sheet written", |r| {
        r.number(1) && r.written.is_err()
    }),
    ("sheet: exit, its code that of a line", |r| {
        r.number(1)
            && r.written
                .as_ref()
                .is_err_and(|refused| refused.line == r.expanded.report.detail)
    }),
    ("sheet: a definition", |r| {
        r.number(0) && r.done_with(Define)
    }),
    ("sheet: diverted text", |r| {
        r.number(0) && r.done_with(Divert)
    }),
    ("sheet: wrap text", |r| r.number(0) && r.done_with(M4wrap)),
    ("sheet: included text", |r| {
        r.number(0) && r.done_with(Include)
    }),
    ("sheet: a number worked out", |r| {
        r.number(0) && r.done_with(Eval)
    }),
    ("sheet: a line dropped", |r| r.number(0) && r.done_with(Dnl)),
    ("sheet: 20, diverted text", |r| {
        r.number(20) && r.done_with(Divert)
    }),
    ("sheet: 20, a later line", |r| {
        r.number(20) && r.expanded.report.detail > 1
    }),
    ("sheet: exact output", |r| {
        r.number(0) && r.behind() == 0 && !r.expanded.report.output.is_empty()
    }),
    ("sheet: exact output, 20", |r| {
        r.number(20) && r.behind() == 0
    }),
    ("sheet: old bytes, another last reading", |r| {
        r.good_with_old() && Run::lines(&r.written) == Run::lines(&r.with_old)
    }),
    ("sheet: old bytes, another line", |r| {
        r.good_with_old() && Run::lines(&r.written) < Run::lines(&r.with_old)
    }),
    ("sheet: old bytes, 20 with them", |r| {
        r.number(0) && r.refused_with_old(20)
    }),
    ("sheet: old bytes, 21 with them", |r| {
        r.number(0) && r.refused_with_old(21)
    }),
    ("sheet: old bytes, 22 with them", |r| {
        r.number(0) && r.refused_with_old(22)
    }),
    ("sheet: 20, good with the old bytes", |r| {
        r.number(20) && r.with_old.is_ok()
    }),
    ("sheet: 20, 21 with the old bytes", |r| {
        r.number(20) && r.refused_with_old(21)
    }),
    ("sheet: 4 for a last newline", |r| {
        r.room(7) && r.template.text.ends_with(b"\n") && r.template.setting.lengths[6] > 0
    }),
    ("sheet: exact budget", |r| {
        r.number(0) && r.steps_left() == 0
    }),
    ("sheet: exact budget, 20", |r| {
        r.number(20) && r.steps_left() == 0
    }),
];
