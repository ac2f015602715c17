//! For callers with a heap: buffers that are owned, and used again and again.

use crate::sheet::{self, Lines, NoSheet, Outcome, Sheet};
use crate::{expand, Buffer, Buffers, Expansion, Failure, Report, BUDGET, EMPTY_SET, LONGEST};
use alloc::{borrow::Cow, boxed::Box, vec, vec::Vec};
use core::fmt;

/// An expander that owns its seven buffers, and room for the lines of a sheet. They are made once; calls after that take nothing from
/// the heap.
///
/// ```
/// use quenhovach::{Buffer, Expander};
///
/// let mut expander = Expander::new()
///     .with_budget(100_000)
///     .with_room(Buffer::Output, 4096);
/// for (mast, expected) in [("lattice", &b"family=lattice\n"[..]), ("pier", b"family=pier\n")] {
///     let template = format!("define(`mast',`{mast}')family=mast\n");
///     let written = expander.expand(template.as_bytes())?;
///     assert_eq!(written.output, expected);
/// }
/// # Ok::<(), quenhovach::Failure>(())
/// ```
///
/// It knows nothing of the calls before: the same text gives the same answer each time.
pub struct Expander {
    /// By their numbers.
    lent: [Vec<u8>; 7],
    budget: u32,
    /// What a text may include.
    set: Cow<'static, [u8]>,
    /// Bytes of the last run's output and error text.
    written: [usize; 2],
    /// Of the last sheet; boxed for their size.
    lines: Box<Lines>,
    /// Whether the last run gave a sheet.
    is_sheet: bool,
}

/// What a run has written, in the buffers of its [`Expander`].
#[derive(Clone, Copy, Debug, PartialEq, Eq)]
pub struct Written<'a> {
    /// The output.
    pub output: &'a [u8],
    /// The error text, from `errprint`.
    pub errors: &'a [u8],
    /// The run's numbers.
    pub report: Report,
}

impl Expander {
    /// With 65,536 bytes for each buffer, the most that may be lent, [`BUDGET`] steps, and nothing to include.
    pub fn new() -> Expander {
        Expander {
            lent: [(); 7].map(|()| vec![0; LONGEST]),
            budget: BUDGET,
            set: Cow::Borrowed(EMPTY_SET),
            written: [0; 2],
            lines: Box::default(),
            is_sheet: false,
        }
    }

    /// With this many steps at most.
    pub fn with_budget(self, steps: u32) -> Expander {
        Expander {
            budget: steps,
            ..self
        }
    }

    /// With this set of texts to include: a [`Set`](crate::Set), or bytes that are one. It is kept, and the calls after that
    /// don't copy it. Bytes that are no good set are taken too, and each call is then refused ([`Answer::BadSet`](crate::Answer)).
    ///
    /// ```
    /// use quenhovach::{Answer, Expander, Set};
    ///
    /// let set = Set::of([("yard/guys.m4", "define(`guys', `3')")])?;
    /// let mut expander = Expander::new().with_set(set);
    /// let template = b"include(`yard/guys.m4')sinclude(`pier.m4')guy_count=guys";
    /// assert_eq!(expander.expand(template).expect("it is done").output, b"guy_count=3");
    ///
    /// let refused = expander.run(b"include(`pier.m4')");
    /// assert_eq!(refused.answer, Answer::NoItem);
    /// assert_eq!(Expander::new().with_set(b"no set").run(b"").answer, Answer::BadSet);
    /// # Ok::<(), quenhovach::set::TooLong>(())
    /// ```
    pub fn with_set(self, set: impl Into<Cow<'static, [u8]>>) -> Expander {
        let set = set.into();
        Expander { set, ..self }
    }

    /// With this many bytes for a buffer. Where they are more than 65,536, each call is refused ([`Answer::Lend`](crate::Answer)).
    /// What the last run has written is given up.
    pub fn with_room(mut self, buffer: Buffer, bytes: usize) -> Expander {
        self.lent[buffer as usize - 1] = vec![0; bytes];
        self.written = [0; 2];
        self.is_sheet = false;
        self
    }

    /// Expands a text, and gives what it has written if all went well: the run is done, or ended by `m4exit(0)`.
    ///
    /// # Errors
    ///
    /// Every refusal, and `m4exit` with another number than 0. The text of such a run goes with the error, copied; with
    /// [`run`](Expander::run) it is not.
    pub fn expand(&mut self, text: &[u8]) -> Result<Written<'_>, Failure> {
        let report = self.run(text).finished()?;
        let written = self.written(report);
        match report.exit_code() {
            None | Some(0) => Ok(written),
            Some(_) => Err(Failure::Exit(written.to_expansion())),
        }
    }

    /// Expands a text, whatever it comes to. The text that was written is in [`output`](Expander::output) and
    /// [`errors`](Expander::errors) until the next call.
    ///
    /// ```
    /// use quenhovach::{Answer, Expander};
    ///
    /// let mut expander = Expander::new();
    /// let report = expander.run(b"errprint(`look up')sway=on\nm4exit(3)");
    /// assert_eq!(report.answer, Answer::Exit(3));
    /// assert_eq!((expander.output(), expander.errors()), (&b"sway=on\n"[..], &b"look up"[..]));
    /// ```
    pub fn run(&mut self, text: &[u8]) -> Report {
        let buffers = buffers(&mut self.lent);
        let report = expand(text, &self.set, buffers, self.budget);
        self.written = [report.output, report.errors];
        self.is_sheet = false;
        report
    }

    /// Expands a text, and gives its sheet: the run is done, and its output is one.
    ///
    /// ```
    /// use quenhovach::{Expander, NoSheet, Reading, Set};
    ///
    /// let set = Set::of([("guys.m4", "define(`guys', `3')dnl\n")]).expect("it is short");
    /// let mut expander = Expander::new().with_set(set);
    /// let sheet = expander.expand_sheet(b"include(`guys.m4')guy_count=guys\nsway_gain=0.85\n")?;
    /// assert_eq!(sheet.get("guy_count"), Some(Reading::Number(3)));
    /// assert_eq!(sheet.get("sway_gain"), Some(Reading::Decimal(0.85)));
    /// # Ok::<(), NoSheet>(())
    /// ```
    ///
    /// # Errors
    ///
    /// Every refusal, `m4exit` with any number, and an output that is no sheet. What such a run has written goes with the error,
    /// copied; with [`run_sheet`](Expander::run_sheet) it is not.
    pub fn expand_sheet(&mut self, text: &[u8]) -> Result<Sheet<'_>, NoSheet> {
        let outcome = self.run_sheet(text);
        self.sheet_of(outcome)
    }

    /// Expands a text and reads the output as a sheet, whatever it comes to. The sheet, if there is one, is in
    /// [`sheet`](Expander::sheet), and what was written in [`output`](Expander::output) and [`errors`](Expander::errors), until the next
    /// call.
    ///
    /// ```
    /// use quenhovach::{sheet::BadLine, Expander};
    ///
    /// let mut expander = Expander::new();
    /// let outcome = expander.run_sheet(b"errprint(`look up')sway=on\n");
    /// assert!(outcome.is_sheet() && expander.sheet().is_some());
    /// assert_eq!(expander.errors(), b"look up");
    ///
    /// let outcome = expander.run_sheet(b"sway=on\nsway=off\n");
    /// assert_eq!(outcome.bad_line, Some(BadLine::Twice(2)));
    /// assert!(expander.sheet().is_none());
    /// assert_eq!(expander.output(), b"sway=on\nsway=off\n");
    /// ```
    pub fn run_sheet(&mut self, text: &[u8]) -> Outcome {
        let buffers = buffers(&mut self.lent);
        let outcome = sheet::expand(text, &self.set, buffers, self.budget, &mut self.lines);
        self.written = [outcome.report.output, outcome.report.errors];
        self.is_sheet = outcome.is_sheet();
        outcome
    }

    /// The sheet of the last run, where that was asked for one and gave it.
    pub fn sheet(&self) -> Option<Sheet<'_>> {
        self.is_sheet.then(|| self.lines.sheet(self.output()))
    }

    /// The sheet of the last run, which had this outcome.
    pub(crate) fn sheet_of(&self, outcome: Outcome) -> Result<Sheet<'_>, NoSheet> {
        let report = outcome.report.finished().map_err(Failure::from)?;
        let written = || self.written(report).to_expansion();
        match outcome.bad_line {
            Some(bad) => Err(NoSheet::BadLine(bad, written())),
            None => self.sheet().ok_or_else(|| Failure::Exit(written()).into()),
        }
    }

    /// What the last run, which had this report, has written.
    pub(crate) fn written(&self, report: Report) -> Written<'_> {
        Written {
            output: self.output(),
            errors: self.errors(),
            report,
        }
    }

    /// The output of the last run, of one that ended in `m4exit` too; empty after a refusal.
    pub fn output(&self) -> &[u8] {
        &self.lent[Buffer::Output as usize - 1][..self.written[0]]
    }

    /// The error text of the last run; empty after a refusal.
    pub fn errors(&self) -> &[u8] {
        &self.lent[Buffer::Errors as usize - 1][..self.written[1]]
    }
}

/// All seven, to be lent.
fn buffers(lent: &mut [Vec<u8>; 7]) -> Buffers<'_> {
    let [pending, calls, definitions, streams, wrap, errors, output] = lent;
    Buffers {
        pending,
        calls,
        definitions,
        streams,
        wrap,
        errors,
        output,
    }
}

impl Default for Expander {
    fn default() -> Expander {
        Expander::new()
    }
}

impl fmt::Debug for Expander {
    /// The lengths of the buffers and the set; what they hold would fill pages.
    fn fmt(&self, f: &mut fmt::Formatter<'_>) -> fmt::Result {
        f.debug_struct("Expander")
            .field("room", &self.lent.each_ref().map(Vec::len))
            .field("budget", &self.budget)
            .field("set", &self.set.len())
            .finish_non_exhaustive()
    }
}

impl Written<'_> {
    /// A copy that stands for itself.
    pub fn to_expansion(&self) -> Expansion {
        Expansion {
            output: self.output.to_vec(),
            errors: self.errors.to_vec(),
            report: self.report,
        }
    }
}
