//! A refused run as an error.

use crate::{Answer, LineIndex, Position, Report};
use core::{error::Error, fmt};

/// A run that gave no text.
#[derive(Clone, Copy, Debug, PartialEq, Eq, Hash)]
pub struct Refusal {
    /// The run's numbers; the answer is a refusal.
    pub report: Report,
}

impl Report {
    /// The report of a run that gave text, for `?`. Where `m4exit` ended it, that may be a failure to the template:
    /// [`exit_code`](Report::exit_code) has its number.
    ///
    /// ```
    /// use quenhovach::{expand, Buffers, EMPTY_SET};
    ///
    /// let refusal = expand(b"`on", EMPTY_SET, Buffers::default(), 100).finished().unwrap_err();
    /// assert_eq!(refusal.to_string(), "a quote is not closed (place 0, after 0 steps)");
    /// ```
    ///
    /// # Errors
    ///
    /// Every answer but done and exit.
    pub fn finished(self) -> Result<Report, Refusal> {
        if self.answer.is_refusal() {
            return Err(Refusal { report: self });
        }
        Ok(self)
    }
}

impl Refusal {
    /// Line and column of the place in the text of the run. None with [`Answer::Lend`] and [`Answer::BadSet`], where nothing of
    /// the text was read, and where the place is beyond its end, so that it isn't the run's. Where the run was reading included
    /// text, or text that a macro gave, the place is behind the call that gave it.
    ///
    /// ```
    /// use quenhovach::{expand, Buffers, EMPTY_SET};
    ///
    /// let text = b"\n\n`on";
    /// let buffers = Buffers { output: &mut [0; 2], ..Buffers::default() };
    /// let refusal = expand(text, EMPTY_SET, buffers, 100).finished().unwrap_err();
    /// assert_eq!(refusal.position(text).unwrap().to_string(), "3:1");
    /// assert_eq!(refusal.position(b""), None);
    /// ```
    ///
    /// Each call builds an index of the lines. A [`LineIndex`] is for many places of one text.
    pub fn position(&self, text: &[u8]) -> Option<Position> {
        if matches!(self.report.answer, Answer::Lend | Answer::BadSet) {
            return None;
        }
        let index = LineIndex::new(text).ok()?;
        index.position(self.report.place).ok()
    }
}

impl fmt::Display for Refusal {
    fn fmt(&self, f: &mut fmt::Formatter<'_>) -> fmt::Result {
        let Report {
            answer,
            steps,
            place,
            ..
        } = self.report;
        write!(f, "{answer} (place {place}, after {steps} steps)")
    }
}

impl Error for Refusal {}

#[cfg(test)]
mod tests {
    use super::*;
    use crate::{expand, Buffers, EMPTY_SET};

    #[test]
    fn it_is_an_error_for_core_alone() {
        let refusal = expand(b"", EMPTY_SET, Buffers::default(), 0).finished();
        let error: &dyn Error = &refusal.expect_err("no step may be made");
        assert!(error.source().is_none());
    }

    #[test]
    fn where_nothing_was_read_there_is_no_position() {
        let text = [b'\n'; crate::LONGEST + 1];
        let refusal = expand(&text, EMPTY_SET, Buffers::default(), 9).finished();
        let refusal = refusal.expect_err("it is too long");
        assert_eq!(refusal.position(&text), None);
        assert_eq!(refusal.position(b""), None);
        let refusal = expand(b"a", b"", Buffers::default(), 9).finished();
        let refusal = refusal.expect_err("no bytes are no set");
        assert_eq!(refusal.position(b"a"), None);
        let refusal = expand(b"", EMPTY_SET, Buffers::default(), 0).finished();
        let refusal = refusal.expect_err("no step may be made");
        let (line, column) = (1, 1);
        assert_eq!(refusal.position(b""), Some(Position { line, column }));
        assert_eq!(refusal.position(&text), None);
    }

    #[test]
    fn done_and_exit_are_finished() {
        let finished = |text: &[u8]| expand(text, EMPTY_SET, Buffers::default(), 9).finished();
        assert_eq!(finished(b"").map(|report| report.exit_code()), Ok(None));
        assert_eq!(
            finished(b"m4exit").map(|report| report.exit_code()),
            Ok(Some(0))
        );
    }
}
