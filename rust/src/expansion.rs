//! The convenience for callers with a heap: a text in, vectors out, and one error for all that is no success.

use crate::{Expander, Refusal, Report, Written};
use alloc::{string::String, vec::Vec};
use core::{error::Error, fmt};

/// The text of a run that ended done or exit.
#[derive(Clone, PartialEq, Eq)]
pub struct Expansion {
    /// The output.
    pub output: Vec<u8>,
    /// The error text, from `errprint`.
    pub errors: Vec<u8>,
    /// The run's numbers.
    pub report: Report,
}

/// A run that was no success.
#[derive(Clone, Debug, PartialEq, Eq)]
pub enum Failure {
    /// It was refused, and there is no text.
    Refused(Refusal),
    /// The template ended it with `m4exit` and another number than 0; where a sheet is asked for, with any number. What it had
    /// written until then is here.
    Exit(Expansion),
}

impl Expansion {
    /// The code of `m4exit`, if that ended the run and not the end of the text.
    pub fn exit_code(&self) -> Option<u8> {
        self.report.exit_code()
    }
}

impl Failure {
    /// The run's numbers.
    pub fn report(&self) -> Report {
        match self {
            Failure::Refused(refusal) => refusal.report,
            Failure::Exit(expansion) => expansion.report,
        }
    }
}

impl From<Refusal> for Failure {
    fn from(refusal: Refusal) -> Failure {
        Failure::Refused(refusal)
    }
}

impl fmt::Debug for Expansion {
    fn fmt(&self, f: &mut fmt::Formatter<'_>) -> fmt::Result {
        f.debug_struct("Expansion")
            .field("output", &String::from_utf8_lossy(&self.output))
            .field("errors", &String::from_utf8_lossy(&self.errors))
            .field("report", &self.report)
            .finish()
    }
}

impl fmt::Display for Failure {
    fn fmt(&self, f: &mut fmt::Formatter<'_>) -> fmt::Result {
        match self {
            Failure::Refused(refusal) => refusal.fmt(f),
            Failure::Exit(expansion) => {
                let code = expansion.report.answer.detail();
                let said = String::from_utf8_lossy(expansion.errors.trim_ascii());
                let behind = if said.is_empty() { "" } else { ": " };
                write!(f, "the template ended with m4exit({code}){behind}{said}")
            }
        }
    }
}

impl Error for Failure {}

/// Expands a text with 65,536 bytes lent for each buffer, [`BUDGET`](crate::BUDGET) steps and nothing to include. An
/// [`Expander`] does the same again and again in less time, and with a set of texts to include
/// ([`with_set`](Expander::with_set)).
///
/// ```
/// use quenhovach::{expand_to_vec, Answer, Failure, Opened};
///
/// let expansion = expand_to_vec(b"errprint(`look up')sway=on\n").expect("all is well");
/// assert_eq!(expansion.output, b"sway=on\n");
/// assert_eq!(expansion.errors, b"look up");
///
/// let failure = expand_to_vec(b"sway=`on\n").expect_err("the quote is not closed");
/// assert_eq!(failure.report().answer, Answer::Unclosed(Opened::Quote));
/// assert_eq!(failure.to_string(), "a quote is not closed (place 5, after 2 steps)");
///
/// let failure = expand_to_vec(b"errprint(`no mast')m4exit(3)").expect_err("the template says so");
/// assert_eq!(failure.to_string(), "the template ended with m4exit(3): no mast");
/// assert!(matches!(failure, Failure::Exit(expansion) if expansion.exit_code() == Some(3)));
/// ```
///
/// # Errors
///
/// Every refusal, and `m4exit` with another number than 0.
pub fn expand_to_vec(text: &[u8]) -> Result<Expansion, Failure> {
    let written = |written: Written<'_>| written.to_expansion();
    Expander::new().expand(text).map(written)
}
