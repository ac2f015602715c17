//! For callers with a heap: a sheet that stands for itself, and one error for all that is none.

use super::{BadLine, Lines, Reading, Sheet};
use crate::{Expander, Expansion, Failure, Report};
use alloc::{boxed::Box, string::String};
use core::{error::Error, fmt};

/// A sheet that owns its text and its lines.
#[derive(Clone, PartialEq, Eq)]
pub struct SheetBuf {
    /// Boxed for their size.
    lines: Box<Lines>,
    expansion: Expansion,
}

/// A run that gave no sheet.
#[derive(Clone, Debug, PartialEq, Eq)]
pub enum NoSheet {
    /// It did not end done: it was refused, or the template ended it with `m4exit` and whatever number.
    Failed(Failure),
    /// It is done, and its output is no sheet: the first bad line, and all that was written.
    BadLine(BadLine, Expansion),
}

impl SheetBuf {
    /// The sheet, to ask it more than [`get`](SheetBuf::get) does.
    pub fn as_sheet(&self) -> Sheet<'_> {
        self.lines.sheet(&self.expansion.output)
    }

    /// The reading that this name has, or none where it is absent. Case counts.
    pub fn get(&self, name: impl AsRef<[u8]>) -> Option<Reading<'_>> {
        self.as_sheet().get(name)
    }

    /// What the run has written, its error text too, and its numbers.
    pub fn expansion(&self) -> &Expansion {
        &self.expansion
    }
}

impl fmt::Debug for SheetBuf {
    fn fmt(&self, f: &mut fmt::Formatter<'_>) -> fmt::Result {
        f.debug_struct("SheetBuf")
            .field("sheet", &self.as_sheet())
            .field("errors", &String::from_utf8_lossy(&self.expansion.errors))
            .field("report", &self.expansion.report)
            .finish()
    }
}

impl NoSheet {
    /// The run's numbers. With a bad line it is done.
    pub fn report(&self) -> Report {
        match self {
            NoSheet::Failed(failure) => failure.report(),
            NoSheet::BadLine(_, expansion) => expansion.report,
        }
    }
}

impl From<Failure> for NoSheet {
    fn from(failure: Failure) -> NoSheet {
        NoSheet::Failed(failure)
    }
}

impl fmt::Display for NoSheet {
    fn fmt(&self, f: &mut fmt::Formatter<'_>) -> fmt::Result {
        match self {
            NoSheet::Failed(failure) => failure.fmt(f),
            NoSheet::BadLine(bad, expansion) => {
                let line = bad.bytes(&expansion.output).unwrap_or_default();
                let line = String::from_utf8_lossy(line);
                write!(f, "the output is no sheet: {bad}: {line:?}")
            }
        }
    }
}

impl Error for NoSheet {}

/// Expands a text as [`expand_to_vec`](crate::expand_to_vec) does, and reads the output as a sheet. An [`Expander`] does the same
/// again and again in less time ([`expand_sheet`](Expander::expand_sheet)), and with a set of texts to include.
///
/// ```
/// use quenhovach::{expand_to_sheet, BadLine, NoSheet, Reading};
///
/// let sheet = expand_to_sheet(b"define(`guys',`3')dnl\nguy_count=guys\nsway=on\n")?;
/// assert_eq!(sheet.get("guy_count"), Some(Reading::Number(3)));
/// assert_eq!(sheet.get("sway"), Some(Reading::Word("on")));
/// assert_eq!(sheet.get("guys"), None);
///
/// // The line that dnl takes away is the template's; here it stays, and is empty.
/// let error = expand_to_sheet(b"define(`guys',`3')\nguy_count=guys\n").unwrap_err();
/// assert_eq!(error.to_string(), "the output is no sheet: line 1 is not a name, `=` and a reading: \"\"");
/// let NoSheet::BadLine(bad, written) = error else { panic!("it is done") };
/// assert_eq!((bad, &written.output[..]), (BadLine::Malformed(1), &b"\nguy_count=3\n"[..]));
/// # Ok::<(), NoSheet>(())
/// ```
///
/// # Errors
///
/// Every refusal, `m4exit` with any number, and an output that is no sheet.
pub fn expand_to_sheet(text: &[u8]) -> Result<SheetBuf, NoSheet> {
    let mut expander = Expander::new();
    let outcome = expander.run_sheet(text);
    let lines = Box::new(*expander.sheet_of(outcome)?.lines);
    let expansion = expander.written(outcome.report).to_expansion();
    Ok(SheetBuf { lines, expansion })
}
