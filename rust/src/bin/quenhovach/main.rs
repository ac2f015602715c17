//! The command `quenhovach`: templates in, a settings sheet out, whole or not at all. See docs/quenhovach.1.

mod answer_words;
mod arguments;
mod asked;
mod bytes;
mod copy_words;
mod folders;
mod hint_words;
mod hints;
mod identity;
mod included;
mod line_faults;
mod place;
mod progress;
mod prose;
mod readings;
mod refusal;
mod remarks;
mod scanner;
mod set_words;
mod sets;
mod sheet_words;
mod signals;
mod standard;
mod suspects;
mod templates;
mod terminal;
mod width;
mod writing;

use arguments::{Options, Request};
use identity::{Endpoint, Files};
use quenhovach::{Answer, Buffer, Expander};
use std::fmt::Display;
use std::io::Write;
use std::process::ExitCode;
use writing::Staged;

/// Exit status of bad usage.
const USAGE: u8 = 2;
/// Exit status where a name that was asked for is not in the sheet.
const ABSENT: u8 = 62;
/// Exit status of failed input or output.
const FAILED: u8 = 63;
/// A refusal's exit status is this and the answer's number.
const REFUSED: u8 = 64;

const HELP: &str = include_str!("help.txt");
const VERSION: &str = concat!("quenhovach ", env!("CARGO_PKG_VERSION"), "\n");

fn main() -> ExitCode {
    signals::prepare();
    let status = match arguments::parse(std::env::args_os().skip(1)) {
        Ok(Request::Help) => ended(show(HELP)),
        Ok(Request::Version) => ended(show(VERSION)),
        Ok(Request::Run(options)) => match identity::tell_apart(&options) {
            Ok(files) => ended(run(&options, files)),
            Err(complaint) => misused(complaint),
        },
        Err(complaint) => misused(Some(complaint)),
    };
    ExitCode::from(status)
}

/// The exit status of bad usage; what may be said of it is told first.
fn misused(complaint: Option<String>) -> u8 {
    if let Some(complaint) = complaint {
        complain(format_args!("{complaint}\nTry 'quenhovach --help'."));
    }
    USAGE
}

/// A message on standard error. If that fails there is nowhere to say so; the exit status tells.
fn complain(message: impl Display) {
    tell(&format!("quenhovach: {message}\n"));
}

/// A message on standard error, on a line of its own behind the error text.
fn complain_behind(errors: &[u8], message: &str) {
    if errors.last().is_some_and(|&b| b != b'\n') {
        tell("\n");
    }
    complain(message);
}

/// Whole lines on standard error, as far as that goes.
fn tell(lines: &str) {
    if let Ok(mut errors) = standard::file(standard::ERRORS) {
        let _ = errors.write_all(lines.as_bytes());
    }
}

/// The exit status; a failure is told first.
fn ended(outcome: Result<u8, String>) -> u8 {
    outcome.unwrap_or_else(|failure| {
        complain(failure);
        FAILED
    })
}

/// A text of the command's own on standard output.
fn show(text: &str) -> Result<u8, String> {
    let output = Endpoint::of(None, standard::OUTPUT);
    writing::stage(output, text.as_bytes())?.commit()?;
    Ok(0)
}

/// Expands the templates; the exit status, or which input or output failed.
fn run(options: &Options, files: Files) -> Result<u8, String> {
    writing::empty_report(files.report.as_ref())?;
    let templates = templates::read(files.templates)?;
    let lent = sets::lent(&options.included, files.set, &files.outputs)?;
    if let Some(place) = files.new_set {
        // It does not depend on what the templates come to.
        writing::stage(place, &lent.bytes)?.commit()?;
    }
    let mut expander = expander(options).with_set(lent.bytes.clone());
    let outcome = progress::shown(|| readings::run(options, &mut expander, &templates.text));
    let (report, numbers) = (outcome.report, outcome.numbers());
    if options.warn {
        tell(&hint_words::warnings(&templates, &lent));
    }
    if report.answer.is_refusal() {
        complain(refusal::explain(options, &report, &templates, &lent));
        writing::stage_report(files.report, numbers)?.commit()?;
        return Ok(status(report.answer));
    }
    match readings::of(options, &outcome, &templates, &expander) {
        Ok(readings) => {
            let sheet = writing::stage_asked(files.sheet, expander.output())?;
            let readings = writing::stage_asked(files.readings, &readings)?;
            let numbers = writing::stage_report(files.report, numbers)?;
            deliver(expander.errors(), [sheet, readings, numbers])?;
            Ok(status(report.answer))
        }
        Err(unfit) => {
            writing::write_errors(expander.errors())?;
            complain_behind(expander.errors(), &unfit.message);
            writing::stage_report(files.report, numbers)?.commit()?;
            Ok(unfit.status)
        }
    }
}

/// The exit status that stands for an answer.
fn status(answer: Answer) -> u8 {
    match answer {
        Answer::Done => 0,
        Answer::Exit(code) => code,
        refusal => REFUSED + refusal.number() as u8,
    }
}

/// An expander with the room and the budget that were asked for.
fn expander(options: &Options) -> Expander {
    let new = Expander::new().with_budget(options.budget);
    let lengths = Buffer::ALL.into_iter().zip(options.lengths);
    lengths.fold(new, |expander, (buffer, length)| {
        expander.with_room(buffer, length)
    })
}

/// Error text, and then sheet, readings and report. The files are whole by now, so that what fails fails before the sheet is in its
/// place; the report comes last and never stands without its sheet.
fn deliver(errors: &[u8], texts: [Staged; 3]) -> Result<(), String> {
    writing::write_errors(errors)?;
    texts.into_iter().try_for_each(Staged::commit)
}
