//! What the command says where a sheet was asked for and there is none, or none with the name that was asked for.

use crate::arguments::Options;
use crate::copy_words::like;
use crate::line_faults;
use crate::place::{parted, with_caret};
use crate::refusal::{sheet_left, wrapped};
use crate::sets::printable;
use crate::templates::Templates;
use quenhovach::sheet::{line, Outcome, Sheet};
use quenhovach::BadLine;

/// The message for an output that is no sheet.
pub fn bad_line(
    options: &Options,
    outcome: &Outcome,
    bad: BadLine,
    templates: &Templates,
    output: &[u8],
) -> String {
    let Told {
        says,
        shown,
        happened,
        advice,
        hint,
    } = told(bad, output);
    let mut parts = vec![
        format!("{}: refused: {says}", names(templates)),
        shown,
        wrapped("Where:", &of_the_output(options)),
        wrapped("What happened:", &happened),
        wrapped("What to do:", advice),
    ];
    parts.extend(hint.map(|hint| wrapped("Hint:", &hint)));
    parts.extend(ending(options, outcome, bad.name()));
    parts.join("\n")
}

/// The message for a run that `m4exit` ended.
pub fn exited(options: &Options, outcome: &Outcome, templates: &Templates) -> String {
    let code = outcome.report.answer.detail();
    let happened = format!(
        "the template called m4exit({code}), and the output of such a run is not taken for a sheet"
    );
    let advice = format!(
        "mend what the template complains of; or leave out {}, and what was written until then is the output",
        asking(options).join(" and ")
    );
    let mut parts = vec![
        format!(
            "{}: refused: the run was ended by m4exit({code})",
            names(templates)
        ),
        wrapped("What happened:", &happened),
        wrapped("What to do:", &advice),
    ];
    parts.extend(ending(options, outcome, outcome.report.answer.name()));
    parts.join("\n")
}

/// The message for names that the sheet has not.
pub fn absent(options: &Options, names: &[&str], sheet: &Sheet) -> String {
    let has: Vec<_> = sheet.settings().map(|s| s.name).collect();
    let asked: Vec<_> = names.iter().map(|name| format!("`{name}`")).collect();
    let says = format!("no line of the sheet has the name {}", asked.join(" or "));
    let mut parts = vec![wrapped("--get:", &says)];
    for (name, asked) in names.iter().zip(asked) {
        let like = like(Some(name.as_bytes()), &has);
        parts.extend(like.map(|like| wrapped(&format!("Like {asked}:"), &like)));
    }
    let lines = if has.len() == 1 { "line" } else { "lines" };
    let left = format!("it has {} {lines}; {}", has.len(), sheet_left(options));
    parts.push(wrapped("The sheet:", &left));
    parts.join("\n")
}

/// What a message says of a bad line.
struct Told {
    says: String,
    /// The line, and what has to be seen with it.
    shown: String,
    happened: String,
    advice: &'static str,
    hint: Option<String>,
}

fn told(bad: BadLine, output: &[u8]) -> Told {
    let number = bad.line();
    let bytes = bad.bytes(output).unwrap_or_default();
    match bad {
        BadLine::Malformed(_) => {
            let fault = line_faults::of(bytes);
            Told {
                says: format!("line {number} of the output is not a name, `=` and a reading"),
                shown: marked(number, bytes, fault.place),
                happened: "a sheet has lines of a name, `=` and a reading, with nothing round them: no blank, no CR, no comment. A \
                           reading is a number, a decimal such as 0.85, or a word"
                    .to_string(),
                advice: "look in the template for what wrote this line: a definition without dnl behind it, a macro that gave \
                         another text than was meant, or plain text that is no setting; --warn tells of likely mistakes",
                hint: Some(fault.words),
            }
        }
        BadLine::Twice(_) => {
            let (name, first) = first_given(bytes, output);
            let name = printable(name);
            Told {
                says: format!("line {number} of the output gives the name `{name}` a second time"),
                shown: [unmarked(first, number, output), marked(number, bytes, 0)].join("\n"),
                happened: format!("a name has one reading in a sheet, and `{name}` has one in line {first} of the output"),
                advice: "leave one of the two lines out, or give it another name",
                hint: None,
            }
        }
        BadLine::TooMany => Told {
            says: format!("the output has a line {number}"),
            shown: marked(number, bytes, 0),
            happened: format!("a sheet has {} lines at most", number - 1),
            advice: "make two sheets of it; or look for a loop that writes more than it should",
            hint: None,
        },
    }
}

/// The name of a line, and the number of the line that gives it first.
fn first_given<'o>(bytes: &'o [u8], output: &'o [u8]) -> (&'o [u8], usize) {
    let name_of = |line: &'o [u8]| line.split(|&b| b == b'=').next().unwrap_or_default();
    let name = name_of(bytes);
    let first = output
        .split(|&b| b == b'\n')
        .position(|line| name_of(line) == name);
    (name, 1 + first.unwrap_or(0))
}

fn marked(number: usize, bytes: &[u8], place: usize) -> String {
    let (before, behind) = parted(bytes, place);
    with_caret(&number.to_string(), &before, &behind)
}

/// A line of the output without a caret, beside one with a number that is not smaller.
fn unmarked(number: usize, beside: usize, output: &[u8]) -> String {
    let columns = beside.to_string().len();
    let (_, shown) = parted(line(output, number).unwrap_or_default(), 0);
    format!(" {number:>columns$} | {shown}")
}

/// The templates, as a message begins with them.
fn names(templates: &Templates) -> String {
    let first = &templates.parts[0].name;
    match templates.parts.len() {
        1 => first.clone(),
        all => format!("{first} and {} more", all - 1),
    }
}

/// That the line is not one of the template, and how to see the others.
fn of_the_output(options: &Options) -> String {
    let mut options_left = asking(options);
    options_left.extend(options.sheet.as_ref().map(|_| "-o"));
    format!(
        "this is a line of the output, not of a template; without {} the whole output is shown",
        options_left.join(" and ")
    )
}

/// The options that ask for a sheet.
fn asking(options: &Options) -> Vec<&'static str> {
    let given = [
        (options.only_sheets, "--sheet"),
        (!options.readings.is_empty(), "--get"),
    ];
    let given = given.into_iter().filter(|&(is_given, _)| is_given);
    given.map(|(_, option)| option).collect()
}

/// The answer in numbers, and what is left of the sheet.
fn ending(options: &Options, outcome: &Outcome, name: &str) -> [String; 2] {
    let [number, detail, steps, place, ..] = outcome.numbers();
    let numbers =
        format!("answer {number} ({name}), detail {detail}, after {steps} steps, place {place}");
    [
        wrapped("In numbers:", &numbers),
        wrapped("The sheet:", &sheet_left(options)),
    ]
}
