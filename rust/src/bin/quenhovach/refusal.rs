//! What the command says about a refusal: what happened, where, and what to do about it.

use crate::answer_words::{in_words, too_long_together};
use crate::arguments::Options;
use crate::copy_words;
use crate::hint_words;
use crate::hints;
use crate::included::{self, Spot};
use crate::place::{with_caret, Places};
use crate::set_words;
use crate::sets::{Lent, Origin};
use crate::templates::{Part, Templates};
use crate::width;
use quenhovach::{Answer, Opened, Report};

/// Columns of a line of the message at most.
const WIDTH: usize = 79;

/// The whole message, without the command's name in front and the last newline.
pub fn explain(options: &Options, report: &Report, templates: &Templates, lent: &Lent) -> String {
    let answer = report.answer;
    let places = Places::new(templates).filter(|_| answer != Answer::BadSet);
    let items = lent.items();
    let defined = hints::defined(&templates.text, &items);
    let asked = asked_for(report, templates, &defined);
    let asked = asked.as_deref();
    let (happened, advice) = match answer {
        Answer::Lend if options.inputs.len() > 1 => too_long_together(last_read(templates)),
        Answer::BadSet => set_words::bad(lent),
        Answer::NoItem => set_words::missing(lent, asked),
        Answer::NoDefinition => copy_words::missing(asked),
        _ => in_words(options, answer),
    };
    let mut parts = match &places {
        Some(places) => {
            let spots = spots(options, report, templates, lent);
            where_it_is(report, places, giver(lent), &spots)
        }
        None => vec![format!(
            "{}: refused: {answer}",
            culprit(answer, templates, lent)
        )],
    };
    parts.extend([
        wrapped("What happened:", &happened),
        wrapped("What to do:", &advice),
    ]);
    let (heading, names) = match answer {
        Answer::NoItem => ("The set:", set_words::described(lent, asked)),
        _ => ("Like that name:", copy_words::like(asked, &defined)),
    };
    parts.extend(names.map(|names| wrapped(heading, &names)));
    let hints = places.map(|places| hint_words::of_refusal(report, &places, lent));
    let hints = hints.into_iter().flatten();
    parts.extend(hints.map(|hint| wrapped("Hint:", &hint)));
    parts.extend([
        wrapped("In numbers:", &in_numbers(report, templates)),
        wrapped("The sheet:", &sheet_left(options)),
    ]);
    parts.join("\n")
}

/// The last template that was read.
fn last_read(templates: &Templates) -> &Part {
    templates.parts.last().expect("there is a template")
}

/// The name that an include or a copydef was refused for, where the template shows it.
fn asked_for(report: &Report, templates: &Templates, defined: &[&str]) -> Option<Vec<u8>> {
    let (text, place) = (&templates.text, report.place);
    match report.answer {
        Answer::NoItem => set_words::asked(text, place).map(<[u8]>::to_vec),
        Answer::NoDefinition => copy_words::asked(text, place, defined),
        _ => None,
    }
}

/// Where in included texts the run was reading.
fn spots(options: &Options, report: &Report, templates: &Templates, lent: &Lent) -> Vec<Spot> {
    let again = |set| crate::expander(options).with_set(set).run(&templates.text);
    included::being_read(report, lent, again)
}

/// The file that is refused where nothing of the text was read: the set, or the template that is too long.
fn culprit<'a>(answer: Answer, templates: &'a Templates, lent: &'a Lent) -> &'a str {
    match &lent.origin {
        Origin::File(name) if answer == Answer::BadSet => name,
        _ => &last_read(templates).name,
    }
}

/// File, line and column, the answer, the line with a caret under the place, and how that is to be read.
fn where_it_is(report: &Report, places: &Places, giver: &str, spots: &[Spot]) -> Vec<String> {
    let (Part { name, .. }, position) = places.find(report.place);
    let (before, behind) = places.line(report.place);
    let shown = format!(
        "{name}:{position}: refused: {}\n{}",
        report.answer,
        with_caret(&position.line.to_string(), &before, &behind),
    );
    let mut parts = vec![
        shown,
        wrapped("Where:", &begins(report, places.templates, giver)),
    ];
    parts.extend((!spots.is_empty()).then(|| wrapped("In included text:", &in_included(spots))));
    parts
}

/// How far included texts were read, of which the innermost is the one with the fault.
fn in_included(spots: &[Spot]) -> String {
    let told: Vec<_> = spots
        .iter()
        .map(|Spot { told, position }| format!("{told}:{position}"))
        .collect();
    let inner = if spots.len() > 1 {
        "; one includes the other"
    } else {
        ""
    };
    format!(
        "the refused step ends at {}, or in text that a macro there gave{inner}",
        told.join(" and ")
    )
}

/// What may have given text that was still to be read.
fn giver(lent: &Lent) -> &'static str {
    match lent.origin {
        Origin::Nowhere => "a macro",
        _ => "a macro or an include",
    }
}

/// How the caret is to be read: the place is where the input stood before the refused step.
fn begins(report: &Report, templates: &Templates, giver: &str) -> String {
    if let Answer::Unclosed(Opened::Call) = report.answer {
        let before = match templates.number_at(report.place) {
            0 => "",
            _ => ", in this template or one before it",
        };
        return format!("the text ends here; the open call begins somewhere before{before}");
    }
    let before = match templates.ended_at(report.place) {
        Some(ended) => format!("at the end of {}", ended.name),
        None => "before here".to_string(),
    };
    format!("the refused step begins here, or in text that {giver} {before} gave")
}

/// The numbers of the answer. Of several templates the place counts over all; which one it is in tells a file named twice.
fn in_numbers(report: &Report, templates: &Templates) -> String {
    let Report {
        answer,
        steps,
        place,
        ..
    } = *report;
    let numbers = format!(
        "answer {} ({}), detail {}, after {steps} steps, place {place}",
        answer.number(),
        answer.name(),
        answer.detail(),
    );
    let Templates { parts, .. } = templates;
    if parts.len() == 1 || matches!(answer, Answer::Lend | Answer::BadSet) {
        return numbers;
    }
    let number = templates.number_at(place);
    let within = place - parts[number].range.start;
    format!(
        "{numbers} in the {} templates joined, {within} in template {}",
        parts.len(),
        number + 1
    )
}

/// What is left where the sheet should have gone.
pub fn sheet_left(options: &Options) -> String {
    match &options.sheet {
        Some(path) => format!("none was written; {} is as it was", path.display()),
        None => "none was written".to_string(),
    }
}

/// A heading and words, broken into lines; later lines stand two columns in.
pub fn wrapped(heading: &str, words: &str) -> String {
    let mut text = heading.to_string();
    let mut columns = width::of_text(heading);
    for word in words.split(' ') {
        let more = 1 + width::of_text(word);
        if columns + more > WIDTH {
            text.push_str("\n ");
            columns = 1;
        }
        text.push(' ');
        text.push_str(word);
        columns += more;
    }
    text
}

#[cfg(test)]
mod tests {
    use super::*;
    use crate::arguments::Included;
    use quenhovach::{Buffer, EMPTY_SET};

    fn options() -> Options {
        Options {
            inputs: vec![Some("t.m4".into())],
            sheet: Some("t.sheet".into()),
            only_sheets: false,
            readings: vec![],
            report: None,
            included: Included::Nothing,
            new_set: None,
            warn: false,
            lengths: [4096; 7],
            budget: 100,
        }
    }

    fn template(text: &[u8]) -> Templates {
        let (name, range) = ("t.m4".to_string(), 0..text.len());
        let parts = vec![Part { name, range }];
        let text = text.to_vec();
        Templates { text, parts }
    }

    fn nothing() -> Lent {
        Lent {
            bytes: EMPTY_SET.to_vec(),
            origin: Origin::Nowhere,
        }
    }

    fn refused(answer: Answer) -> Report {
        Report {
            answer,
            steps: 5,
            place: 3,
            output: 0,
            errors: 0,
        }
    }

    fn refusals() -> impl Iterator<Item = Answer> {
        (2..17).flat_map(|n| (0..8).filter_map(move |detail| Answer::from_numbers(n, detail)))
    }

    #[test]
    fn a_whole_message() {
        let message = explain(
            &options(),
            &refused(Answer::Room(Buffer::Pending)),
            &template(b"a\nb n c\n"),
            &nothing(),
        );
        let expected = "\
t.m4:2:2: refused: no room for pending text
 2 | b n c
   |  ^
Where: the refused step begins here, or in text that a macro before here gave
What happened: the text that macros gave back and that is not yet read would
  not fit in the 4096 bytes lent for it
What to do: lend more with --pending N (up to 65536); if that is too little
  too, look for a definition that calls itself without end, or nest less in one
  call
In numbers: answer 4 (room), detail 1, after 5 steps, place 3
The sheet: none was written; t.sheet is as it was";
        assert_eq!(message, expected);
    }

    #[test]
    fn every_refusal_has_words_and_fits() {
        assert_eq!(refusals().count(), 23);
        for answer in refusals() {
            let message = explain(&options(), &refused(answer), &template(b"text"), &nothing());
            for heading in ["What happened: ", "What to do: "] {
                let words = message.split(heading).nth(1);
                assert!(words.is_some_and(|words| words.len() > 20), "{answer}");
            }
            assert!(
                message.lines().all(|line| line.chars().count() <= WIDTH),
                "{message}"
            );
        }
    }
}
