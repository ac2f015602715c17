//! Which of the likely mistakes in the text fit a refusal, and how they are told.

use crate::hints::{self, Gap, Kind, Seen};
use crate::place::Places;
use crate::sets::Lent;
use crate::suspects::{changes_marks, defines, includes};
use crate::templates::Templates;
use quenhovach::{Answer, Opened, Report};

/// Hints with a refusal at most.
const MOST: usize = 3;
/// Characters of a name or number at most.
const LONGEST_WORD: usize = 40;

/// What may have caused a refusal, the likeliest first.
pub fn of_refusal(report: &Report, places: &Places, lent: &Lent) -> Vec<String> {
    let ends = ends(places.templates);
    let items = lent.items();
    let seen = hints::scan(&places.templates.text, &ends, &items);
    let mut fitting: Vec<_> = seen
        .iter()
        .filter(|seen| is_near(seen, report))
        .filter_map(|seen| {
            let distance = seen.place.abs_diff(report.place);
            Some((rank(seen, report.answer)?, distance, seen))
        })
        .collect();
    fitting.sort_by_key(|&(rank, distance, _)| (rank, distance));
    let mut returns = 0;
    // Where one line ends with CR, most do.
    fitting.retain(|(_, _, seen)| {
        returns += usize::from(seen.kind == Kind::Return);
        seen.kind != Kind::Return || returns == 1
    });
    let told = fitting.iter().take(MOST).map(|(_, _, seen)| {
        let words = words(&seen.kind);
        format!("{}: {words}", places.told(seen.place))
    });
    told.collect()
}

/// A line for all that is seen, in the order of the text; none where the text is too long to be expanded.
pub fn warnings(templates: &Templates, lent: &Lent) -> String {
    let Some(places) = Places::new(templates) else {
        return String::new();
    };
    let ends = ends(templates);
    let items = lent.items();
    let seen = hints::scan(&templates.text, &ends, &items);
    let line = |seen: &Seen, words: &str| {
        let place = places.told(seen.place);
        format!("quenhovach: warning: {place}: {words}\n")
    };
    let mut returns = vec![0; templates.parts.len()];
    for seen in seen.iter().filter(|seen| seen.kind == Kind::Return) {
        returns[templates.number_at(seen.place)] += 1;
    }
    let mut lines = String::new();
    for seen in &seen {
        match seen.kind {
            // These do harm only where the message of a refusal tells of them.
            Kind::GivenPoint { .. }
            | Kind::LookAlike { quoted: true, .. }
            | Kind::Unquoted(_)
            | Kind::Closer { .. } => {}
            Kind::Return => {
                let count = std::mem::take(&mut returns[templates.number_at(seen.place)]);
                if count > 0 {
                    lines += &line(seen, &lines_end_with_cr(count));
                }
            }
            kind => lines += &line(seen, &words(&kind)),
        }
    }
    lines
}

/// Where the templates end in the text.
fn ends(templates: &Templates) -> Vec<usize> {
    templates.parts.iter().map(|part| part.range.end).collect()
}

/// Whether it was being read where the run was refused, or is text that was kept before. A quote that is not closed is refused where it
/// begins, and its end mark is missing behind that.
fn is_near(seen: &Seen, report: &Report) -> bool {
    if let Kind::LookAlike { quoted: true, .. } = seen.kind {
        return seen.place >= report.place;
    }
    let at_work = seen.ends.is_none_or(|ends| report.place <= ends);
    seen.place <= report.place && (at_work || lasts(&seen.kind))
}

/// Whether it changes what is read behind it.
fn lasts(kind: &Kind) -> bool {
    match kind {
        Kind::Gap(Gap { means: name, .. }) | Kind::Bare(name) => is_missed_later(name),
        Kind::RunsOn { .. } => true,
        _ => false,
    }
}

/// Whether what is read behind a call of it is read otherwise without the call: by other marks, or without a definition.
fn is_missed_later(name: &str) -> bool {
    changes_marks(name) || includes(name) || defines(name)
}

/// How well something fits an answer, 0 the best; none if it can't have caused it.
fn rank(seen: &Seen, answer: Answer) -> Option<u8> {
    let counted = matches!(answer, Answer::Number | Answer::Expression);
    let named = matches!(answer, Answer::Name | Answer::NoDefinition);
    let argument = counted || named;
    match seen.kind {
        Kind::Point { .. }
        | Kind::NamedPoint { .. }
        | Kind::GivenPoint { .. }
        | Kind::Plain { .. } => counted.then_some(0),
        Kind::Gap(Gap { counted: true, .. }) if counted => Some(0),
        Kind::Gap(Gap { means, called, .. }) => {
            let endless = matches!(answer, Answer::Spent | Answer::Room(_) | Answer::Deep);
            let here = called || seen.within;
            (fits_name(means, here, answer) || endless && seen.within).then_some(1)
        }
        Kind::Bare(name) => fits_name(name, seen.within, answer).then_some(1),
        Kind::Return => (seen.within && (argument || answer == Answer::Mark)).then_some(1),
        Kind::LookAlike { quoted: true, .. } => {
            (answer == Answer::Unclosed(Opened::Quote)).then_some(0)
        }
        Kind::LookAlike { .. } => {
            let call = answer == Answer::Unclosed(Opened::Call);
            (seen.within && (argument || call)).then_some(u8::from(!named))
        }
        Kind::Foreign(_) => (argument && seen.within).then_some(1),
        Kind::Unquoted(_) => (answer == Answer::NoDefinition).then_some(0),
        Kind::OrderMark => (argument && seen.within).then_some(2),
        Kind::RunsOn { .. } => fits_lost_line(answer).then_some(1),
        Kind::Closer { .. } => (answer == Answer::Unclosed(Opened::Call)).then_some(0),
    }
}

/// Whether a name without its arguments can lead to an answer: `here`, where it stands, or behind that.
fn fits_name(name: &str, here: bool, answer: Answer) -> bool {
    match answer {
        Answer::Name | Answer::Number | Answer::Expression | Answer::Divisor | Answer::Mark => {
            here || is_missed_later(name)
        }
        Answer::NoDefinition => here || is_missed_later(name),
        Answer::Unclosed(Opened::Quote | Opened::Call) => changes_marks(name),
        _ => false,
    }
}

/// Whether a line of definitions, marks or parentheses that is not read can lead to an answer behind it.
fn fits_lost_line(answer: Answer) -> bool {
    match answer {
        Answer::Unclosed(opened) => opened != Opened::Comment,
        _ => fits_name("define", false, answer),
    }
}

/// What was seen, and no more.
fn words(kind: &Kind) -> String {
    match *kind {
        Kind::Gap(gap) => {
            let blank = if gap.newline { "newline" } else { "blank" };
            let name = shortened(gap.name);
            let (is, would_be) = match gap.called {
                true => ("it is called without arguments", "it gets them"),
                false => ("it is plain text", "it is a call"),
            };
            format!("there is a {blank} between `{name}` and `(`, so {is}; without the {blank} {would_be}")
        }
        Kind::Bare(name) => {
            format!("`{name}` is predefined and called here without arguments; quote it if it is a plain word")
        }
        Kind::Plain { name, taker } => {
            format!("`{name}` without `(` is plain text and is in an argument of `{taker}`, which takes whole numbers only")
        }
        Kind::Point { number, taker } => {
            let number = shortened(number);
            format!("{number} has a point and is in an argument of `{taker}`, which takes whole numbers only")
        }
        Kind::NamedPoint {
            name,
            number,
            taker,
        } => {
            let (name, number) = (shortened(name), shortened(number));
            format!("`{name}` is defined as {number} and is in an argument of `{taker}`, which takes whole numbers only")
        }
        Kind::GivenPoint { number, to, taker } => {
            let (number, to) = (shortened(number), shortened(to));
            format!("{number} has a point and is given to `{to}`, whose text has `{taker}`, which takes whole numbers only")
        }
        Kind::Return => {
            "the line ends with CR, which is no blank and stays in an argument".to_string()
        }
        Kind::OrderMark => {
            "the template begins with a byte-order mark, which is plain text".to_string()
        }
        Kind::LookAlike { mark, .. } => {
            format!(
                "{mark} (U+{:04X}) looks like a quote mark and is plain text",
                mark as u32
            )
        }
        Kind::Foreign(name) => {
            format!("`{name}` is a macro of GNU m4 and not predefined here; it is plain text")
        }
        Kind::Unquoted(name) => {
            let name = shortened(name);
            format!("`{name}` is not in quote marks, so it is called first, and `copydef` is given what comes of that")
        }
        Kind::RunsOn { by } => {
            let takes = match by {
                "#" => "the comment takes".to_string(),
                name => format!("`{}` drops", shortened(name)),
            };
            format!("{takes} the first line of the next template, too; this one does not end with a newline")
        }
        Kind::Closer { by } => {
            let takes = match by {
                "#" => "`#` makes a comment of".to_string(),
                name => format!("`{}` drops", shortened(name)),
            };
            format!("{takes} the rest of the line, so the `)` there closes no call")
        }
    }
}

/// So many lines of a template.
fn lines_end_with_cr(count: usize) -> String {
    let more = match count {
        1 => String::new(),
        2 => ", and so does 1 more".to_string(),
        _ => format!(", and so do {} more", count - 1),
    };
    format!("the line ends with CR{more}; CR is no blank and stays in the sheet")
}

fn shortened(word: &str) -> String {
    match word.get(..LONGEST_WORD) {
        Some(begin) if word.len() > LONGEST_WORD => format!("{begin}..."),
        _ => word.to_string(),
    }
}
