//! What a refusal means, and what to do about it, in words. What is said of the set is in set_words.rs, and of a name to copy in copy_words.rs.

use crate::arguments::{option_of, Included, Options};
use crate::templates::Part;
use quenhovach::{Answer, Buffer, Opened, LONGEST};

/// What happened, and what to do.
pub fn in_words(options: &Options, answer: Answer) -> (String, String) {
    match answer {
        Answer::Spent => spent(options),
        Answer::Room(buffer) => room(buffer, options),
        _ => {
            let (happened, advice) = fixed_words(answer);
            (happened.to_string(), advice.to_string())
        }
    }
}

/// More than may be lent, in several templates.
pub fn too_long_together(passing: &Part) -> (String, String) {
    let Part { name, range } = passing;
    let happened = format!(
        "the templates have more than {LONGEST} bytes together; {name} passes the limit, with {} bytes before it; nothing was \
         expanded",
        range.start
    );
    (
        happened,
        "leave a template out, or make them shorter".to_string(),
    )
}

/// What may go on without end.
fn loops(options: &Options) -> &'static str {
    match options.included {
        Included::Nothing => "look for a definition that calls itself without end",
        _ => "look for a definition that calls itself, or a text that includes itself, without end",
    }
}

fn spent(options: &Options) -> (String, String) {
    let (budget, loops) = (options.budget, loops(options));
    let advice = match budget {
        u32::MAX => format!("{loops}; no larger budget can be given"),
        _ => format!(
            "allow more steps with --budget N (up to 4294967295); if these are spent too, {loops}"
        ),
    };
    (
        format!("all {budget} steps of the budget are used, and there is text left to expand"),
        advice,
    )
}

fn room(buffer: Buffer, options: &Options) -> (String, String) {
    let length = options.lengths[buffer as usize - 1];
    let nested = format!("{}, or nest less in one call", loops(options));
    let (what, cause) = match buffer {
        Buffer::Pending => (
            "the text that macros gave back and that is not yet read",
            &*nested,
        ),
        Buffer::Calls => (
            "the names and arguments of the open calls",
            "look for a missing right parenthesis or quote mark, or give a call less text",
        ),
        Buffer::Definitions => (
            "the names and texts of the definitions",
            "look for a pushdef without popdef, or undefine what is no longer needed",
        ),
        Buffer::Streams => (
            "the diverted text",
            "look for a loop that diverts without end, or undivert sooner",
        ),
        Buffer::Wrap => (
            "the text that m4wrap keeps for the end",
            "look for an m4wrap in a loop, or keep a macro's name instead of its text",
        ),
        Buffer::Errors => ("the error text", "look for an errprint in a loop"),
        Buffer::Output => (
            "the sheet",
            "look for a loop that writes without end, or make two sheets of it",
        ),
    };
    let advice = if length < LONGEST {
        format!(
            "lend more with {} N (up to {LONGEST}); if that is too little too, {cause}",
            option_of(buffer)
        )
    } else {
        format!("{cause}; no more than {LONGEST} bytes can be lent")
    };
    (
        format!("{what} would not fit in the {length} bytes lent for it"),
        advice,
    )
}

/// Words that don't depend on the setting. Done and exit are no refusals and need none.
fn fixed_words(answer: Answer) -> (&'static str, &'static str) {
    match answer {
        Answer::Lend => (
            "the template has more than 65536 bytes; nothing was expanded",
            "make the template shorter, or two of it",
        ),
        Answer::Unclosed(Opened::Quote) => (
            "a quote is opened and the text ends before it is closed",
            "add the end-quote mark (' unless changequote set another)",
        ),
        Answer::Unclosed(Opened::Comment) => (
            "a comment is opened and the text ends before the end mark that changecom set",
            "add that end mark, or quote the begin mark if no comment is meant; changecom with the begin mark alone ends each \
             comment with its line",
        ),
        Answer::Unclosed(Opened::Call) => (
            "the arguments of a call are still being collected where the text ends",
            "look for a missing right parenthesis (one in a quote or a comment closes nothing), or for a left one that is too many; \
             quote those that are plain text",
        ),
        Answer::Name => (
            "define or pushdef was given a first argument, or copydef a second one, that is not a name",
            "give a letter or underscore and then letters, digits and underscores only, in quote marks, without blanks \
             behind it; copydef takes the name to copy first and the new name second",
        ),
        Answer::Number => (
            "a macro was given a number that it can't take, or something else than a number",
            "give a number from -2147483648 to 2147483647: an optional minus and digits, nothing else, no blanks behind it. \
             incr and decr must stay in that range; substr takes no negative number, m4exit 0 to 255, undivert 1 to 9, \
             eval a radix of 2 to 36 and no negative count of digits",
        ),
        Answer::Expression => (
            "eval can't read its expression",
            "look for a decimal point (there are whole numbers only), a name that is not defined or a predefined one without (, \
             08 or 09 (a leading 0 means octal), -- or ++, a CR at a line's end, a missing operand or parenthesis, \
             a number above 4294967295, or more than 32 parentheses and signs in each other",
        ),
        Answer::Divisor => (
            "eval would divide by zero, or shift by a count outside 0 to 31",
            "test the divisor or the count before, as in ifelse(eval(n), 0, `none', `eval(10 / n)')",
        ),
        Answer::Mark => (
            "changequote or changecom was given a bad mark",
            "a mark has 1 to 5 bytes and no letter, digit, underscore, parenthesis, comma or blank in it; an end mark \
             may be a single newline. changequote without parentheses sets the usual marks",
        ),
        Answer::NoText => (
            "defn was given the name of a predefined macro, or of a copy of one, which has no text",
            "to give the macro another name, take copydef, as in copydef(`len', `size'); else call the macro itself, or define a \
             name that calls it",
        ),
        Answer::Gone => (
            "a call is closed here, but its name lost its definition while its arguments were collected",
            "look for undefine or popdef in the arguments of the call",
        ),
        Answer::Deep => (
            "a 65th call would be open at once, or a 257th argument over all open calls",
            "nest fewer calls, or give fewer arguments; look for a definition that calls itself in its own arguments",
        ),
        Answer::Done | Answer::Exit(_) | Answer::Spent | Answer::Room(_) => ("", ""),
        // What is said of these is in set_words.rs and copy_words.rs.
        Answer::BadSet | Answer::NoItem | Answer::NoDefinition => ("", ""),
    }
}

#[cfg(test)]
mod tests {
    use super::*;

    fn options() -> Options {
        Options {
            inputs: vec![Some("t.m4".into())],
            sheet: Some("t.sheet".into()),
            only_sheets: false,
            readings: vec![],
            report: None,
            included: Included::Nothing,
            new_set: None,
            warn: false,
            lengths: [4096; 7],
            budget: 100,
        }
    }

    #[test]
    fn the_most_is_not_exceeded() {
        let most = Options {
            lengths: [LONGEST; 7],
            budget: u32::MAX,
            ..options()
        };
        for answer in Buffer::ALL
            .map(Answer::Room)
            .into_iter()
            .chain([Answer::Spent])
        {
            assert!(
                in_words(&options(), answer).1.contains(" N (up to "),
                "{answer}"
            );
            assert!(
                !in_words(&most, answer).1.contains(" N (up to "),
                "{answer}"
            );
        }
    }
}
