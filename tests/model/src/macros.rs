//! The predefined macros. 01: "Absent arguments are null, surplus ones ignored."

use crate::answer::Refusal;
use crate::bytes::is_name;
use crate::definitions::Meaning;
use crate::eval;
use crate::expansion::{join_quoted, Expansion};
use crate::marks::Pair;
use crate::numbers::{needed, or_default, read, within};
use crate::predefined::Predefined;
use crate::state::State;
use Predefined::*;

/// What a predefined macro gives.
#[derive(Clone, Debug, PartialEq, Eq)]
pub enum Outcome {
    /// "Results are pushed back and scanned again."
    Result(Expansion),
    /// "m4exit ends at once".
    Exit(u32),
}

/// Calls a predefined macro with the arguments that are there.
pub fn perform(
    which: Predefined,
    state: &mut State,
    arguments: &[Vec<u8>],
) -> Result<Outcome, Refusal> {
    if which == M4exit {
        let code = exit_code(arguments)?;
        state.streams.exit();
        return Ok(Outcome::Exit(code));
    }
    let result = match which {
        Decr => step_number(arguments, -1)?,
        Defn => defined_texts(state, arguments)?,
        Divnum => Expansion::of_number(i64::from(state.streams.current())),
        Eval => evaluate(arguments)?,
        Ifdef => if_defined(state, arguments),
        Ifelse => if_else(arguments),
        // 15: "unknown include"
        Include => contents(state, arguments).ok_or(Refusal::NoItem)?,
        Incr => step_number(arguments, 1)?,
        Index => find(arguments),
        Len => Expansion::of_number(text(arguments, 0).len() as i64),
        Shift => join_quoted(arguments.get(1..).unwrap_or(&[]), &state.marks.quote),
        // "an unknown name gives `sinclude` nothing"
        Sinclude => contents(state, arguments).unwrap_or_else(Expansion::null),
        Substr => cut_out(arguments)?,
        Translit => transliterate(arguments),
        // 004: "Their values shall be null unless otherwise stated."
        _ => act(which, state, arguments).map(|()| Expansion::null())?,
    };
    Ok(Outcome::Result(result))
}

/// The macros that change the state and give nothing.
fn act(which: Predefined, state: &mut State, arguments: &[Vec<u8>]) -> Result<(), Refusal> {
    match which {
        Changecom => change_comment(state, arguments)?,
        Changequote => change_quote(state, arguments)?,
        Copydef => copy_definition(state, arguments)?,
        Define => {
            let (name, meaning) = defined(arguments)?;
            state.definitions.define(name, meaning);
        }
        Divert => state.streams.divert(or_default(arguments.first(), 0)?),
        Dnl => state.ahead.drop_line(),
        // "errprint joins its arguments with one space."
        Errprint => state.errors.extend(arguments.join(&b' ')),
        // 004: "The first argument shall be processed when EOF is reached."
        M4wrap => state.wrap.extend_from_slice(text(arguments, 0)),
        Popdef => arguments
            .iter()
            .for_each(|name| state.definitions.popdef(name)),
        Pushdef => {
            let (name, meaning) = defined(arguments)?;
            state.definitions.pushdef(name, meaning);
        }
        Undefine => arguments
            .iter()
            .for_each(|name| state.definitions.undefine(name)),
        Undivert => undivert(state, arguments)?,
        _ => unreachable!("{} gives a result", which.name()),
    }
    Ok(())
}

/// An argument as text, null if absent.
fn text(arguments: &[Vec<u8>], at: usize) -> &[u8] {
    arguments.get(at).map_or(&[], Vec::as_slice)
}

/// An argument that gets a meaning; 6: "define or pushdef of what is not a name", and in copydef "the
/// new name is judged first (6)".
fn name(arguments: &[Vec<u8>], at: usize) -> Result<&[u8], Refusal> {
    let name = text(arguments, at);
    if is_name(name) {
        Ok(name)
    } else {
        Err(Refusal::Name)
    }
}

/// The name and the text of define and pushdef.
fn defined(arguments: &[Vec<u8>]) -> Result<(&[u8], Meaning), Refusal> {
    Ok((name(arguments, 0)?, Meaning::of(text(arguments, 1))))
}

/// 02, request 7: "the second argument gets the meaning of the first, predefined or text, as define
/// would set it"; "the new name is judged first (6), then 16, the first argument has no definition".
fn copy_definition(state: &mut State, arguments: &[Vec<u8>]) -> Result<(), Refusal> {
    let new_name = name(arguments, 1)?;
    let meaning = state.definitions.newest(text(arguments, 0));
    let meaning = meaning.cloned().ok_or(Refusal::NoDefinition)?;
    state.definitions.define(new_name, meaning);
    Ok(())
}

/// "changecom without arguments turns comments off".
fn change_comment(state: &mut State, arguments: &[Vec<u8>]) -> Result<(), Refusal> {
    state.marks.comment = if arguments.is_empty() {
        None
    } else {
        Some(Pair::read(arguments)?)
    };
    Ok(())
}

/// "changequote without arguments sets the defaults".
fn change_quote(state: &mut State, arguments: &[Vec<u8>]) -> Result<(), Refusal> {
    state.marks.quote = if arguments.is_empty() {
        Pair::default_quote()
    } else {
        Pair::read(arguments)?
    };
    Ok(())
}

/// incr and decr; 7: "an incr or decr result outside that range".
fn step_number(arguments: &[Vec<u8>], by: i32) -> Result<Expansion, Refusal> {
    let number = needed(arguments.first())?
        .checked_add(by)
        .ok_or(Refusal::Number)?;
    Ok(Expansion::of_number(i64::from(number)))
}

/// "defn joins its arguments' texts, each in quote marks; unknown names give nothing."
fn defined_texts(state: &State, arguments: &[Vec<u8>]) -> Result<Expansion, Refusal> {
    let mut result = Expansion::null();
    for name in arguments {
        match state.definitions.newest(name) {
            Some(Meaning::Text(text)) => result.add_quoted(text, &state.marks.quote),
            // 11: "defn of a predefined meaning in force"
            Some(Meaning::Predefined(_)) => return Err(Refusal::NoText),
            None => {}
        }
    }
    Ok(result)
}

/// "eval in the order 8, radix, digits, 9".
fn evaluate(arguments: &[Vec<u8>]) -> Result<Expansion, Refusal> {
    let tree = eval::read(text(arguments, 0))?;
    let radix = within(or_default(arguments.get(1), 10)?, 2, 36)?;
    let digits = within(or_default(arguments.get(2), 0)?, 0, i32::MAX)?;
    let value = eval::work_out(&tree)?;
    Ok(eval::write(value, radix as u32, digits as usize))
}

/// 004: "If the first argument to the ifdef macro is defined, the defining text shall be the second
/// argument. Otherwise ... the third argument, if specified, or the null string, if not."
fn if_defined(state: &State, arguments: &[Vec<u8>]) -> Expansion {
    let defined = state.definitions.newest(text(arguments, 0)).is_some();
    Expansion::of(text(arguments, if defined { 1 } else { 2 }))
}

/// "ifelse: below three arguments null, then as 004 says".
fn if_else(arguments: &[Vec<u8>]) -> Expansion {
    match arguments {
        [left, right, equal, ..] if left == right => Expansion::of(equal),
        // "six or more arguments, the first three arguments shall be discarded and processing shall
        // restart"
        [_, _, _, rest @ ..] if rest.len() >= 3 => if_else(rest),
        // "four or five arguments, the defining text shall be the fourth argument"
        [_, _, _, fourth, ..] => Expansion::of(fourth),
        _ => Expansion::null(),
    }
}

/// 02, request 1: "The contents become pending text and count there". The first argument is compared
/// whole with the names of the items.
fn contents(state: &State, arguments: &[Vec<u8>]) -> Option<Expansion> {
    state.set.text_of(text(arguments, 0)).map(Expansion::of)
}

/// 004: "the first character position ... (zero origin), or -1"; "index finds an empty string at
/// 0."
fn find(arguments: &[Vec<u8>]) -> Expansion {
    let (whole, part) = (text(arguments, 0), text(arguments, 1));
    let found = (0..=whole.len()).find(|&at| whole[at..].starts_with(part));
    Expansion::of_number(found.map_or(-1, |at| at as i64))
}

/// 7: "a negative substr start or length"; default: "substr length to the end".
fn cut_out(arguments: &[Vec<u8>]) -> Result<Expansion, Refusal> {
    let whole = text(arguments, 0);
    let start = within(needed(arguments.get(1))?, 0, i32::MAX)?;
    let length = within(or_default(arguments.get(2), i32::MAX)?, 0, i32::MAX)?;
    let from = whole.get(start as usize..).unwrap_or(&[]);
    Ok(Expansion::of(&from[..from.len().min(length as usize)]))
}

/// "translit deletes bytes whose partner is missing; of a repeated byte the first counts; no
/// ranges."
fn transliterate(arguments: &[Vec<u8>]) -> Expansion {
    let (from, to) = (text(arguments, 1), text(arguments, 2));
    let partner = |byte: &u8| match from.iter().position(|other| other == byte) {
        Some(at) => to.get(at).copied(),
        None => Some(*byte),
    };
    let changed: Vec<u8> = text(arguments, 0).iter().filter_map(partner).collect();
    Expansion::of(&changed)
}

/// 7: "undivert outside 1 to 9"; default: "undivert all nine".
fn undivert(state: &mut State, arguments: &[Vec<u8>]) -> Result<(), Refusal> {
    let mut named = Vec::new();
    for argument in arguments {
        named.push(within(read(argument)?, 1, 9)?);
    }
    state.streams.undivert(&named);
    Ok(())
}

/// 7: "m4exit outside 0 to 255"; default 0.
fn exit_code(arguments: &[Vec<u8>]) -> Result<u32, Refusal> {
    let code = within(or_default(arguments.first(), 0)?, 0, 255)?;
    Ok(code as u32)
}

#[cfg(test)]
mod tests {
    use super::*;

    fn arguments(list: &[&str]) -> Vec<Vec<u8>> {
        list.iter()
            .map(|argument| argument.as_bytes().to_vec())
            .collect()
    }

    #[test]
    fn ifelse_by_count() {
        let cases: [(&[&str], &str); 8] = [
            (&[], ""),
            (&["a", "a"], ""),
            (&["a", "b", "c"], ""),
            (&["a", "b", "c", "d"], "d"),
            (&["a", "b", "c", "d", "e"], "d"),
            (&["a", "b", "c", "d", "d", "f"], "f"),
            (&["a", "b", "c", "d", "e", "f", "g"], "g"),
            (&["a", "b", "c", "d", "e", "f", "g", "h"], "g"),
        ];
        for (list, expected) in cases {
            assert_eq!(
                if_else(&arguments(list)),
                Expansion::of(expected.as_bytes())
            );
        }
    }

    #[test]
    fn strings() {
        assert_eq!(find(&arguments(&["abc", "c"])), Expansion::of(b"2"));
        assert_eq!(find(&arguments(&["", ""])), Expansion::of(b"0"));
        assert_eq!(find(&arguments(&["a", "ab"])), Expansion::of(b"-1"));
        assert_eq!(
            cut_out(&arguments(&["abc", "1", "1"])),
            Ok(Expansion::of(b"b"))
        );
        assert_eq!(cut_out(&arguments(&["abc", "4"])), Ok(Expansion::null()));
        assert_eq!(cut_out(&arguments(&["abc"])), Err(Refusal::Number));
        assert_eq!(
            transliterate(&arguments(&["abcda", "ad", "x"])),
            Expansion::of(b"xbcx")
        );
    }
}
