//! What is said of a name that copydef was to copy, and that has no definition.

use crate::asked::{self, alike, listed, without_blanks};
use crate::bytes::is_blank;
use crate::sets::printable;

/// Bytes of a name that is told, at most.
const LONGEST_NAME: usize = 40;

/// What happened, and what to do.
pub fn missing(asked: Option<&[u8]>) -> (String, String) {
    let name = asked.map(|name| format!(", `{}`,", printable(name)));
    let happened = format!(
        "copydef was given a name to copy{} that has no definition",
        name.unwrap_or_default()
    );
    let advice =
        "write the name to copy first and the new name second, in quote marks, without a blank behind them; without the marks a macro \
         is called first, and what it gives is taken for the name. A name is copied as it is defined at that moment: look for a \
         definition that comes later, for undefine or popdef before the call, and for a misspelt name";
    (happened, advice.to_string())
}

/// The names like the one that was asked for, of those that have a definition somewhere. A single letter is like any other.
pub fn like(asked: Option<&[u8]>, defined: &[&str]) -> Option<String> {
    let asked = asked.filter(|name| name.trim_ascii().len() > 1)?;
    let others: Vec<_> = defined
        .iter()
        .map(|name| name.as_bytes())
        .filter(|&name| name != asked)
        .collect();
    let found = alike(asked, &others);
    (!found.is_empty()).then(|| listed(&found))
}

/// The name that copydef was to copy, if its call closes at this place of the text and the name can be read there. One that is not quoted and
/// has a definition somewhere may have been called first, so that another was asked for.
pub fn asked(text: &[u8], place: usize, defined: &[&str]) -> Option<Vec<u8>> {
    let arguments = asked::arguments(text, place, b"copydef(")?;
    let mut arguments = arguments.split(|&b| b == b',').map(argument);
    let (Some(Some(old)), Some(Some(_)), None) =
        (arguments.next(), arguments.next(), arguments.next())
    else {
        return None;
    };
    let is_defined = |name: &[u8]| defined.iter().any(|known| known.as_bytes() == name);
    let sure = old.quoted || !is_defined(old.text.trim_ascii());
    (sure && old.text.len() <= LONGEST_NAME).then_some(old.text)
}

struct Argument {
    text: Vec<u8>,
    quoted: bool,
}

/// An argument that is a name, quoted whole or not at all, with the blanks that stay behind it.
fn argument(bytes: &[u8]) -> Option<Argument> {
    let bytes = without_blanks(bytes);
    let (text, quoted) = match bytes {
        [b'`', rest @ ..] => {
            let end = rest.iter().position(|&b| b == b'\'')?;
            let (name, behind) = (&rest[..end], &rest[end + 1..]);
            if !behind.iter().all(|&b| is_blank(b)) {
                return None;
            }
            ([name, behind].concat(), true)
        }
        _ => (bytes.to_vec(), false),
    };
    let plain = text.iter().all(|b| !b"`'()#".contains(b));
    plain.then_some(Argument { text, quoted })
}

#[cfg(test)]
mod tests {
    use super::*;

    #[test]
    fn the_name_that_was_asked_for() {
        for (text, name) in [
            ("copydef(`lne', `l')", Some("lne")),
            ("a copydef( \n `lne' , l )", Some("lne ")),
            ("copydef(lne,`l')", Some("lne")),
            ("copydef(lne ,`l')", Some("lne ")),
            ("copydef(,`l')", Some("")),
            ("copydef(`h', `l')", Some("h")),
            ("copydef(h, `l')", None),
            ("copydef(`lne'h, `l')", None),
            ("copydef(f(a), `l')", None),
            ("copydef(`lne')", None),
            ("copydef(`lne', `l', `m')", None),
            ("copydef(`len', `l')x, `y')", None),
            ("rig(`lne', `l')", None),
        ] {
            let place = text.len() - 1;
            let found = asked(text.as_bytes(), place, &["h", "len"]);
            assert_eq!(found.as_deref(), name.map(str::as_bytes), "{text}");
        }
        assert_eq!(asked(b"copydef(`a',`b') ", 16, &[]), None);
        for length in [40, 41] {
            let text = format!("copydef({},b)", "a".repeat(length));
            let found = asked(text.as_bytes(), text.len() - 1, &[]);
            assert_eq!(found.is_some(), length == 40);
        }
    }

    #[test]
    fn names_that_are_alike() {
        let defined = ["divert", "divnum", "g", "guys", "len", "lens"];
        for (asked, expected) in [
            (Some("lne"), None),
            (Some("lem"), Some("`len`")),
            (Some("LEN "), Some("`len`")),
            (Some("l"), None),
            (Some("divnumm"), Some("`divnum`")),
            (Some("len"), Some("`lens`")),
            (Some("mast"), None),
            (None, None),
        ] {
            let found = like(asked.map(str::as_bytes), &defined);
            assert_eq!(found.as_deref(), expected, "{asked:?}");
        }
    }
}
