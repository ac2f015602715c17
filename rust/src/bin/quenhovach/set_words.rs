//! What is said of a set: of a bad one, and of a name that it has not.

use crate::asked::{self, alike, listed};
use crate::bytes::is_in_name;
use crate::sets::{printable, Lent, Origin};
use quenhovach::set;

/// What happened where the set is bad, and what to do.
pub fn bad(lent: &Lent) -> (String, String) {
    let fault = set::items(&lent.bytes).find_map(Result::err);
    let fault = fault.map_or("it is bad".to_string(), |fault| fault.to_string());
    (
        format!("{fault} (bytes of the set count from 0); nothing was expanded"),
        "make the set again, with -I DIR --write-set FILE; one that was cut off or edited is no set any more"
            .to_string(),
    )
}

/// What happened where a name is not in the set, and what to do.
pub fn missing(lent: &Lent, asked: Option<&[u8]>) -> (String, String) {
    let name = asked.map(|name| format!(" `{}`,", printable(name)));
    let happened = format!(
        "include was given a name,{} that no text in the set has",
        name.unwrap_or_default()
    );
    let advice = match lent.origin {
        Origin::Nowhere => {
            "give -I DIR with the folder of the texts, or --set FILE; no set was given".to_string()
        }
        _ => "write the name as the set has it, whole: a path from the folder of -I, in quote marks, without a blank behind \
              it; or take sinclude, which gives nothing for a name that is not there"
            .to_string(),
    };
    (happened, advice)
}

/// Where the set came from, what it has, and which of its names are like the one that was asked for.
pub fn described(lent: &Lent, asked: Option<&[u8]>) -> Option<String> {
    let from = match &lent.origin {
        Origin::Nowhere => return None,
        Origin::Folders(folders, _) => {
            let told = folders
                .iter()
                .map(|folder| format!("-I {}", folder.display()));
            told.collect::<Vec<_>>().join(" ")
        }
        Origin::File(name) => format!("--set {name}"),
    };
    let items = lent.items();
    let names: Vec<&[u8]> = items.iter().map(|item| &item.name[..]).collect();
    let texts = if names.len() == 1 { "text" } else { "texts" };
    let mut words = format!("{} {texts} by {from}", names.len());
    let alike = asked.map_or(Vec::new(), |name| alike(name, &names));
    if !alike.is_empty() {
        words += &format!("; like that name: {}", listed(&alike));
    }
    Some(words)
}

/// The name that an include asked for, if its call closes at this place of the text and the name can be read there.
pub fn asked(text: &[u8], place: usize) -> Option<&[u8]> {
    let name = match asked::arguments(text, place, b"include(")? {
        [b'`', name @ .., b'\''] => name,
        name if name.iter().all(|&b| is_in_name(b) || b"./-+ ".contains(&b)) => name,
        _ => return None,
    };
    let plain = name.iter().all(|b| !b"`'()".contains(b));
    plain.then_some(name)
}

#[cfg(test)]
mod tests {
    use super::*;

    #[test]
    fn the_name_that_was_asked_for() {
        for (text, name) in [
            ("a include(`guys.m4')", Some("guys.m4")),
            ("include( \n guys.m4)", Some("guys.m4")),
            ("include(`a b, c')", Some("a b, c")),
            ("include(a/b-c.m4 )", Some("a/b-c.m4 ")),
            ("sinclude(`x')include()", Some("")),
            ("include(`guys'n)", None),
            ("include(f(a))", None),
            ("include(a,b)", None),
            ("len(a)", None),
            ("include(`a')x)", None),
        ] {
            let place = text.len() - 1;
            assert_eq!(
                asked(text.as_bytes(), place),
                name.map(str::as_bytes),
                "{text}"
            );
        }
        assert_eq!(asked(b"include(a) b", 11), None);
        assert_eq!(asked(b"include(a)", 10), None);
    }
}
