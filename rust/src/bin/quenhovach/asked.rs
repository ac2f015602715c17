//! What a refused call asked for, as far as the template shows it, and names like it.

use crate::bytes::is_blank;
use crate::sets::printable;

/// Names that are listed at most.
const MOST: usize = 3;
/// Bytes of a name that others are compared with, at most.
const LONGEST_NAME: usize = 200;

/// What stands in the parentheses of a call that closes at this place of the text, without the blanks in front; `open` is its name and `(`.
pub fn arguments<'t>(text: &'t [u8], place: usize, open: &[u8]) -> Option<&'t [u8]> {
    if text.get(place) != Some(&b')') {
        return None;
    }
    let taken = &text[..place];
    let begin = taken.windows(open.len()).rposition(|part| part == open)?;
    Some(without_blanks(&taken[begin + open.len()..]))
}

/// A text without the blanks in front of it.
pub fn without_blanks(text: &[u8]) -> &[u8] {
    let blanks = text.iter().take_while(|&&b| is_blank(b)).count();
    &text[blanks..]
}

/// Names as a message lists them.
pub fn listed(names: &[&[u8]]) -> String {
    let told: Vec<_> = names
        .iter()
        .map(|name| format!("`{}`", printable(name)))
        .collect();
    told.join(", ")
}

/// The names that one may have been meant by another: the nearest first.
pub fn alike<'n>(asked: &[u8], names: &[&'n [u8]]) -> Vec<&'n [u8]> {
    let mut near: Vec<_> = names
        .iter()
        .filter_map(|&name| Some((distance(asked, name)?, name)))
        .collect();
    near.sort_by_key(|&(distance, _)| distance);
    near.into_iter().take(MOST).map(|(_, name)| name).collect()
}

/// How far apart two names are, if they are alike: but for blanks around them, capitals, their folders, or a few bytes.
fn distance(asked: &[u8], name: &[u8]) -> Option<usize> {
    if asked.len().max(name.len()) > LONGEST_NAME {
        return None;
    }
    let (asked, name) = (asked.trim_ascii(), name.trim_ascii());
    if asked.eq_ignore_ascii_case(name) {
        return Some(0);
    }
    let edits = edits(asked, name);
    let few = edits <= 1 + asked.len().min(name.len()) / 5;
    let same_file = !asked.is_empty() && file_of(asked).eq_ignore_ascii_case(file_of(name));
    (few || same_file).then_some(edits)
}

/// The last part of a path.
fn file_of(path: &[u8]) -> &[u8] {
    let slash = path.iter().rposition(|&b| b == b'/');
    &path[slash.map_or(0, |n| n + 1)..]
}

/// How many bytes have to be put in, left out or exchanged to make one name of the other.
fn edits(one: &[u8], other: &[u8]) -> usize {
    let mut row: Vec<usize> = (0..=other.len()).collect();
    for (i, a) in one.iter().enumerate() {
        let mut corner = row[0];
        row[0] = i + 1;
        for (j, b) in other.iter().enumerate() {
            let exchanged = corner + usize::from(a != b);
            corner = row[j + 1];
            row[j + 1] = exchanged.min(corner + 1).min(row[j] + 1);
        }
    }
    row[other.len()]
}

#[cfg(test)]
mod tests {
    use super::*;

    #[test]
    fn what_stands_in_a_call() {
        for (text, found) in [
            ("f(a, b)", Some("a, b")),
            ("f(a)f( \n`b' )", Some("`b' ")),
            ("f()", Some("")),
            ("g(a)", None),
            ("f(a) ", None),
        ] {
            let place = text.len() - 1;
            let expected = found.map(str::as_bytes);
            assert_eq!(arguments(text.as_bytes(), place, b"f("), expected, "{text}");
        }
        assert_eq!(arguments(b"f(a)", 4, b"f("), None);
    }

    #[test]
    fn names_that_are_alike() {
        let names: Vec<&[u8]> = vec![
            b"guys.m4",
            b"yard/guys.m4",
            b"wind.m4",
            b"Guys.M4",
            b"b",
            b"",
        ];
        for (asked, expected) in [
            (
                "guys.m4 ",
                &[&b"guys.m4"[..], b"Guys.M4", b"yard/guys.m4"][..],
            ),
            ("gusy.m4", &[b"guys.m4"]),
            ("pier/wind.m4", &[b"wind.m4"]),
            ("winds.m4", &[b"wind.m4"]),
            ("a", &[b"b", b""]),
            ("mast.m4", &[]),
        ] {
            assert_eq!(alike(asked.as_bytes(), &names), expected, "{asked}");
        }
    }

    #[test]
    fn edits_are_counted() {
        for (one, other, count) in [
            ("", "", 0),
            ("", "abc", 3),
            ("abc", "abd", 1),
            ("ab", "ba", 2),
            ("guys", "uys_", 2),
        ] {
            assert_eq!(edits(one.as_bytes(), other.as_bytes()), count);
            assert_eq!(edits(other.as_bytes(), one.as_bytes()), count);
        }
    }
}
