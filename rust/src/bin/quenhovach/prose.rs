//! Whether what stands around a predefined name speaks for a call or for a word of plain text.

use crate::bytes::{is_blank, is_in_name, run_of};
use std::ops::Range;

/// Whether the name that begins here stands right behind `=`, as what a sheet gives for a setting does.
pub fn is_reading(text: &[u8], place: usize) -> bool {
    text[..place].ends_with(b"=")
}

/// Whether arguments begin here, behind `(`, and no remark: a quote comes first, a parameter, or a word with a comma or `(` right behind it.
pub fn begins_arguments(text: &[u8], from: usize) -> bool {
    let from = from + run_of(text, from, is_blank).len();
    let word = run_of(text, from, is_in_name).len();
    match text.get(from + word) {
        Some(b'`' | b'$') => true,
        Some(b',' | b'(') => word > 0,
        _ => false,
    }
}

/// Whether all that stands in the parentheses that begin here, behind `(`, is a file's name with a point or a slash in it.
pub fn is_file_name(text: &[u8], from: usize) -> bool {
    let name = run_of(text, from, |b| is_in_name(b) || b"./-".contains(&b));
    let parted = name.iter().any(|b| b"./".contains(b));
    let ends = name.last().is_some_and(|&b| is_in_name(b));
    parted && ends && text.get(from + name.len()) == Some(&b')')
}

/// Whether a name stands between two words of a line. A remark of dnl is no word.
pub fn is_between_words(text: &[u8], name: Range<usize>) -> bool {
    let is_space = |b| b == b' ';
    let mut before = text[..name.start]
        .iter()
        .rev()
        .skip_while(|&&b| is_space(b));
    let spaces = run_of(text, name.end, is_space).len();
    let next = run_of(text, name.end + spaces, is_in_name);
    let behind = spaces > 0 && !next.is_empty() && next != b"dnl";
    behind && before.next().is_some_and(|&b| is_in_name(b))
}

#[cfg(test)]
mod tests {
    use super::*;

    #[test]
    fn readings() {
        for (text, is_one) in [("a=len", true), ("a = len", false), ("a len", false)] {
            let place = text.len() - "len".len();
            assert_eq!(is_reading(text.as_bytes(), place), is_one, "{text}");
        }
        assert!(!is_reading(b"len", 0));
    }

    #[test]
    fn arguments_and_remarks() {
        for text in [
            "`a')",
            " \n`a')",
            "$1)",
            "gain, 5)",
            "7, 5)",
            "guy_`'n)",
            "substr(a, 1))",
        ] {
            assert!(begins_arguments(text.as_bytes(), 0), "{text}");
        }
        for text in [
            "see below)",
            "night)",
            "840 cm)",
            "-5 to 5)",
            "see below, or page 5)",
            ", a)",
            ")",
            "",
        ] {
            assert!(!begins_arguments(text.as_bytes(), 0), "{text}");
        }
    }

    #[test]
    fn file_names() {
        for text in ["guys.m4)", "yard/guys)", "../a-b.m4) c"] {
            assert!(is_file_name(text.as_bytes(), 0), "{text}");
        }
        for text in ["guys)", "e.g. this)", "see.)", "guys.m4", ")", ""] {
            assert!(!is_file_name(text.as_bytes(), 0), "{text}");
        }
    }

    #[test]
    fn between_words() {
        for (text, is_between) in [
            ("we divert the cable", true),
            ("we  divert  7", true),
            ("divert the cable", false),
            ("a=divert the cable", false),
            ("we\ndivert the cable", false),
            ("we divert\nthe cable", false),
            ("we divert, the cable", false),
            ("we divert", false),
            ("we divert dnl the cable", false),
        ] {
            let begin = text.find("divert").expect("it is there");
            let name = begin..begin + "divert".len();
            assert_eq!(
                is_between_words(text.as_bytes(), name),
                is_between,
                "{text}"
            );
        }
    }
}
