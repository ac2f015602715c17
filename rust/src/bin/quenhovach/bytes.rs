//! The class of a byte, for the scan for likely mistakes: every test of a byte in it asks here. The expander's own is proved (crates/ascii); the
//! archive does not hand it out, so the test below holds this one to the same vectors, byte by byte.

#[derive(Clone, Copy, Debug, PartialEq, Eq)]
pub enum Class {
    Letter,
    Digit,
    Underscore,
    Blank,
    Other,
}

pub fn class_of(byte: u8) -> Class {
    match byte {
        b'A'..=b'Z' | b'a'..=b'z' => Class::Letter,
        b'0'..=b'9' => Class::Digit,
        b'_' => Class::Underscore,
        b' ' | b'\t' | b'\n' => Class::Blank,
        _ => Class::Other,
    }
}

pub fn is_digit(byte: u8) -> bool {
    class_of(byte) == Class::Digit
}

pub fn is_blank(byte: u8) -> bool {
    class_of(byte) == Class::Blank
}

pub fn begins_name(byte: u8) -> bool {
    matches!(class_of(byte), Class::Letter | Class::Underscore)
}

pub fn is_in_name(byte: u8) -> bool {
    begins_name(byte) || is_digit(byte)
}

pub fn is_name(word: &[u8]) -> bool {
    word.first().is_some_and(|&b| begins_name(b)) && word.iter().all(|&b| is_in_name(b))
}

/// The bytes of a text from `from` on that meet a test.
pub fn run_of(text: &[u8], from: usize, test: impl Fn(u8) -> bool) -> &[u8] {
    let rest = text.get(from..).unwrap_or_default();
    let length = rest.iter().position(|&b| !test(b)).unwrap_or(rest.len());
    &rest[..length]
}

#[cfg(test)]
mod tests {
    use super::*;

    #[test]
    fn names() {
        for name in ["a", "_", "_9", "guy_count"] {
            assert!(is_name(name.as_bytes()), "{name}");
        }
        for word in ["", "9", "9a", "a=", "a b", "é"] {
            assert!(!is_name(word.as_bytes()), "{word}");
        }
    }

    /// What the program `vectors` writes: for each byte a line with its number, its class, and what it is in a name.
    const VECTORS: &str = include_str!("../../../../crates/vectors/stdout");

    #[test]
    fn as_the_vectors_have_it() {
        let mut lines = VECTORS.lines();
        for byte in 0..=u8::MAX {
            let line = lines.next().expect("a line for each byte");
            let [number, class, tests]: [&str; 3] = Vec::from_iter(line.split(' '))
                .try_into()
                .expect("three words");
            assert_eq!(number, byte.to_string());
            assert_eq!(class, format!("{:?}", class_of(byte)).to_lowercase());
            assert_eq!(tests.contains('D'), is_digit(byte), "{line}");
            assert_eq!(tests.contains('B'), is_blank(byte), "{line}");
            assert_eq!(tests.contains('b'), begins_name(byte), "{line}");
            assert_eq!(tests.contains('c'), is_in_name(byte), "{line}");
        }
    }
}
