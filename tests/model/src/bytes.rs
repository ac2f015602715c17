//! The classes of bytes. 02: "Letters, digits, underscore and blanks (space, tab, newline) are to be
//! told apart by ranges, ... in one place"; [`class`] is that place, and every reader asks there.

/// The class of a byte.
#[derive(Clone, Copy, Debug, PartialEq, Eq)]
pub enum Class {
    Letter,
    Digit,
    Underscore,
    Blank,
    Other,
}

impl Class {
    /// The class in one word.
    pub fn name(self) -> &'static str {
        match self {
            Class::Letter => "letter",
            Class::Digit => "digit",
            Class::Underscore => "underscore",
            Class::Blank => "blank",
            Class::Other => "other",
        }
    }
}

/// 02: "each of the 256 bytes gets just its class there, or "other"". Letters are ASCII letters
/// everywhere: 01 says "(ASCII only)".
pub fn class(byte: u8) -> Class {
    match byte {
        b'A'..=b'Z' | b'a'..=b'z' => Class::Letter,
        b'0'..=b'9' => Class::Digit,
        b'_' => Class::Underscore,
        b' ' | b'\t' | b'\n' => Class::Blank,
        _ => Class::Other,
    }
}

/// A decimal digit.
pub fn is_digit(byte: u8) -> bool {
    class(byte) == Class::Digit
}

/// A blank: "spaces, tabs and newlines".
pub fn is_blank(byte: u8) -> bool {
    class(byte) == Class::Blank
}

/// A byte that may begin a name: "a letter or underscore".
pub fn begins_name(byte: u8) -> bool {
    matches!(class(byte), Class::Letter | Class::Underscore)
}

/// A byte that may go on in a name: "letters, digits and underscores".
pub fn is_word(byte: u8) -> bool {
    begins_name(byte) || is_digit(byte)
}

/// The value of a digit in a radix from 2 to 36. The digits above 9 are letters of either case.
pub fn digit_value(byte: u8, radix: u8) -> Option<u8> {
    let value = match class(byte) {
        Class::Digit => byte - b'0',
        Class::Letter => byte.to_ascii_lowercase() - b'a' + 10,
        _ => return None,
    };
    (value < radix).then_some(value)
}

/// Whether all of the bytes are one name.
pub fn is_name(bytes: &[u8]) -> bool {
    match bytes.split_first() {
        Some((&first, rest)) => begins_name(first) && rest.iter().all(|&byte| is_word(byte)),
        None => false,
    }
}

#[cfg(test)]
mod tests {
    use super::*;

    /// All bytes of a class.
    fn members(wanted: Class) -> Vec<u8> {
        (0..=255).filter(|&byte| class(byte) == wanted).collect()
    }

    #[test]
    fn classes_by_name() {
        let names: Vec<&str> = b"Az0_ \t\n\r\x0b\xe9("
            .iter()
            .map(|&byte| class(byte).name())
            .collect();
        let expected = [
            "letter",
            "letter",
            "digit",
            "underscore",
            "blank",
            "blank",
            "blank",
            "other",
            "other",
            "other",
            "other",
        ];
        assert_eq!(names, expected);
    }

    #[test]
    fn class_sizes() {
        use Class::*;
        let sizes = [Letter, Digit, Underscore, Blank, Other].map(|which| members(which).len());
        assert_eq!(sizes, [52, 10, 1, 3, 190]);
    }

    #[test]
    fn class_members() {
        assert_eq!(
            members(Class::Letter),
            b"ABCDEFGHIJKLMNOPQRSTUVWXYZabcdefghijklmnopqrstuvwxyz"
        );
        assert_eq!(members(Class::Digit), b"0123456789");
        assert_eq!(members(Class::Underscore), b"_");
        assert_eq!(members(Class::Blank), b"\t\n ");
    }

    #[test]
    fn digit_values_in_every_radix() {
        for radix in 2..=36 {
            for byte in 0..=255 {
                let expected = char::from(byte).to_digit(u32::from(radix));
                assert_eq!(digit_value(byte, radix).map(u32::from), expected);
            }
        }
    }

    #[test]
    fn names_are_ascii_and_whole() {
        for good in [&b"a"[..], b"_", b"Z9_", b"_0"] {
            assert!(is_name(good));
        }
        for bad in [&b""[..], b"9a", b"a ", b"a\n", b"\xe9", b"a\xe9", b"a-b"] {
            assert!(!is_name(bad));
        }
    }

    #[test]
    fn blanks_are_three() {
        let blanks: Vec<u8> = (0..=255).filter(|&byte| is_blank(byte)).collect();
        assert_eq!(blanks, b"\t\n ");
    }
}
