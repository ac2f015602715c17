//! Results that go in front of the text ahead, and defined text with its arguments put in.

use crate::bytes::digit_value;
use crate::marks::Pair;
use crate::LIMIT;

/// The result of a call. One that is longer than any lent buffer is not built: it is room 1 after
/// the other refusals of its step, since nothing in that step shrinks the pending text again.
#[derive(Clone, Debug, PartialEq, Eq)]
pub struct Expansion {
    bytes: Vec<u8>,
    overlong: bool,
}

impl Expansion {
    /// The null result.
    pub fn null() -> Expansion {
        Expansion {
            bytes: Vec::new(),
            overlong: false,
        }
    }

    /// A result of these bytes.
    pub fn of(bytes: &[u8]) -> Expansion {
        let mut result = Expansion::null();
        result.add(bytes);
        result
    }

    /// A decimal number.
    pub fn of_number(number: i64) -> Expansion {
        Expansion::of(number.to_string().as_bytes())
    }

    /// The bytes, unless the result is overlong.
    pub fn bytes(&self) -> Option<&[u8]> {
        (!self.overlong).then_some(&self.bytes)
    }

    /// Appends bytes.
    pub fn add(&mut self, bytes: &[u8]) {
        if self.has_room_for(bytes.len()) {
            self.bytes.extend_from_slice(bytes);
        }
    }

    /// Appends `count` zero digits.
    pub fn add_zeros(&mut self, count: usize) {
        if self.has_room_for(count) {
            self.bytes.resize(self.bytes.len() + count, b'0');
        }
    }

    /// Appends text between the current quote marks.
    pub fn add_quoted(&mut self, bytes: &[u8], quote: &Pair) {
        self.add(&quote.begin);
        self.add(bytes);
        self.add(&quote.end);
    }

    fn has_room_for(&mut self, count: usize) -> bool {
        self.overlong = self.overlong || count > LIMIT - self.bytes.len();
        !self.overlong
    }
}

/// "the same with each in the current quote marks".
pub fn join_quoted(arguments: &[Vec<u8>], quote: &Pair) -> Expansion {
    let mut result = Expansion::null();
    add_joined_quoted(&mut result, arguments, quote);
    result
}

/// "all joined by commas".
fn add_joined(result: &mut Expansion, arguments: &[Vec<u8>]) {
    for (i, argument) in arguments.iter().enumerate() {
        if i > 0 {
            result.add(b",");
        }
        result.add(argument);
    }
}

fn add_joined_quoted(result: &mut Expansion, arguments: &[Vec<u8>], quote: &Pair) {
    for (i, argument) in arguments.iter().enumerate() {
        if i > 0 {
            result.add(b",");
        }
        result.add_quoted(argument, quote);
    }
}

/// Defined text with name and arguments put in, in one pass from left to right.
pub fn substitute(text: &[u8], name: &[u8], arguments: &[Vec<u8>], quote: &Pair) -> Expansion {
    let mut result = Expansion::null();
    let mut rest = text;
    while let Some(dollar) = rest.iter().position(|&byte| byte == b'$') {
        result.add(&rest[..dollar]);
        let selector = rest.get(dollar + 1).copied();
        if add_parameter(&mut result, selector, name, arguments, quote) {
            rest = &rest[dollar + 2..];
        } else {
            // "Another `$` is itself."
            result.add(b"$");
            rest = &rest[dollar + 1..];
        }
    }
    result.add(rest);
    result
}

/// Appends what a `$` and the byte behind it stand for. False if they stand for themselves.
fn add_parameter(
    result: &mut Expansion,
    selector: Option<u8>,
    name: &[u8],
    arguments: &[Vec<u8>],
    quote: &Pair,
) -> bool {
    let Some(selector) = selector else {
        return false;
    };
    match (selector, digit_value(selector, 10)) {
        // "`$0` is the name"
        (_, Some(0)) => result.add(name),
        // "`$1` to `$9` arguments (null if absent)"
        (_, Some(digit)) => {
            if let Some(argument) = arguments.get(usize::from(digit) - 1) {
                result.add(argument);
            }
        }
        // "`$#` their number"
        (b'#', None) => result.add(arguments.len().to_string().as_bytes()),
        (b'*', None) => add_joined(result, arguments),
        (b'@', None) => add_joined_quoted(result, arguments, quote),
        _ => return false,
    }
    true
}

#[cfg(test)]
mod tests {
    use super::*;

    fn substituted(text: &str, arguments: &[&str]) -> String {
        let arguments: Vec<Vec<u8>> = arguments.iter().map(|a| a.as_bytes().to_vec()).collect();
        let result = substitute(text.as_bytes(), b"f", &arguments, &Pair::default_quote());
        String::from_utf8(result.bytes().unwrap().to_vec()).unwrap()
    }

    #[test]
    fn parameters() {
        assert_eq!(substituted("$0:$#:$1$2$3", &["a", "b"]), "f:2:ab");
        assert_eq!(substituted("$*|$@", &["a", "", "b"]), "a,,b|`a',`',`b'");
        assert_eq!(substituted("$*$@$#", &[]), "0");
        assert_eq!(substituted("$$1$10$a$", &["x"]), "$xx0$a$");
        assert_eq!(substituted("$1", &["$2", "b"]), "$2");
        assert_eq!(
            substituted(
                "$9$8$1$0",
                &["1", "2", "3", "4", "5", "6", "7", "8", "9", "10"]
            ),
            "981f"
        );
    }

    #[test]
    fn bytes_that_mean_something_behind_a_dollar() {
        let quote = Pair::default_quote();
        let stands_for_itself = |byte: &u8| {
            let text = [b'$', *byte];
            substitute(&text, b"f", &[], &quote) == Expansion::of(&text)
        };
        let others: Vec<u8> = (0..=255).filter(|byte| !stands_for_itself(byte)).collect();
        assert_eq!(others, b"#*0123456789@");
    }

    #[test]
    fn overlong_results_are_not_built() {
        let mut result = Expansion::null();
        result.add_zeros(LIMIT);
        assert_eq!(result.bytes().map(<[u8]>::len), Some(LIMIT));
        result.add(b"");
        assert!(result.bytes().is_some());
        result.add(b"1");
        assert!(result.bytes().is_none());
        let mut huge = Expansion::null();
        huge.add_zeros(usize::MAX);
        huge.add(b"1");
        assert!(huge.bytes().is_none());
    }
}
