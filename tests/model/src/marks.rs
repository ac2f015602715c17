//! Quote and comment marks.

use crate::answer::Refusal;
use crate::bytes::{class, Class};

/// A begin mark and its end mark.
#[derive(Clone, Debug, PartialEq, Eq)]
pub struct Pair {
    pub begin: Vec<u8>,
    pub end: Vec<u8>,
}

/// The marks in force. Comments may be turned off.
#[derive(Clone, Debug, PartialEq, Eq)]
pub struct Marks {
    pub quote: Pair,
    pub comment: Option<Pair>,
}

impl Marks {
    /// 01: "The quote marks are bytes 0x60 and 0x27"; 004: comments begin with the number sign and
    /// end with newline.
    pub fn at_start() -> Marks {
        Marks {
            quote: Pair::default_quote(),
            comment: Some(Pair {
                begin: b"#".to_vec(),
                end: b"\n".to_vec(),
            }),
        }
    }
}

impl Pair {
    /// Bytes 0x60 and 0x27.
    pub fn default_quote() -> Pair {
        Pair {
            begin: vec![0x60],
            end: vec![0x27],
        }
    }

    /// Reads the marks of changequote or changecom, of which there is at least one, "judged left to
    /// right".
    pub fn read(arguments: &[Vec<u8>]) -> Result<Pair, Refusal> {
        let begin = read_begin(&arguments[0])?;
        let end = match arguments.get(1) {
            Some(end) => read_end(end)?,
            // "one argument sets the begin mark and newline ends"
            None => b"\n".to_vec(),
        };
        Ok(Pair { begin, end })
    }
}

/// 01: "No byte of it may be a letter, digit, underscore, parenthesis, comma, space, tab or
/// newline".
fn may_stand_in_mark(byte: u8) -> bool {
    class(byte) == Class::Other && !matches!(byte, b'(' | b')' | b',')
}

/// 01: "A mark is 1 to 5 bytes long." and "An empty mark is refused."
fn read_begin(mark: &[u8]) -> Result<Vec<u8>, Refusal> {
    let long_enough = (1..=5).contains(&mark.len());
    if long_enough && mark.iter().all(|&byte| may_stand_in_mark(byte)) {
        Ok(mark.to_vec())
    } else {
        Err(Refusal::Mark)
    }
}

/// 01: "an end mark may also be a single newline".
fn read_end(mark: &[u8]) -> Result<Vec<u8>, Refusal> {
    if mark == b"\n" {
        Ok(mark.to_vec())
    } else {
        read_begin(mark)
    }
}

#[cfg(test)]
mod tests {
    use super::*;

    #[test]
    fn bytes_that_no_mark_may_have() {
        let shut_out: Vec<u8> = (0..=255).filter(|&byte| !may_stand_in_mark(byte)).collect();
        let mut expected = b"\t\n (),0123456789".to_vec();
        expected.extend(b'A'..=b'Z');
        expected.push(b'_');
        expected.extend(b'a'..=b'z');
        assert_eq!(shut_out, expected);
    }

    #[test]
    fn lengths_and_newline() {
        assert!(read_begin(b"[").is_ok() && read_begin(b"[[[[[").is_ok());
        assert!(read_begin(b"").is_err() && read_begin(b"[[[[[[").is_err());
        assert!(read_begin(b"\n").is_err() && read_end(b"\n").is_ok());
        assert!(read_end(b"\n\n").is_err() && read_end(b";\n").is_err());
    }
}
