//! What is wrong with a line that is none of a sheet, for the hint in a message. Whether a line is good is judged by the library alone.

use crate::bytes::{begins_name, is_digit, is_in_name, run_of};

/// The most digits of a decimal.
const DIGITS: usize = 15;

/// Where the line goes wrong, and how.
#[derive(Debug, PartialEq)]
pub struct Fault {
    pub place: usize,
    pub words: String,
}

/// What is wrong with a line that is not a name, `=` and a reading.
pub fn of(line: &[u8]) -> Fault {
    if let Some(fault) = of_whole(line) {
        return fault;
    }
    let name = run_of(line, 0, is_in_name).len();
    match line.get(name) {
        Some(b'=') if name > 0 && begins_name(line[0]) => {
            let Fault { place, words } = of_reading(&line[name + 1..]);
            fault(name + 1 + place, words)
        }
        _ => of_name(line, name),
    }
}

fn fault(place: usize, words: impl Into<String>) -> Fault {
    let words = words.into();
    Fault { place, words }
}

/// What is seen of the line as a whole.
fn of_whole(line: &[u8]) -> Option<Fault> {
    let blanks = run_of(line, 0, is_space).len();
    if line.is_empty() {
        let words = "the line is empty; dnl right behind a definition takes the newline away that would stay";
        return Some(fault(0, words));
    }
    if blanks == line.len() {
        let words =
            "the line has nothing but blanks; dnl drops the rest of a line with its newline";
        return Some(fault(0, words));
    }
    if line.ends_with(b"\r") {
        let words =
            "a CR ends the line; save the template with LF at the ends of its lines, without CR";
        return Some(fault(line.len() - 1, words));
    }
    if line[blanks] == b'#' {
        let words = "a comment goes to the output as it is; a remark behind dnl does not";
        return Some(fault(blanks, words));
    }
    if blanks > 0 {
        return Some(fault(0, "a blank stands before the name"));
    }
    None
}

/// A line without a name and `=`; so many bytes at its front could be in a name.
fn of_name(line: &[u8], name: usize) -> Fault {
    let Some(equals) = line.iter().position(|&b| b == b'=') else {
        return fault(name, "there is no `=` in the line");
    };
    let words = match line.get(name) {
        Some(b'=') if equals == 0 => "no name stands before `=`",
        Some(b'=') => return fault(0, "a name does not begin with a digit"),
        Some(&b) if is_space(b) => "a blank stands before `=`",
        _ => "before `=` stands a name: letters, digits and underscores",
    };
    fault(name, words)
}

/// What stands behind `=` and is no reading.
fn of_reading(reading: &[u8]) -> Fault {
    let trimmed = reading.trim_ascii_end().len();
    let Some(&first) = reading.first() else {
        let words = "nothing stands behind `=`; a macro there may have given nothing";
        return fault(0, words);
    };
    if is_space(first) {
        return fault(0, "a blank stands behind `=`");
    }
    if trimmed < reading.len() {
        return fault(trimmed, "a blank stands at the end of the line");
    }
    if begins_name(first) {
        return of_word(reading);
    }
    of_number(reading)
}

fn of_word(reading: &[u8]) -> Fault {
    let word = run_of(reading, 0, is_in_name).len();
    let words = match reading.get(word) {
        Some(b'=') => "there is a second `=`",
        Some(b'(') => "this looks like a call; the name before it has no definition there",
        Some(&b) if is_space(b) => "more than one word stands behind `=`",
        _ => "a word has letters, digits and underscores only",
    };
    fault(word, words)
}

fn of_number(reading: &[u8]) -> Fault {
    let sign = usize::from(matches!(reading[0], b'-' | b'+'));
    let whole = run_of(reading, sign, is_digit).len();
    let at = sign + whole;
    match reading.get(at) {
        _ if reading[0] == b'+' => fault(0, "a number has no plus"),
        Some(b'.') => of_decimal(reading, whole, at),
        None if whole > 0 => {
            let words = "the number is outside -2147483648 to 2147483647";
            fault(0, words)
        }
        None => fault(at, "no digit stands behind the minus"),
        Some(_) if whole == 0 => fault(at, "a reading is a number, a decimal or a word"),
        Some(_) => behind_digits(reading, at),
    }
}

/// A point with so many digits before it, at this place.
fn of_decimal(reading: &[u8], whole: usize, point: usize) -> Fault {
    let behind = run_of(reading, point + 1, is_digit).len();
    let end = point + 1 + behind;
    if whole == 0 || behind == 0 {
        let words = "a digit has to stand before the point, and one behind it";
        return fault(point, words);
    }
    if end < reading.len() {
        return behind_digits(reading, end);
    }
    let digits = whole + behind;
    let words = format!(
        "the decimal has {digits} digits; {DIGITS} at most may stand before and behind the point together"
    );
    fault(0, words)
}

/// Something stands at this place that no number has behind its digits.
fn behind_digits(reading: &[u8], at: usize) -> Fault {
    let words = match reading[at] {
        b',' => "a comma is no decimal point",
        b'.' => "there is a second point",
        b'=' => "there is a second `=`",
        b'e' | b'E' if is_exponent(&reading[at + 1..]) => "a decimal has no exponent",
        b if is_in_name(b) => "a number has nothing behind it, no unit either",
        _ => "a number is an optional minus and digits, with one point if it is a decimal",
    };
    fault(at, words)
}

/// Whether this is what stands behind the e of an exponent.
fn is_exponent(text: &[u8]) -> bool {
    let digits = match text {
        [b'-' | b'+', digits @ ..] => digits,
        digits => digits,
    };
    !digits.is_empty() && digits.iter().all(|&b| is_digit(b))
}

/// A blank that a line may have.
fn is_space(byte: u8) -> bool {
    matches!(byte, b' ' | b'\t')
}

#[cfg(test)]
mod tests {
    use super::*;
    use quenhovach::{sheet, BadLine};

    /// Lines, where each goes wrong, and a part of what is said of it.
    const LINES: [(&str, usize, &str); 42] = [
        ("", 0, "the line is empty; dnl"),
        (" \t", 0, "nothing but blanks"),
        ("a=1\r", 3, "a CR ends the line"),
        ("\r", 0, "a CR ends the line"),
        ("# a=1", 0, "a comment goes to the output"),
        ("  # a", 2, "a comment goes to the output"),
        (" a=1", 0, "a blank stands before the name"),
        ("a", 1, "no `=` in the line"),
        ("sway on", 4, "no `=` in the line"),
        ("define (`n', 5)", 6, "no `=` in the line"),
        ("=1", 0, "no name stands before `=`"),
        ("9=1", 0, "does not begin with a digit"),
        ("9a=1", 0, "does not begin with a digit"),
        ("a =1", 1, "a blank stands before `=`"),
        ("9 =1", 1, "a blank stands before `=`"),
        ("a-b=1", 1, "before `=` stands a name"),
        ("a b=1", 1, "a blank stands before `=`"),
        ("-=1", 0, "before `=` stands a name"),
        ("a=", 2, "nothing stands behind `=`"),
        ("a= 1", 2, "a blank stands behind `=`"),
        ("a=1 ", 3, "at the end of the line"),
        ("a=on\t ", 4, "at the end of the line"),
        ("a=b=c", 3, "a second `=`"),
        ("a=1=2", 3, "a second `=`"),
        ("a=len(b)", 5, "looks like a call"),
        ("a=on off", 4, "more than one word"),
        ("a=on-off", 4, "a word has letters"),
        ("a=+1", 2, "no plus"),
        ("a=+on", 2, "no plus"),
        ("a=2147483648", 2, "outside -2147483648 to 2147483647"),
        ("a=-2147483649", 2, "outside -2147483648 to 2147483647"),
        ("a=-", 3, "behind the minus"),
        ("a=--1", 3, "a number, a decimal or a word"),
        ("a=\"on\"", 2, "a number, a decimal or a word"),
        ("a=1.", 3, "a digit has to stand before the point"),
        ("a=-.5", 3, "a digit has to stand before the point"),
        ("a=0.1234567890123456", 2, "has 17 digits; 15 at most"),
        ("a=1.2.3", 5, "a second point"),
        ("a=0,85", 3, "a comma is no decimal point"),
        ("a=1.5e-3", 5, "no exponent"),
        ("a=840cm", 5, "no unit either"),
        ("a=1 # cm", 3, "an optional minus and digits"),
    ];

    #[test]
    fn what_is_wrong() {
        for (line, place, words) in LINES {
            let found = of(line.as_bytes());
            assert_eq!(found.place, place, "{line}");
            assert!(found.words.contains(words), "{line}: {}", found.words);
            let mut lines = sheet::Lines::EMPTY;
            let text = format!("{line}\n");
            let bad = sheet::read(text.as_bytes(), &mut lines).err();
            assert_eq!(bad, Some(BadLine::Malformed(1)), "{line}");
        }
    }

    #[test]
    fn every_line_is_answered() {
        const BYTES: &[u8] = b"a9_ \t\r=+-.,#e(\xff";
        let mut lines = vec![vec![]];
        for _ in 0..4 {
            let longer = |line: &Vec<u8>| {
                BYTES
                    .iter()
                    .map(|&b| [&line[..], &[b]].concat())
                    .collect::<Vec<_>>()
            };
            lines.extend(lines.iter().flat_map(longer).collect::<Vec<_>>());
        }
        for line in lines {
            assert!(of(&line).place <= line.len(), "{line:?}");
        }
    }
}
