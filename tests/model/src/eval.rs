//! The arithmetic of eval: reading an expression, working it out, writing its value.

use crate::answer::Refusal;
use crate::bytes::{digit_value, is_blank, is_digit, is_word};
use crate::expansion::Expansion;

/// "At most 32 parentheses and unary operators may enclose a literal."
const DEEPEST: usize = 32;

/// The binary operators, loosest first, "by C precedence". Those of one row are worked out from the
/// left.
const ROWS: [&[&str]; 10] = [
    &["||"],
    &["&&"],
    &["|"],
    &["^"],
    &["&"],
    &["==", "!="],
    &["<", "<=", ">", ">="],
    &["<<", ">>"],
    &["+", "-"],
    &["*", "/", "%"],
];

/// The unary operators.
const UNARY: [&str; 4] = ["-", "+", "!", "~"];

/// The punctuators of C, longest first: "Tokens are the longest of C". Those that are neither in
/// `ROWS` nor in `UNARY` nor a parenthesis are read as one token and then refused.
const PUNCTUATORS: [&str; 54] = [
    "%:%:", "...", "<<=", ">>=", "->", "++", "--", "<<", ">>", "<=", ">=", "==", "!=", "&&", "||",
    "*=", "/=", "%=", "+=", "-=", "&=", "^=", "|=", "##", "<:", ":>", "<%", "%>", "%:", "[", "]",
    "(", ")", "{", "}", ".", "&", "*", "+", "-", "~", "!", "/", "%", "<", ">", "^", "|", "?", ":",
    ";", "=", ",", "#",
];

/// A token of an expression.
#[derive(Clone, Copy, Debug, PartialEq, Eq)]
enum Lexeme {
    Literal(i32),
    Punctuator(&'static str),
}

/// An expression that was read. A row of operators of equal precedence is kept flat, so that trees
/// are no deeper than their parentheses and unary operators make them.
#[derive(Clone, Debug, PartialEq, Eq)]
pub enum Tree {
    Literal(i32),
    Unary(&'static str, Box<Tree>),
    Row(Box<Tree>, Vec<(&'static str, Tree)>),
}

/// Reads a whole expression; what can't be read is refused 8.
pub fn read(expression: &[u8]) -> Result<Tree, Refusal> {
    let lexemes = split(expression)?;
    let mut reader = Reader {
        lexemes: &lexemes,
        at: 0,
    };
    let tree = reader.row(0, 0)?;
    if reader.at == lexemes.len() {
        Ok(tree)
    } else {
        Err(Refusal::Expression)
    }
}

/// Splits an expression into tokens. "Spaces, tabs and newlines part tokens."
fn split(expression: &[u8]) -> Result<Vec<Lexeme>, Refusal> {
    let mut lexemes = Vec::new();
    let mut at = 0;
    while at < expression.len() {
        let rest = &expression[at..];
        if is_blank(rest[0]) {
            at += 1;
        } else if is_digit(rest[0]) {
            // "a literal's token is a digit and all letters, digits and underscores after it"
            let length = rest.iter().take_while(|&&byte| is_word(byte)).count();
            lexemes.push(Lexeme::Literal(literal(&rest[..length])?));
            at += length;
        } else {
            let punctuator = longest_punctuator(rest)?;
            lexemes.push(Lexeme::Punctuator(punctuator));
            at += punctuator.len();
        }
    }
    Ok(lexemes)
}

fn longest_punctuator(rest: &[u8]) -> Result<&'static str, Refusal> {
    let found = PUNCTUATORS
        .iter()
        .find(|punctuator| rest.starts_with(punctuator.as_bytes()));
    found.copied().ok_or(Refusal::Expression)
}

/// "Literals are decimal, octal or hexadecimal up to 4294967295, taken modulo 2^32."
fn literal(token: &[u8]) -> Result<i32, Refusal> {
    let (radix, digits) = match token {
        [b'0', b'x' | b'X', digits @ ..] => (16, digits),
        [b'0', ..] => (8, token),
        _ => (10, token),
    };
    if digits.is_empty() {
        return Err(Refusal::Expression);
    }
    let mut value = 0u64;
    for &byte in digits {
        let digit = digit_value(byte, radix).ok_or(Refusal::Expression)?;
        value = (value * u64::from(radix) + u64::from(digit)).min(1 << 32);
    }
    let value = u32::try_from(value).map_err(|_| Refusal::Expression)?;
    Ok(value as i32)
}

/// Reads tokens in order.
struct Reader<'a> {
    lexemes: &'a [Lexeme],
    at: usize,
}

impl Reader<'_> {
    fn next(&mut self) -> Option<Lexeme> {
        let lexeme = self.lexemes.get(self.at).copied();
        self.at += usize::from(lexeme.is_some());
        lexeme
    }

    /// The next token if it is one of these operators.
    fn next_of(&mut self, operators: &[&str]) -> Option<&'static str> {
        match self.lexemes.get(self.at) {
            Some(Lexeme::Punctuator(operator)) if operators.contains(operator) => {
                self.at += 1;
                Some(operator)
            }
            _ => None,
        }
    }

    /// An operand, or operands of the next tighter row with operators of this row between them.
    /// `depth` parentheses and unary operators enclose it.
    fn row(&mut self, row: usize, depth: usize) -> Result<Tree, Refusal> {
        let Some(operators) = ROWS.get(row) else {
            return self.operand(depth);
        };
        let first = self.row(row + 1, depth)?;
        let mut rest = Vec::new();
        while let Some(operator) = self.next_of(operators) {
            rest.push((operator, self.row(row + 1, depth)?));
        }
        if rest.is_empty() {
            Ok(first)
        } else {
            Ok(Tree::Row(Box::new(first), rest))
        }
    }

    /// "An operand is a literal, a unary operator before an operand, or a whole expression in
    /// parentheses." One that more than 32 enclose either holds a literal that more than 32 enclose
    /// or can't be read anyway.
    fn operand(&mut self, depth: usize) -> Result<Tree, Refusal> {
        if depth > DEEPEST {
            return Err(Refusal::Expression);
        }
        match self.next() {
            Some(Lexeme::Literal(value)) => Ok(Tree::Literal(value)),
            Some(Lexeme::Punctuator("(")) => {
                let inside = self.row(0, depth + 1)?;
                self.next_of(&[")"]).ok_or(Refusal::Expression)?;
                Ok(inside)
            }
            Some(Lexeme::Punctuator(operator)) if UNARY.contains(&operator) => {
                let operand = self.operand(depth + 1)?;
                Ok(Tree::Unary(operator, Box::new(operand)))
            }
            _ => Err(Refusal::Expression),
        }
    }
}

/// Works an expression out, "on 32-bit signed numbers"; a zero divisor or bad shift count is
/// refused 9.
pub fn work_out(tree: &Tree) -> Result<i32, Refusal> {
    match tree {
        Tree::Literal(value) => Ok(*value),
        Tree::Unary(operator, operand) => Ok(unary(operator, work_out(operand)?)),
        Tree::Row(first, rest) => {
            let mut value = work_out(first)?;
            for (operator, operand) in rest {
                value = join(value, operator, operand)?;
            }
            Ok(value)
        }
    }
}

/// "Truth is 1 or 0."
fn truth(holds: bool) -> i32 {
    i32::from(holds)
}

fn unary(operator: &str, value: i32) -> i32 {
    match operator {
        "-" => value.wrapping_neg(),
        "+" => value,
        "!" => truth(value == 0),
        "~" => !value,
        _ => unreachable!("not unary: {operator}"),
    }
}

/// "The side that `&&` or `||` skips is read, not worked out."
fn join(left: i32, operator: &str, right: &Tree) -> Result<i32, Refusal> {
    match operator {
        "&&" => Ok(truth(left != 0 && work_out(right)? != 0)),
        "||" => Ok(truth(left != 0 || work_out(right)? != 0)),
        _ => binary(left, operator, work_out(right)?),
    }
}

fn binary(left: i32, operator: &str, right: i32) -> Result<i32, Refusal> {
    let value = match operator {
        "|" => left | right,
        "^" => left ^ right,
        "&" => left & right,
        "==" => truth(left == right),
        "!=" => truth(left != right),
        "<" => truth(left < right),
        "<=" => truth(left <= right),
        ">" => truth(left > right),
        ">=" => truth(left >= right),
        "+" => left.wrapping_add(right),
        "-" => left.wrapping_sub(right),
        "*" => left.wrapping_mul(right),
        // "Division truncates toward zero; -2147483648 / -1 is itself, the remainder 0."
        "/" => left.wrapping_div(divisor(right)?),
        "%" => left.wrapping_rem(divisor(right)?),
        "<<" => ((left as u32) << shift_count(right)?) as i32,
        // "`>>` keeps the sign."
        ">>" => left >> shift_count(right)?,
        _ => unreachable!("not binary: {operator}"),
    };
    Ok(value)
}

fn divisor(value: i32) -> Result<i32, Refusal> {
    if value == 0 {
        Err(Refusal::Divisor)
    } else {
        Ok(value)
    }
}

/// 9: "zero divisor, or shift count outside 0 to 31".
fn shift_count(value: i32) -> Result<u32, Refusal> {
    match value {
        0..=31 => Ok(value as u32),
        _ => Err(Refusal::Divisor),
    }
}

/// Writes a value. "Digits above 9 are lower case; zeros go after the sign."
pub fn write(value: i32, radix: u32, least_digits: usize) -> Expansion {
    let digits = digits_of(value.unsigned_abs(), radix);
    let mut result = Expansion::null();
    if value < 0 {
        result.add(b"-");
    }
    result.add_zeros(least_digits.saturating_sub(digits.len()));
    result.add(&digits);
    result
}

/// The digits of a size, at least one.
fn digits_of(size: u32, radix: u32) -> Vec<u8> {
    let mut digits = Vec::new();
    let mut rest = size;
    loop {
        digits.push(b"0123456789abcdefghijklmnopqrstuvwxyz"[(rest % radix) as usize]);
        rest /= radix;
        if rest == 0 {
            break;
        }
    }
    digits.reverse();
    digits
}

#[cfg(test)]
mod tests;
