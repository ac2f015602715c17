//! Random expressions for eval.

use crate::random::Random;

/// All binary operators, those of equal precedence side by side.
const BINARY: [&str; 18] = [
    "*", "/", "%", "+", "-", "<<", ">>", "<", "<=", ">", ">=", "==", "!=", "&", "^", "|", "&&",
    "||",
];
const UNARY: [&str; 4] = ["-", "+", "!", "~"];
const LITERALS: [&str; 24] = [
    "2147483647",
    "2147483648",
    "4294967295",
    "4294967294",
    "0xffffffff",
    "0x80000000",
    "0X7fFFffFF",
    "037777777777",
    "020000000000",
    "00",
    "000",
    "010",
    "0x0",
    "0xe",
    "0XaB",
    "017",
    "65535",
    "65536",
    "0x00000000000000000000001",
    "0000000000000000000000017",
    "32",
    "31",
    "0x1F",
    "255",
];
const BAD_LITERALS: [&str; 20] = [
    "08",
    "09",
    "0x",
    "0X",
    "0xg",
    "1a",
    "1L",
    "1u",
    "1_0",
    "1.0",
    "1e1",
    "0b1",
    "4294967296",
    "0x100000000",
    "040000000000",
    "99999999999999999999999",
    "x",
    "",
    "'a'",
    "_1",
];
const BAD_OPERATORS: [&str; 22] = [
    "**", "=", "++", "--", "?", ":", "//", "/*", "&&&", "|||", "<=>", "!", "->", ".", ",", "<<<",
    ">>=", "<:", "#", "$", "\r", "\u{b}",
];

/// An expression; `wild` of a hundred choices are bad on purpose.
pub fn expression(random: &mut Random, wild: usize) -> Vec<u8> {
    let text = match random.below(24) {
        0 => enclosed(random, wild),
        1..=4 => chain(random),
        5..=6 => tokens(random),
        7..=9 => format!(
            "{}{}{}",
            random.below(2),
            random.pick(&["&&", "||"]),
            tree(random, wild, 2)
        ),
        _ => {
            let depth = random.between(0, 4);
            tree(random, wild, depth)
        }
    };
    text.into_bytes()
}

/// Operands and operators; parentheses stand where they like, so that precedence decides.
fn tree(random: &mut Random, wild: usize, depth: usize) -> String {
    if depth == 0 {
        return literal(random, wild);
    }
    let gap = blank(random);
    match random.below(10) {
        0..=1 => format!("({gap}{})", tree(random, wild, depth - 1)),
        2..=3 => unary(random, wild, depth),
        _ => binary(random, wild, depth),
    }
}

fn unary(random: &mut Random, wild: usize, depth: usize) -> String {
    let operand = tree(random, wild, depth - 1);
    let operator = random.pick(&UNARY);
    // two minus signs side by side would be one token
    let gap = if operand.starts_with(operator) && !random.chance(wild) {
        " "
    } else {
        blank(random)
    };
    format!("{operator}{gap}{operand}")
}

fn binary(random: &mut Random, wild: usize, depth: usize) -> String {
    let operator = if random.chance(wild) {
        random.pick(&BAD_OPERATORS)
    } else {
        random.pick(&BINARY)
    };
    let left = tree(random, wild, depth - 1);
    let right = match operator {
        "/" | "%" if random.chance(80) => random
            .pick(&["1", "2", "3", "-1", "7", "-7", "0x10", "0"])
            .to_string(),
        "<<" | ">>" if random.chance(90) => match random.below(6) {
            0 => random.pick(&["32", "32", "33", "-1"]).to_string(),
            _ => random
                .pick(&["0", "1", "4", "31", "30", "037", "0x1f"])
                .to_string(),
        },
        _ => tree(random, wild, depth - 1),
    };
    let gap = if right.starts_with(&operator[operator.len() - 1..]) && !random.chance(wild) {
        " "
    } else {
        blank(random)
    };
    format!("{left}{}{operator}{gap}{right}", blank(random))
}

fn literal(random: &mut Random, wild: usize) -> String {
    match random.below(10) {
        _ if random.chance(wild) => random.pick(&BAD_LITERALS).to_string(),
        0..=2 => random.pick(&LITERALS).to_string(),
        3 => format!("{}", random.bits() as u32),
        4 => format!("0x{:x}", random.bits() as u32),
        5 => format!("0{:o}", random.bits() as u32),
        _ => random.below(10).to_string(),
    }
}

/// A literal in about as many parentheses and unary operators as may be.
fn enclosed(random: &mut Random, wild: usize) -> String {
    let deep = if wild == 0 { 32 } else { 34 };
    let (mut front, mut back) = (String::new(), String::new());
    for _ in 0..random.between(28, deep) {
        match random.below(8) {
            0..=4 => {
                front.push('(');
                back.insert_str(0, random.pick(&[")", ")", ")", "+1)", ")", "*2)"]));
            }
            5 => front.push_str("- "),
            6 => front.push('!'),
            _ => front.push('~'),
        }
    }
    format!("{front}{}{back}", random.below(9))
}

/// Operators of equal or nearly equal precedence, few or many.
fn chain(random: &mut Random) -> String {
    let from = random.below(BINARY.len() - 2);
    let count = match random.below(4) {
        0 => random.between(3, 40),
        _ => random.between(2, 4),
    };
    let mut text = random.below(9).to_string();
    for _ in 0..count {
        let operator = random.pick(&BINARY[from..from + 3]);
        let unary = random.pick(&["", "", "", "-", "~", "!"]);
        text.push_str(operator);
        // two minus signs side by side would be one token
        text.push_str(unary.trim_start_matches(operator));
        let least = usize::from(random.chance(50));
        text.push_str(&random.between(least, 9).to_string());
    }
    text
}

/// Tokens without any order.
fn tokens(random: &mut Random) -> String {
    let count = random.between(0, 7);
    let mut text = String::new();
    for _ in 0..count {
        let token = match random.below(8) {
            0..=2 => literal(random, 3),
            3 => random.pick(&UNARY).to_string(),
            4 => random.pick(&["(", ")"]).to_string(),
            5 => random.pick(&BAD_OPERATORS).to_string(),
            _ => random.pick(&BINARY).to_string(),
        };
        text.push_str(&token);
        text.push_str(blank(random));
    }
    text
}

fn blank(random: &mut Random) -> &'static str {
    random.pick(&["", "", "", "", "", " ", "\t", "\n", "  "])
}
