//! Every byte in every place where a reader asks for its class: the archive against the model.

use crate::arenas::Arenas;
use crate::case::{line, Case};
use model::{Setting, NO_ITEMS};

/// Stands for the byte in a text.
const PLACEHOLDER: u8 = b'@';
const TEXTS: [&str; 23] = [
    // names: what begins one, what goes on with it, also behind pending text, and their shape in define, pushdef and copydef
    "define(`a',`x')a@a",
    "define(`aa',`x')define(`a',`y')@aa",
    "define(`a',`x')define(`x@',`y')a()@",
    "define(`@a',`x')@a",
    "define(`a@b',`x')a@b",
    "pushdef(`@a',`x')@a",
    "pushdef(`a@',`x')a@",
    "copydef(`divnum',`@a')@a",
    "copydef(`divnum',`a@')a@",
    // `$` and digits
    "define(`f',`[$@]')f(`1',`2',`3',`4',`5',`6',`7',`8',`9')",
    // numbers
    "incr(`1@')",
    "decr(`@1')",
    "substr(`abcdefghijklmnopqrstuvwxyz',`@')",
    // blanks dropped in front of an argument, and kept within it
    "len(@ab)",
    "len(a@b)",
    // marks
    "changequote(`@',`>')@a>",
    "changequote(`<',`@')<a@",
    "changecom(`<@',`>')<@a>b",
    // eval: blanks, where a literal begins, its digits and its end
    "eval(`@7')",
    "eval(`7@')",
    "eval(`1@2')",
    "eval(`0x@')",
    "eval(`0@')",
];
/// A byte of each class.
const EACH: [u8; 5] = *b"a0_ !";

/// Gives the cases that passed and failed. A text on which no class differs from another fails too.
pub fn every_byte() -> (usize, usize) {
    let mut arenas = Arenas::new();
    let (mut passed, mut failed) = (0, 0);
    for text in TEXTS {
        for byte in 0..=u8::MAX {
            match try_byte(&mut arenas, text, byte) {
                Ok(()) => passed += 1,
                Err(what) => {
                    println!("byte {byte} in {text}: {what}");
                    failed += 1;
                }
            }
        }
        if !tells_classes(text) {
            println!("{text}: comes out alike with a byte of each class");
            failed += 1;
        }
    }
    (passed, failed)
}

fn try_byte(arenas: &mut Arenas, text: &str, byte: u8) -> Result<(), String> {
    let case = case(text, byte);
    let expected = case.expected();
    let verdict = arenas.try_case(&case, &expected);
    verdict.map_err(|what| format!("{what}\n{}", line(&format!("byte-{byte}"), &case, expected)))
}

/// Whether a byte of each class does not always come out alike, the byte itself aside.
fn tells_classes(text: &str) -> bool {
    let answers = EACH.map(|byte| {
        let case = case(text, byte);
        let report = case.expected();
        (
            report.number,
            report.steps,
            replaced(&report.output, byte, PLACEHOLDER),
        )
    });
    answers.iter().any(|answer| answer != &answers[0])
}

fn replaced(text: &[u8], old: u8, new: u8) -> Vec<u8> {
    text.iter()
        .map(|&b| if b == old { new } else { b })
        .collect()
}

fn case(text: &str, byte: u8) -> Case {
    Case {
        text: replaced(text.as_bytes(), PLACEHOLDER, byte),
        set: NO_ITEMS.to_vec(),
        setting: Setting::ample(),
        salt: u64::from(byte),
    }
}
