//! Request 4 of document 02: all small texts and random ones against a second reading, which takes texts
//! apart with what Rust has for it; and what holds of every sheet, question and lent buffer.

use model::generate::sheets::case;
use model::generate::Scale;
use model::random::Random;
use model::sheet::case::{Asked, Case, Outcome};
use model::sheet::{expand_and_read_in, question, read, Line, Reading};
use std::collections::HashSet;

/// The second reading: number and detail, and of a good sheet each name with its reading.
fn second(text: &[u8]) -> Result<Vec<(String, Value)>, (u32, u32)> {
    let text: String = text.iter().map(|&byte| char::from(byte)).collect();
    let text = text.strip_suffix('\n').map_or(&text[..], |front| front);
    let mut sheet = Vec::new();
    let mut names = HashSet::new();
    // splitting gives an empty text one line; a last newline was cut off
    let lines = text.split('\n').enumerate();
    for (i, line) in lines {
        let number = i as u32 + 1;
        if number == 257 {
            return Err((22, number));
        }
        let parts = line.split_once('=');
        let entry = parts.and_then(|(name, reading)| Some((name, value(reading)?)));
        let (name, value) = entry.filter(|(name, _)| word(name)).ok_or((20, number))?;
        if !names.insert(name) {
            return Err((21, number));
        }
        sheet.push((name.to_string(), value));
    }
    Ok(sheet)
}

#[derive(Debug, PartialEq)]
enum Value {
    Number(i32),
    Decimal(u64),
    Word(String),
}

fn word(text: &str) -> bool {
    let begins = |c: char| c.is_ascii_alphabetic() || c == '_';
    text.starts_with(begins) && text.chars().all(|c| begins(c) || c.is_ascii_digit())
}

fn value(text: &str) -> Option<Value> {
    let size = text.strip_prefix('-').unwrap_or(text);
    let digits = size.chars().filter(char::is_ascii_digit).count();
    if word(text) {
        Some(Value::Word(text.to_string()))
    } else if !size.is_empty() && digits == size.len() {
        text.parse().ok().map(Value::Number)
    } else {
        let (before, behind) = size.split_once('.')?;
        let both = !before.is_empty() && !behind.is_empty();
        let shaped = both && digits + 1 == size.len() && digits <= 15;
        let parsed: f64 = text.parse().ok().filter(|_| shaped)?;
        Some(Value::Decimal(parsed.to_bits()))
    }
}

fn part(text: &[u8], place: u64, length: u64) -> String {
    let bytes = &text[place as usize..][..length as usize];
    bytes.iter().map(|&byte| char::from(byte)).collect()
}

/// A line of the model as the second reading has it.
fn entry(text: &[u8], line: &Line) -> (String, Value) {
    let value = match line.reading {
        Reading::Number(number) => Value::Number(number),
        Reading::Decimal(bits) => Value::Decimal(bits),
        Reading::Word { place, length } => Value::Word(part(text, place, length)),
    };
    (part(text, line.place, line.length), value)
}

/// Both readings agree. An empty text has no line.
fn agrees(text: &[u8]) {
    let lines = |lines: Vec<Line>| lines.iter().map(|line| entry(text, line)).collect();
    let got: Result<Vec<_>, _> = read(text)
        .map(lines)
        .map_err(|refused| (refused.number(), refused.detail()));
    let expected = if text.is_empty() {
        Ok(Vec::new())
    } else {
        second(text)
    };
    assert_eq!(got, expected, "{}", String::from_utf8_lossy(text));
}

/// Every text of up to `length` of these bytes behind a front.
fn all_texts(front: &[u8], alphabet: &[u8], length: usize) {
    agrees(front);
    if length > 0 {
        for &byte in alphabet {
            all_texts(&[front, &[byte]].concat(), alphabet, length - 1);
        }
    }
}

#[test]
fn all_small_texts() {
    all_texts(b"", b"a=1\n", 8);
    all_texts(b"", b"a_=0.-\n", 6);
    all_texts(b"a=1\n", b"ab=1\n", 6);
}

#[test]
fn all_small_readings() {
    all_texts(b"a=", b"01.-", 7);
    all_texts(b"a=", b"5.-+ea_ \r\x00\xe9", 4);
    all_texts(b"a=21474836", b"4789.", 4);
    all_texts(b"a=-0000000000", b"05.", 7);
}

#[test]
fn every_byte_in_every_place() {
    for text in [&b"a=1\nb=-1.5\nab=mast\n"[..], b"a=b", b"\n"] {
        for place in 0..=text.len() {
            for byte in 0..=u8::MAX {
                let (front, rest) = text.split_at(place);
                agrees(&[front, &[byte], rest].concat());
                agrees(&[front, &[byte], rest.get(1..).unwrap_or(b"")].concat());
            }
        }
    }
}

fn random_cases(seed: u64, count: usize) -> impl Iterator<Item = Case> {
    let mut random = Random::new(seed);
    (0..count).map(move |_| case(&mut random, Scale::Full))
}

#[test]
fn random_texts() {
    let mut good = 0;
    for case in random_cases(2, 20_000) {
        if let (Asked::Read(text), Outcome::Read(judged)) = (case.asked, case.expected) {
            agrees(&text);
            good += usize::from(judged.is_ok());
        }
    }
    assert!(good > 1_000, "{good}");
}

/// Of the sheet of a text, a name gets the reading of its line, and no other name gets one.
#[test]
fn questions_of_sheets() {
    for case in random_cases(3, 5_000) {
        let (Asked::Read(text), Outcome::Read(Ok(lines))) = (case.asked, case.expected) else {
            continue;
        };
        for line in &lines {
            let name = &text[line.place as usize..][..line.length as usize];
            assert_eq!(question(&lines, &text, name), Some(line.reading));
            let longer = [name, b"="].concat();
            assert_eq!(question(&lines, &text, &longer), None);
            assert_eq!(question(&lines, &text, b""), None);
        }
    }
}

/// In lent buffers the answer is the same, whatever they held; what is written stands at the front of
/// the buffers 6 and 7, with the old bytes behind, on 20 to 22 too.
#[test]
fn lent_buffers() {
    let mut read = 0;
    for case in random_cases(4, 3_000) {
        let (Asked::Sheet(template), Outcome::Sheet(expected)) = (case.asked, case.expected) else {
            continue;
        };
        let report = expected.report;
        let lengths = template.setting.lengths;
        let mut buffers: [Vec<u8>; 7] = std::array::from_fn(|i| vec![0xa5; lengths[i]]);
        buffers[6] = template.output(report.output.len());
        let before = buffers.clone();
        let budget = template.setting.budget;
        let (numbers, sheet) =
            expand_and_read_in(&template.text, &template.set, &mut buffers, budget);
        let counts = [&report.output, &report.errors].map(|bytes| bytes.len() as u32);
        let [number, detail, steps, place] =
            [report.number, report.detail, report.steps, report.place];
        assert_eq!(
            numbers,
            [number, detail, steps, place, counts[0], counts[1]]
        );
        assert_eq!(sheet, expected.sheet);
        for (i, written) in [(5, report.errors), (6, report.output)] {
            let old = &before[i][written.len()..];
            assert!(buffers[i] == [&written[..], old].concat());
        }
        for i in 0..5 {
            let zero = buffers[i].iter().all(|&byte| byte == 0);
            assert!(zero || number == 2 && buffers[i] == before[i]);
        }
        read += usize::from(number == 0 || number >= 20);
    }
    assert!(read > 300, "{read}");
}
