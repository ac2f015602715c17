//! Macros that work on numbers and strings.

use super::join;
use crate::generate::expressions::expression;
use crate::generate::words::BAD_NUMBERS;
use crate::random::Random;

/// A few evals.
pub fn arithmetic(random: &mut Random) -> Vec<u8> {
    let wild = random.pick(&[0, 0, 0, 3]);
    let mut text = Vec::new();
    for _ in 0..random.between(1, 6) {
        let mut expression = expression(random, wild);
        if random.chance(15) {
            expression = join(&[b"`", &expression, b"'"]);
        }
        let end = match random.below(8) {
            0 => format!(",{})", random.between(2, 36)),
            1 => format!(",{},{})", random.between(1, 37), random.below(40)),
            2 => format!(",10,{})", random.pick(&["", "-1", "1000", "33", "0"])),
            _ => ")".to_string(),
        };
        text.extend(join(&[b"eval(", &expression, end.as_bytes(), b";"]));
    }
    text
}

/// index in texts that repeat themselves.
pub fn found(random: &mut Random) -> Vec<u8> {
    let period = random.between(1, 5);
    let unit = random.bytes(b"aab", period);
    let whole_length = random.pick(&[3, 10, 70, 200, 600]);
    let mut whole = unit.repeat(whole_length / period + 1);
    for _ in 0..random.below(4) {
        let at = random.below(whole.len());
        whole[at] = random.pick(b"ab");
    }
    let from = random.below(whole.len());
    let length = random.pick(&[0, 1, 3, 9, 60, 63, 64, 65, 66, 130, 400]);
    let mut part = whole[from..(from + length).min(whole.len())].to_vec();
    if random.chance(30) && !part.is_empty() {
        *part.last_mut().expect("not empty") = random.pick(b"abc");
    }
    join(&[b"index(`", &whole, b"',`", &part, b"')"])
}

/// translit with any bytes but the quote marks.
pub fn partners(random: &mut Random) -> Vec<u8> {
    let any: Vec<u8> = (0..=255).filter(|byte| !b"`'".contains(byte)).collect();
    let some = random.bytes(&any, 4);
    let alphabet: &[u8] = if random.chance(60) { &some } else { &any };
    let mut strings = [Vec::new(), Vec::new(), Vec::new()];
    for string in &mut strings {
        let length = random.pick(&[0, 1, 2, 4, 8, 30]);
        *string = random.bytes(alphabet, length);
    }
    if random.chance(10) {
        strings[1] = random
            .pick(&[&b"a-z"[..], b"0-9a-f", b"-a", b"z-a"])
            .to_vec();
        strings[2] = random.pick(&[&b"A-Z"[..], b"ABC", b""]).to_vec();
    }
    // the result in quotes, so that it is not called
    join(&[
        b"define(`t',translit(`",
        &strings[0],
        b"',`",
        &strings[1],
        b"',`",
        &strings[2],
        b"'))len(defn(`t'))defn(`t')",
    ])
}

/// The macros that work on strings, with few different bytes.
pub fn strings(random: &mut Random) -> Vec<u8> {
    let mut text = String::new();
    for _ in 0..random.between(1, 4) {
        let (first, second, third) = (letters(random), letters(random), letters(random));
        text.push_str(&match random.below(6) {
            0..=2 => format!("translit(`{first}',`{second}',`{third}')"),
            3 => format!("index(`{first}',`{}')", &second[..second.len().min(2)]),
            4 => format!("substr(`{first}',{},{})", random.below(7), random.below(5)),
            _ => format!("ifelse({first},{second},1,{second},{third},2,{third},{first},3,4)"),
        });
        text.push_str(random.pick(&["", ";", " "]));
    }
    text.into_bytes()
}

fn letters(random: &mut Random) -> String {
    (0..random.below(6))
        .map(|_| random.pick(&['a', 'b', 'c', '-']))
        .collect()
}

/// Numbers of any length where a macro wants one.
pub fn numbers(random: &mut Random) -> Vec<u8> {
    let edge = random.pick(&[
        "2147483647",
        "-2147483648",
        "2147483646",
        "-2147483647",
        "0",
        "-0",
        "255",
        "256",
        "9",
        "10",
        "36",
        "37",
    ]);
    let zeros = "0".repeat(random.pick(&[0, 1, 30, 300]));
    let number = match random.below(4) {
        0 => random.pick(&BAD_NUMBERS).to_string(),
        1 => edge.to_string(),
        _ => match edge.strip_prefix('-') {
            Some(digits) => format!("-{zeros}{digits}"),
            None => format!("{zeros}{edge}"),
        },
    };
    let text = random.pick(&[
        "incr(N)",
        "decr(N)",
        "divert(N)divnum errprint(divnum)",
        "undivert(1,N)",
        "m4exit(N)",
        "substr(`abc',N)",
        "substr(`abc',1,N)",
        "eval(5,N)",
        "eval(5,10,substr(`N',0,3))",
        "eval(N)",
    ]);
    text.replace('N', &number).into_bytes()
}
