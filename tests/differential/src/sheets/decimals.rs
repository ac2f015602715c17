//! Decimals of all lengths and with the point in every place, in sheets of as many lines as may be: the
//! archive against the model's arithmetic in whole numbers, and against Rust's own reading.

use super::arenas::Arenas;
use crate::supervise::try_each;
use model::random::Random;
use model::sheet::case::{Asked, Case, Outcome};
use model::sheet::{Reading, MOST_LINES};

const MOST_DIGITS: usize = 15;
/// Any digits, and such that are near to a power of ten, to a zero or to a tie.
const DIGITS: [&[u8]; 6] = [
    b"0123456789",
    b"0123456789",
    b"0123456789",
    b"09",
    b"0005",
    b"9998",
];

/// Runs `count` random sheets of 256 decimals from number `first` on.
pub fn random_decimals(seed: u64, count: u64, first: u64) -> bool {
    let mut arenas = Arenas::new();
    println!("{} decimals", count * MOST_LINES as u64);
    try_each(
        first..first + count,
        |index| try_sheet(&mut arenas, seed, index),
        |index, what| {
            println!("sheet {index} of seed {seed}: {what}");
            println!("  repeat it: differential sheets-decimals {seed} 1 {index}");
        },
    )
}

fn try_sheet(arenas: &mut Arenas, seed: u64, index: u64) -> Result<(), String> {
    let mut random = Random::numbered(seed, index);
    let shapes = shapes().cycle().skip(random.below(shapes().count()));
    let decimals: Vec<String> = shapes
        .take(MOST_LINES)
        .map(|(before, behind)| decimal(&mut random, before, behind))
        .collect();
    let lines = (0..).zip(&decimals);
    let text: String = lines
        .map(|(number, decimal)| format!("n{number}={decimal}\n"))
        .collect();
    let case = Case::new(Asked::Read(text.into_bytes()));
    read_as_rust_does(&case, &decimals)?;
    arenas.try_case(&case, random.bits())
}

/// How many digits a decimal may have before and behind its point.
fn shapes() -> impl Iterator<Item = (usize, usize)> + Clone {
    (1..MOST_DIGITS)
        .flat_map(|before| (1..=MOST_DIGITS - before).map(move |behind| (before, behind)))
}

fn decimal(random: &mut Random, before: usize, behind: usize) -> String {
    let digits = random.pick(&DIGITS);
    let mut number =
        || String::from_utf8(random.bytes(digits, before.max(behind))).expect("digits");
    let (whole, part) = (number(), number());
    let minus = if random.chance(50) { "-" } else { "" };
    format!("{minus}{}.{}", &whole[..before], &part[..behind])
}

/// The model has each decimal as the double that Rust reads.
fn read_as_rust_does(case: &Case, decimals: &[String]) -> Result<(), String> {
    let Outcome::Read(Ok(lines)) = &case.expected else {
        return Err("the model has no sheet".to_string());
    };
    let mut pairs = lines.iter().zip(decimals);
    pairs.try_for_each(|(line, decimal)| {
        let value: f64 = decimal
            .parse()
            .map_err(|_| format!("not read: {decimal}"))?;
        if line.reading == Reading::Decimal(value.to_bits()) {
            return Ok(());
        }
        Err(format!(
            "{decimal} is {:?} by the model, {value} by Rust",
            line.reading
        ))
    })
}
