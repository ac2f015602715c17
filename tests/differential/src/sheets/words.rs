//! A sheet as the archive has it: 1,281 words, the count of its lines and five words for each of 256.

use model::random::Random;
use model::sheet::{Line, Reading, MOST_LINES};

/// The words of a line, and of a sheet.
pub const LINE_WORDS: usize = 5;
pub const WORDS: usize = 1 + MOST_LINES * LINE_WORDS;

/// The words of a line behind the count of a sheet that was read.
const UNUSED: [u64; LINE_WORDS] = [0, 0, 1, 0, 0];
/// Counts of a sheet all of whose lines are asked.
const FULL: [u64; 5] = [256, 257, 1 << 32, (1 << 32) + 1, u64::MAX];

/// Place and length of the name; kind, value and length of the reading.
fn line_words(line: &Line) -> [u64; LINE_WORDS] {
    let (kind, value, length) = match line.reading {
        Reading::Number(number) => (1, u64::from(number as u32), 0),
        Reading::Decimal(bits) => (2, bits, 0),
        Reading::Word { place, length } => (3, place, length),
    };
    [line.place, line.length, kind, value, length]
}

/// All words of a sheet that was read. Without a sheet there is no line.
pub fn sheet_words(sheet: Option<&[Line]>) -> Vec<u64> {
    let lines = sheet.unwrap_or_default();
    let unused = MOST_LINES - lines.len();
    let used = lines.iter().map(line_words);
    words(
        lines.len() as u64,
        used.chain(std::iter::repeat_n(UNUSED, unused)),
    )
}

fn words(count: u64, lines: impl Iterator<Item = [u64; LINE_WORDS]>) -> Vec<u64> {
    let words: Vec<u64> = std::iter::once(count).chain(lines.flatten()).collect();
    assert_eq!(words.len(), WORDS);
    words
}

/// The words of lines that are asked for a name. Lines behind the count are noise, or have just that
/// name.
pub fn asked_words(lines: &[Line], text: &[u8], name: &[u8], salt: u64) -> Vec<u64> {
    let mut random = Random::numbered(salt, WORDS as u64);
    let count = match lines.len() {
        MOST_LINES => random.pick(&FULL),
        fewer => fewer as u64,
    };
    let unused = MOST_LINES - lines.len();
    let behind: Vec<[u64; LINE_WORDS]> = match (random.below(3), place_of(name, text)) {
        (0, _) => vec![UNUSED; unused],
        (1, Some(place)) => vec![[place, name.len() as u64, 1, 7, 0]; unused],
        _ => {
            let mut noise = || std::array::from_fn(|_| random.bits() >> random.below(64));
            (0..unused).map(|_| noise()).collect()
        }
    };
    words(count, lines.iter().map(line_words).chain(behind))
}

/// Where a text has these bytes first.
fn place_of(bytes: &[u8], text: &[u8]) -> Option<u64> {
    let places = 0..(text.len() + 1).saturating_sub(bytes.len());
    places
        .into_iter()
        .find(|&place| text[place..].starts_with(bytes))
        .map(|place| place as u64)
}
