//! Line and column of places in the templates, and the line to show with a caret under the place.

use crate::templates::{Part, Templates};
use crate::width;
use quenhovach::{lines::Refused, LineIndex, Position};

/// Columns shown before the place at most, and behind it.
const BEFORE: usize = 50;
const BEHIND: usize = 20;
/// What stands for the rest of a line.
const DOTS: &str = "...";

/// Finds places of the templates' text, by one index of the lines of all of them.
pub struct Places<'t> {
    pub templates: &'t Templates,
    index: LineIndex,
}

impl<'t> Places<'t> {
    /// None where the text is too long to be expanded.
    pub fn new(templates: &'t Templates) -> Option<Places<'t>> {
        let index = LineIndex::new(&templates.text).ok()?;
        Some(Places { templates, index })
    }

    /// The template in which a place is told, and line and column there.
    pub fn find(&self, place: usize) -> (&'t Part, Position) {
        let part = &self.templates.parts[self.templates.number_at(place)];
        let position = self.within(part, place);
        (part, position.expect("the place is in the text"))
    }

    /// File, line and column of a place.
    pub fn told(&self, place: usize) -> String {
        let (part, position) = self.find(place);
        format!("{}:{position}", part.name)
    }

    /// The line up to a place, and from the place on, fit to be shown.
    pub fn line(&self, place: usize) -> (String, String) {
        let (part, Position { column, .. }) = self.find(place);
        let text = &self.templates.text[..part.range.end];
        let ahead = text[place..].iter().take_while(|&&b| b != b'\n').count();
        parted(&text[place + 1 - column..place + ahead], column - 1)
    }

    /// Line and column in a template. Its first line may go on from the template before.
    fn within(&self, part: &Part, place: usize) -> Result<Position, Refused> {
        let begin = part.range.start;
        let Position { line, column } = self.index.position(place)?;
        Ok(Position {
            line: 1 + line - self.index.line(begin)?,
            column: column.min(1 + place - begin),
        })
    }
}

/// A line with its number, up to a place and from there on, and a caret under the place.
pub fn with_caret(number: &str, before: &str, behind: &str) -> String {
    let margin = " ".repeat(number.len());
    let indent = " ".repeat(width::of_text(before));
    format!(" {number} | {before}{behind}\n {margin} | {indent}^")
}

/// A line parted at a place, fit to be shown.
pub fn parted(line: &[u8], place: usize) -> (String, String) {
    let (before, behind) = line.split_at(place);
    (last(&shown(before)), first(&shown(behind)))
}

/// The line's characters, as far as a terminal shows them alike everywhere: a tab is a blank, other characters that control or format
/// are a question mark, and what chooses between two forms of a character is left out.
pub fn shown(bytes: &[u8]) -> Vec<char> {
    let character = |c: char| match c {
        '\t' => ' ',
        c if c.is_control() || width::is_format(c) => '?',
        c => c,
    };
    String::from_utf8_lossy(bytes)
        .chars()
        .filter(|&c| !width::is_selector(c))
        .map(character)
        .collect()
}

/// The end of a line.
fn last(line: &[char]) -> String {
    let fitting = |columns| fitting(line.iter().rev(), columns);
    match fitting(BEFORE) {
        all if all == line.len() => line.iter().collect(),
        _ => {
            let end = &line[line.len() - fitting(BEFORE - DOTS.len())..];
            // A mark whose character was cut off would stand on the dots.
            let marks = end.iter().take_while(|&&c| width::of(c) == 0).count();
            DOTS.chars().chain(end[marks..].iter().copied()).collect()
        }
    }
}

/// The beginning of a line.
fn first(line: &[char]) -> String {
    let fitting = |columns| fitting(line.iter(), columns);
    match fitting(BEHIND) {
        all if all == line.len() => line.iter().collect(),
        _ => {
            let begin = &line[..fitting(BEHIND - DOTS.len())];
            begin.iter().copied().chain(DOTS.chars()).collect()
        }
    }
}

/// How many of these characters fit into so many columns.
fn fitting<'a>(characters: impl Iterator<Item = &'a char>, columns: usize) -> usize {
    let mut taken = 0;
    let fits = |c: &&char| {
        taken += width::of(**c);
        taken <= columns
    };
    characters.take_while(fits).count()
}

#[cfg(test)]
mod tests {
    use super::*;
    use crate::templates::joined;
    use quenhovach::LONGEST;

    fn at(text: &[u8], place: usize) -> (u64, usize, String, String) {
        let templates = joined(&[text]);
        let places = Places::new(&templates).expect("it is not too long");
        let Position { line, column } = places.find(place).1;
        let (before, behind) = places.line(place);
        (line, column, before, behind)
    }

    fn expected(
        line: u64,
        column: usize,
        before: &str,
        behind: &str,
    ) -> (u64, usize, String, String) {
        (line, column, before.to_string(), behind.to_string())
    }

    #[test]
    fn lines_and_columns() {
        let text = b"ab\n\ncd";
        assert_eq!(at(text, 0), expected(1, 1, "", "ab"));
        assert_eq!(at(text, 2), expected(1, 3, "ab", ""));
        assert_eq!(at(text, 3), expected(2, 1, "", ""));
        assert_eq!(at(text, 4), expected(3, 1, "", "cd"));
        assert_eq!(at(text, 6), expected(3, 3, "cd", ""));
        assert_eq!(at(b"", 0), expected(1, 1, "", ""));
        assert_eq!(at(b"a\n", 2), expected(2, 1, "", ""));
    }

    #[test]
    fn lines_count_within_each_template() {
        let templates = joined(&["a\nb", "c\n", "", "d"]);
        let places = Places::new(&templates).expect("it is not too long");
        let told: Vec<String> = (0..=6).map(|place| places.told(place)).collect();
        let expected = [
            "0:1:1", "0:1:2", "0:2:1", "1:1:1", "1:1:2", "3:1:1", "3:1:2",
        ];
        assert_eq!(told, expected);
        assert_eq!(places.line(2), ("".to_string(), "b".to_string()));
        assert_eq!(places.line(4), ("c".to_string(), "".to_string()));
    }

    #[test]
    fn a_text_that_is_too_long_has_no_places() {
        assert!(Places::new(&joined(&[[b'x'; LONGEST]])).is_some());
        assert!(Places::new(&joined(&[[b'x'; LONGEST + 1]])).is_none());
    }

    #[test]
    fn what_is_shown_is_shown_alike_everywhere() {
        assert_eq!(at("\té\x1b[x".as_bytes(), 3), expected(1, 4, " é", "?[x"));
        assert_eq!(at(b"\xff\xfea", 2), expected(1, 3, "\u{fffd}\u{fffd}", "a"));
        let (_, _, before, behind) = at("\u{202e}\u{2601}\u{fe0f}a\u{200d}".as_bytes(), 9);
        assert_eq!((&*before, &*behind), ("?\u{2601}", "a?"));
    }

    #[test]
    fn lines_of_wide_characters_are_cut_by_columns() {
        let (_, column, before, behind) = at("\u{9ad8}".repeat(60).as_bytes(), 90);
        assert_eq!(column, 91);
        assert_eq!(before, format!("...{}", "\u{9ad8}".repeat(23)));
        assert_eq!(behind, format!("{}...", "\u{9ad8}".repeat(8)));
        let (_, _, before, behind) = at("\u{9ad8}".repeat(35).as_bytes(), 75);
        assert_eq!((before.chars().count(), behind.chars().count()), (25, 10));
    }

    #[test]
    fn a_mark_goes_with_its_character() {
        let marked = |count| "e\u{301}".repeat(count);
        let (_, _, before, behind) = at(marked(90).as_bytes(), 180);
        assert_eq!(before, format!("...{}", marked(47)));
        assert_eq!(behind, format!("{}...", marked(17)));
    }

    #[test]
    fn long_lines_are_cut() {
        let (_, column, before, behind) = at(&[b'x'; 300], 200);
        assert_eq!(column, 201);
        assert_eq!(before, format!("...{}", "x".repeat(47)));
        assert_eq!(behind, format!("{}...", "x".repeat(17)));
        let (_, _, before, behind) = at(&[b'x'; 70], 50);
        assert_eq!((before.len(), behind.len()), (50, 20));
        assert!(!before.contains('.') && !behind.contains('.'));
    }
}
