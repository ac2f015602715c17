//! The templates, read and joined to one text, and where each stands in it.

use crate::identity::{Endpoint, Way};
use quenhovach::LONGEST;
use std::fs::File;
use std::io::Read;
use std::ops::Range;

/// The templates of a run, one at least.
pub struct Templates {
    /// All of them joined, with nothing between them; of a longer text just as much as shows that it is too long.
    pub text: Vec<u8>,
    /// Those that were read. Where the text is too long, the last is the one that made it so.
    pub parts: Vec<Part>,
}

/// One template.
pub struct Part {
    /// What messages call it.
    pub name: String,
    /// Where it stands in the text.
    pub range: Range<usize>,
}

/// Reads all templates, in order.
pub fn read(from: Vec<Endpoint>) -> Result<Templates, String> {
    let mut text = Vec::new();
    let mut parts = Vec::new();
    for Endpoint { name, way } in from {
        let begin = text.len();
        append(way, &mut text).map_err(|error| format!("{name}: could not be read: {error}"))?;
        let range = begin..text.len();
        parts.push(Part { name, range });
        if text.len() > LONGEST {
            break;
        }
    }
    Ok(Templates { text, parts })
}

/// Appends what stands there, but no more than shows that the text is too long.
fn append(way: Way, text: &mut Vec<u8>) -> std::io::Result<usize> {
    let file = match way {
        Way::Open(_, file) => file,
        Way::Path(path) => File::open(path),
    }?;
    let most = LONGEST + 1 - text.len();
    file.take(most as u64).read_to_end(text)
}

impl Templates {
    /// The template in which a place is told, by its number from 0: the one whose byte comes next. At a border that is the template
    /// behind it, since the step begins with its first byte or with text given back before that. Behind the last byte it is the
    /// last template that has any.
    pub fn number_at(&self, place: usize) -> usize {
        let holds = |part: &Part| part.range.contains(&place);
        let next = self.parts.iter().position(holds);
        let last = || self.parts.iter().rposition(|part| !part.range.is_empty());
        next.or_else(last).unwrap_or(self.parts.len() - 1)
    }

    /// The template that ends where this place is the border to the next one.
    pub fn ended_at(&self, place: usize) -> Option<&Part> {
        let ends = |part: &&Part| part.range.end == place && !part.range.is_empty();
        self.parts
            .iter()
            .find(ends)
            .filter(|_| place < self.text.len())
    }
}

/// Templates with these texts, called by their numbers from 0.
#[cfg(test)]
pub fn joined<T: AsRef<[u8]>>(texts: &[T]) -> Templates {
    let mut text = Vec::new();
    let mut part = |(number, more): (usize, &T)| {
        let begin = text.len();
        text.extend_from_slice(more.as_ref());
        let range = begin..text.len();
        let name = number.to_string();
        Part { name, range }
    };
    let parts = texts.iter().enumerate().map(&mut part).collect();
    Templates { text, parts }
}

#[cfg(test)]
mod tests {
    use super::*;

    fn told(texts: &[&str]) -> Vec<(usize, Option<String>)> {
        let templates = joined(texts);
        let at = |place| {
            let ended = templates.ended_at(place).map(|part| part.name.clone());
            (templates.number_at(place), ended)
        };
        (0..=templates.text.len()).map(at).collect()
    }

    #[test]
    fn a_place_is_told_where_its_byte_stands() {
        let ended = |number: &str| Some(number.to_string());
        assert_eq!(told(&["a"]), [(0, None), (0, None)]);
        assert_eq!(
            told(&["ab", "c"]),
            [(0, None), (0, None), (1, ended("0")), (1, None)]
        );
    }

    #[test]
    fn an_empty_template_is_passed_over() {
        let ended = |number: &str| Some(number.to_string());
        assert_eq!(told(&[""]), [(0, None)]);
        assert_eq!(told(&["", ""]), [(1, None)]);
        assert_eq!(
            told(&["", "a", "", "b", ""]),
            [(1, None), (3, ended("1")), (3, None)]
        );
    }
}
