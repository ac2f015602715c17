//! Random cases of the sheet, from a seed: written texts, texts to expand, and questions of lines that
//! were read and of lines that no text has. They are made to reach every way of request 4 of 02.

mod bad;
mod behind;
mod parts;
mod pieces;
mod questions;
mod templates;
mod written;

use super::Scale;
use crate::random::Random;
use crate::sheet::case::{Asked, Case};

/// Makes a case. A small one has a text of a few thousand bytes at most and can be written as a line of
/// a table.
pub fn case(random: &mut Random, scale: Scale) -> Case {
    Case::new(match random.below(10) {
        0..=3 => Asked::Read(written::text(random, scale)),
        4..=6 => Asked::Sheet(templates::template(random, scale)),
        _ => questions::question(random, scale),
    })
}

#[cfg(test)]
mod tests {
    use super::*;
    use crate::generate::tests::go_by_the_seed;
    use crate::table::sheets::has_a_line;

    #[test]
    fn cases_go_by_the_seed() {
        go_by_the_seed(|random| case(random, Scale::Small));
        go_by_the_seed(|random| case(random, Scale::Full));
    }

    #[test]
    fn small_cases_are_lines_of_a_table() {
        let mut random = Random::new(1);
        let mut short = 0;
        for _ in 0..3_000 {
            let case = case(&mut random, Scale::Small);
            assert!(has_a_line(&case));
            let length = match &case.asked {
                Asked::Read(text) | Asked::Question { text, .. } => text.len(),
                Asked::Sheet(template) => template.text.len(),
            };
            assert!(length <= 2_000, "{length} bytes");
            short += usize::from(length < 200);
        }
        assert!(
            short > 2_600,
            "{short} texts of 3000 have less than 200 bytes"
        );
    }
}
