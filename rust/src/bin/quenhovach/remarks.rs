//! What a comment, or what dnl drops, takes beside the remark that was meant.

use std::ops::Range;

/// Whether it has a right parenthesis whose left one stands before it.
pub fn has_closer(remark: &[u8]) -> bool {
    let mut open = 0;
    for byte in remark {
        match byte {
            b'(' => open += 1,
            b')' if open == 0 => return true,
            b')' => open -= 1,
            _ => {}
        }
    }
    false
}

/// Whether it has bytes behind the end of the template in which it begins.
pub fn runs_on(remark: Range<usize>, ends: &[usize]) -> bool {
    let own = ends.partition_point(|&end| end <= remark.start);
    ends.get(own).is_some_and(|&end| end < remark.end)
}

#[cfg(test)]
mod tests {
    use super::*;

    #[test]
    fn parentheses() {
        for (remark, has_one) in [
            ("#)", true),
            ("# (a) b)", true),
            ("# )(", true),
            ("#", false),
            ("# (a, (b))", false),
            ("# ((a)", false),
        ] {
            assert_eq!(has_closer(remark.as_bytes()), has_one, "{remark}");
        }
    }

    #[test]
    fn borders() {
        for (remark, ends, is_over) in [
            (0..5, [5, 9, 9], false),
            (2..6, [5, 9, 9], true),
            (5..9, [5, 9, 9], false),
            (5..6, [0, 5, 6], false),
            (1..9, [0, 5, 9], true),
            (4..9, [3, 9, 9], false),
        ] {
            assert_eq!(runs_on(remark.clone(), &ends), is_over, "{remark:?}");
        }
    }
}
