//! The bucket of a name. 02, request 9, asks for 199 of them and leaves open which name is in which:
//! here stands the expander's choice. No rule of the model knows of buckets; tests make names with it
//! that share one, and tell what a search passes by.

use crate::predefined::Predefined;
use std::sync::OnceLock;

pub const BUCKETS: usize = 199;

/// A hash of all bytes, in 32 bits, and then which of 199 equal parts it is in.
pub fn bucket_of(name: &[u8]) -> usize {
    let hash = name.iter().fold(0u32, |hash, &byte| {
        hash.wrapping_add(u32::from(byte))
            .wrapping_mul(2_654_435_773)
    });
    ((u64::from(hash) * BUCKETS as u64) >> 32) as usize
}

/// The predefined name of a bucket, if it has one; none has two.
pub fn predefined_in(bucket: usize) -> Option<Predefined> {
    static NAMES: OnceLock<[Option<Predefined>; BUCKETS]> = OnceLock::new();
    let names = NAMES.get_or_init(|| {
        let mut names = [None; BUCKETS];
        for which in Predefined::ALL {
            names[bucket_of(which.name().as_bytes())] = Some(which);
        }
        names
    });
    names[bucket]
}

/// Names of a bucket: a stem and a number, the first so many from number `first` on.
pub fn sharing(bucket: usize, stem: &str, first: usize, count: usize) -> Vec<String> {
    let names = (first..).map(|number| format!("{stem}{number}"));
    let sharing = names.filter(|name| bucket_of(name.as_bytes()) == bucket);
    sharing.take(count).collect()
}

#[cfg(test)]
mod tests {
    use super::*;

    #[test]
    fn known_buckets() {
        // 97 * 2654435773 = 59 * 2^32 + 4077199517, and 199 times that is 188.9 * 2^32
        let known = [("", 0), ("a", 188), ("define", 24), ("ifelse", 8)];
        for (name, bucket) in known {
            assert_eq!(bucket_of(name.as_bytes()), bucket, "{name}");
        }
    }

    /// The proved program `vectors` has to print lines `#NAME is in BUCKET, ..`; they are the same here.
    #[test]
    fn buckets_of_the_stored_vectors() {
        let stored = String::from_utf8_lossy(include_bytes!("../../../crates/vectors/stdout"));
        let lines = stored.lines().filter_map(|line| line.strip_prefix('#'));
        let told = lines.filter_map(|line| line.rsplit_once(", ")?.0.rsplit_once(" is in "));
        let told: Vec<(&str, &str)> = told.collect();
        assert!(told.len() >= 10, "{} buckets are stored", told.len());
        for (name, bucket) in told {
            assert_eq!(bucket_of(name.as_bytes()).to_string(), bucket, "{name}");
        }
    }

    #[test]
    fn no_bucket_has_two_predefined_names() {
        let mut buckets = Predefined::ALL.map(|which| bucket_of(which.name().as_bytes()));
        buckets.sort_unstable();
        assert!(buckets.windows(2).all(|two| two[0] < two[1]));
        assert_eq!(predefined_in(24), Some(Predefined::Define));
        assert_eq!(predefined_in(0), None);
    }

    #[test]
    fn names_that_share_a_bucket() {
        let names = sharing(24, "sway_x_", 17, 30);
        assert_eq!(names.len(), 30);
        assert!(names.iter().all(|name| bucket_of(name.as_bytes()) == 24));
    }

    /// Names that differ in their last bytes alone are spread over all buckets.
    #[test]
    fn names_of_templates_are_spread() {
        let mut counts = [0; BUCKETS];
        for number in 0..2_000 {
            counts[bucket_of(format!("sway_x_{number}").as_bytes())] += 1;
        }
        assert!(
            counts.iter().all(|count| (1..=25).contains(count)),
            "{counts:?}"
        );
    }
}
