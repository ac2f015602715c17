//! The builder of a set.

use super::{items, BEGIN, CHUNK, EMPTY, END, HEAD, LONGEST};
use alloc::borrow::Cow;
use alloc::vec::Vec;
use core::{error::Error, fmt};

/// A set that is made item by item. It is good at every moment, and its bytes are ready to be lent.
///
/// ```
/// use quenhovach::{Expander, Set};
///
/// let mut set = Set::new();
/// set.add("guys.m4", "define(`guys', `3')")?;
/// set.add("wind/coast.m4", "define(`wind', `14')")?;
///
/// let mut expander = Expander::new().with_set(set);
/// let sheet = expander.expand(b"include(`guys.m4')guy_count=guys\n").expect("it is done");
/// assert_eq!(sheet.output, b"guy_count=3\n");
/// # Ok::<(), quenhovach::set::TooLong>(())
/// ```
///
/// A name is any bytes, none too; it is compared whole with what `include` was given.
///
/// **The first of two items with one name counts.** A second one may be added, and is never included:
///
/// ```
/// # use quenhovach::Set;
/// let set = Set::of([("wind", "11"), ("wind", "14")])?;
/// assert_eq!(set.get("wind"), Some(b"11".to_vec()));
/// assert_eq!(set.get("Wind"), None);
/// # Ok::<(), quenhovach::set::TooLong>(())
/// ```
#[derive(Clone, PartialEq, Eq)]
pub struct Set {
    /// Items, and the end.
    bytes: Vec<u8>,
}

/// An item that would not fit: with it the set would have more than [`LONGEST`] bytes.
#[derive(Clone, Copy, Debug, PartialEq, Eq, Hash)]
pub struct TooLong {
    /// How many bytes the set would have.
    pub length: usize,
}

impl Set {
    /// Without an item.
    pub fn new() -> Set {
        Set {
            bytes: EMPTY.to_vec(),
        }
    }

    /// With these items, names and texts, in this order.
    ///
    /// # Errors
    ///
    /// [`TooLong`], for the first item that does not fit.
    pub fn of<N: AsRef<[u8]>, T: AsRef<[u8]>>(
        items: impl IntoIterator<Item = (N, T)>,
    ) -> Result<Set, TooLong> {
        let mut set = Set::new();
        for (name, text) in items {
            set.add(name, text)?;
        }
        Ok(set)
    }

    /// Adds an item behind the others. One whose name is there already is never included.
    ///
    /// # Errors
    ///
    /// [`TooLong`]; then the set is as it was.
    pub fn add(&mut self, name: impl AsRef<[u8]>, text: impl AsRef<[u8]>) -> Result<(), TooLong> {
        let (name, text) = (name.as_ref(), text.as_ref());
        let length = self
            .bytes
            .len()
            .saturating_add(length_of(name.len(), text.len()));
        let lengths = [u32::try_from(name.len()), u32::try_from(text.len())];
        let ([Ok(name_length), Ok(text_length)], true) = (lengths, length <= LONGEST) else {
            return Err(TooLong { length });
        };
        self.bytes.pop();
        self.bytes.push(BEGIN);
        self.bytes.extend(name_length.to_le_bytes());
        self.bytes.extend(text_length.to_le_bytes());
        for chunk in [name, text].concat().chunks(CHUNK) {
            self.bytes.push(chunk.len() as u8);
            self.bytes.extend(chunk);
        }
        self.bytes.push(END);
        Ok(())
    }

    /// The text that `include` of this name gives: that of the first item that has the name.
    pub fn get(&self, name: impl AsRef<[u8]>) -> Option<Vec<u8>> {
        let mut all = items(&self.bytes).flatten();
        let found = all.find(|item| item.is_named(name.as_ref()))?;
        Some(found.text().collect())
    }

    /// The set's bytes.
    pub fn as_bytes(&self) -> &[u8] {
        &self.bytes
    }
}

/// How many bytes an item takes whose name and text have these lengths.
fn length_of(name: usize, text: usize) -> usize {
    let joined = name.saturating_add(text);
    joined
        .saturating_add(joined.div_ceil(CHUNK))
        .saturating_add(HEAD)
}

impl Default for Set {
    fn default() -> Set {
        Set::new()
    }
}

impl AsRef<[u8]> for Set {
    fn as_ref(&self) -> &[u8] {
        &self.bytes
    }
}

impl From<Set> for Vec<u8> {
    fn from(set: Set) -> Vec<u8> {
        set.bytes
    }
}

impl From<Set> for Cow<'_, [u8]> {
    fn from(set: Set) -> Self {
        Cow::Owned(set.bytes)
    }
}

impl fmt::Debug for Set {
    /// How many items and bytes it has; the bytes would fill pages.
    fn fmt(&self, f: &mut fmt::Formatter<'_>) -> fmt::Result {
        f.debug_struct("Set")
            .field("items", &items(&self.bytes).count())
            .field("bytes", &self.bytes.len())
            .finish_non_exhaustive()
    }
}

impl fmt::Display for TooLong {
    fn fmt(&self, f: &mut fmt::Formatter<'_>) -> fmt::Result {
        let TooLong { length } = self;
        write!(
            f,
            "the set would have {length} bytes, and may have {LONGEST}"
        )
    }
}

impl Error for TooLong {}

#[cfg(test)]
mod tests {
    use super::*;

    #[test]
    fn no_length_wraps() {
        assert_eq!(length_of(0, 0), 9);
        assert_eq!(length_of(1, 127), 9 + 128 + 1);
        assert_eq!(length_of(1, 128), 9 + 129 + 2);
        let four_gigabytes = 1 << 32;
        assert_eq!(
            length_of(four_gigabytes, 0),
            9 + four_gigabytes + four_gigabytes / 128
        );
        assert_eq!(length_of(usize::MAX, usize::MAX), usize::MAX);
    }
}
