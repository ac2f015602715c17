//! Sets of texts that a template may include, in the form in which a caller lends them.
//!
//! A set is bytes: items, each with a name and a text, and an end. One byte of kind comes first, then a body whose length the
//! kind fixes:
//!
//! | kind | body | |
//! |---|---|---|
//! | 0 | none | ends the set; nothing stands behind it |
//! | 1 to 128 | that many bytes | the next bytes of the item begun last |
//! | 129 | 8 bytes | begins an item: the lengths of its name and of its text, 32 bits each, least byte first |
//!
//! An item's name and text, joined, follow it in such chunks, each of 128 bytes but the last. So a set has one form only, and
//! an item without a byte has no chunk. A set has at most [`LONGEST`] bytes; [`EMPTY`], one byte 0, has no item; no bytes at
//! all are no set.
//!
//! [`Set`] makes one and [`items`] lists one. What a run takes for a good set, and what `include` finds in it, is decided by the
//! library alone, which is proved; the reader here is for messages, and tests hold it to the same vectors.

mod reading;
#[cfg(feature = "alloc")]
mod writing;

pub use reading::{items, Fault, Flaw, Item, Items};
#[cfg(feature = "alloc")]
pub use writing::{Set, TooLong};

/// The most bytes that a set may have.
pub const LONGEST: usize = 1_048_576;

/// The set without an item: what is lent where nothing is to be included.
pub const EMPTY: &[u8] = &[END];

/// The kind that ends a set.
const END: u8 = 0;
/// The most bytes of a chunk; its kind is their count.
const CHUNK: usize = 128;
/// The kind that begins an item.
const BEGIN: u8 = 129;
/// Bytes of an item before its first chunk: the kind and the two lengths.
const HEAD: usize = 9;
