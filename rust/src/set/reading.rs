//! The reader of a set: lists its items, and finds the byte at which it is bad.

use super::{BEGIN, CHUNK, END, HEAD, LONGEST};
use core::{error::Error, fmt};

/// Lists the items of a set, in its order; where the set is bad, the last that comes is the fault.
///
/// ```
/// use quenhovach::set::{items, Flaw};
///
/// let set = b"\x81\x04\0\0\0\x02\0\0\0\x06wind14\0";
/// let item = items(set).next().expect("there is one").expect("it is good");
/// assert!(item.is_named(b"wind"));
/// assert!(item.text().eq(*b"14"));
/// assert_eq!(items(set).count(), 1);
///
/// let fault = items(b"\x81\x04\0\0\0\x02\0\0\0\x04wind\x0214\0").next().unwrap().unwrap_err();
/// assert_eq!((fault.place, fault.flaw), (9, Flaw::Size { is: 4, due: 6 }));
/// assert_eq!(fault.to_string(), "byte 9: a chunk of 4 bytes where one of 6 is due");
/// ```
pub fn items(set: &[u8]) -> Items<'_> {
    Items {
        set,
        at: 0,
        ended: false,
    }
}

/// The items of a set, or its fault.
#[derive(Clone, Debug)]
pub struct Items<'a> {
    set: &'a [u8],
    /// Where the next kind stands.
    at: usize,
    /// Whether the end or the fault was met.
    ended: bool,
}

/// An item of a set. Its name and text lie in chunks, and are given byte by byte.
#[derive(Clone, Copy, Debug, PartialEq, Eq)]
pub struct Item<'a> {
    name: usize,
    text: usize,
    /// With the kinds.
    chunks: &'a [u8],
}

/// Where a set is bad.
#[derive(Clone, Copy, Debug, PartialEq, Eq, Hash)]
pub struct Fault {
    /// The byte's place, counted from 0.
    pub place: usize,
    /// What is wrong there.
    pub flaw: Flaw,
}

/// What is wrong with a byte of a set.
#[derive(Clone, Copy, Debug, PartialEq, Eq, Hash)]
pub enum Flaw {
    /// The set has more than 1,048,576 bytes.
    TooLong,
    /// It ends without its end, the kind 0.
    NoEnd,
    /// Bytes stand behind its end.
    Behind,
    /// It ends within an item's lengths or within a chunk.
    CutOff,
    /// There is no such kind.
    Kind(u8),
    /// A chunk stands where none is due.
    NotDue,
    /// A chunk has another size than the one that is due.
    Size {
        /// The size that it has.
        is: usize,
        /// The size that it should have.
        due: usize,
    },
    /// The set ends, or the next item begins, where a chunk of this size is due.
    Missing(usize),
}

impl<'a> Item<'a> {
    /// Its name.
    pub fn name(&self) -> impl Iterator<Item = u8> + 'a {
        self.joined().take(self.name)
    }

    /// Its text.
    pub fn text(&self) -> impl Iterator<Item = u8> + 'a {
        self.joined().skip(self.name).take(self.text)
    }

    /// Whether this is its name.
    pub fn is_named(&self, name: &[u8]) -> bool {
        self.name().eq(name.iter().copied())
    }

    /// Name and text, without the kinds between them.
    fn joined(&self) -> impl Iterator<Item = u8> + 'a {
        let whole = self.chunks.chunks(1 + CHUNK);
        whole.flat_map(|chunk| chunk[1..].iter().copied())
    }
}

impl<'a> Iterator for Items<'a> {
    type Item = Result<Item<'a>, Fault>;

    fn next(&mut self) -> Option<Self::Item> {
        if self.ended {
            return None;
        }
        let item = self.take();
        self.ended = !matches!(item, Ok(Some(_)));
        item.transpose()
    }
}

impl<'a> Items<'a> {
    /// Takes the next item; none at the end of the set.
    fn take(&mut self) -> Result<Option<Item<'a>>, Fault> {
        if self.set.len() > LONGEST {
            return Err(fault(LONGEST, Flaw::TooLong));
        }
        match self.set.get(self.at) {
            None => Err(fault(self.at, Flaw::NoEnd)),
            Some(&END) if self.at + 1 == self.set.len() => Ok(None),
            Some(&END) => Err(fault(self.at + 1, Flaw::Behind)),
            Some(&BEGIN) => self.take_item().map(Some),
            Some(&kind) if usize::from(kind) <= CHUNK => Err(fault(self.at, Flaw::NotDue)),
            Some(&kind) => Err(fault(self.at, Flaw::Kind(kind))),
        }
    }

    fn take_item(&mut self) -> Result<Item<'a>, Fault> {
        let cut_off = || fault(self.set.len(), Flaw::CutOff);
        let head = self.set.get(self.at..self.at + HEAD).ok_or_else(cut_off)?;
        let (name, text) = (length(&head[1..5]), length(&head[5..]));
        self.at += HEAD;
        let begin = self.at;
        // Two lengths of 32 bits have a sum of more.
        let mut left = name + text;
        while left > 0 {
            let due = left.min(CHUNK as u64);
            self.take_chunk(due as usize)?;
            left -= due;
        }
        Ok(Item {
            // They are in the set, so they are no longer than it.
            name: name as usize,
            text: text as usize,
            chunks: &self.set[begin..self.at],
        })
    }

    /// Takes a chunk of the size that is due.
    fn take_chunk(&mut self, due: usize) -> Result<(), Fault> {
        let at = self.at;
        let flaw = match self.set.get(at) {
            None => Flaw::CutOff,
            Some(&(END | BEGIN)) => Flaw::Missing(due),
            Some(&kind) if usize::from(kind) > CHUNK => Flaw::Kind(kind),
            Some(&kind) if usize::from(kind) != due => Flaw::Size {
                is: usize::from(kind),
                due,
            },
            Some(_) if self.set.len() - at <= due => {
                return Err(fault(self.set.len(), Flaw::CutOff))
            }
            Some(_) => {
                self.at += 1 + due;
                return Ok(());
            }
        };
        Err(fault(at, flaw))
    }
}

/// A length of an item: 32 bits, least byte first.
fn length(bytes: &[u8]) -> u64 {
    bytes.iter().rev().fold(0, |n, &b| n << 8 | u64::from(b))
}

fn fault(place: usize, flaw: Flaw) -> Fault {
    Fault { place, flaw }
}

impl fmt::Display for Fault {
    fn fmt(&self, f: &mut fmt::Formatter<'_>) -> fmt::Result {
        write!(f, "byte {}: {}", self.place, self.flaw)
    }
}

impl fmt::Display for Flaw {
    fn fmt(&self, f: &mut fmt::Formatter<'_>) -> fmt::Result {
        match self {
            Flaw::TooLong => write!(f, "the set has more than {LONGEST} bytes"),
            Flaw::NoEnd => f.write_str("the set ends without its end, a byte 0"),
            Flaw::Behind => f.write_str("there is more behind the end of the set"),
            Flaw::CutOff => f.write_str("the set ends within an item"),
            Flaw::Kind(kind) => write!(f, "there is no kind {kind} in a set"),
            Flaw::NotDue => f.write_str("a chunk where an item or the end is due"),
            Flaw::Size { is, due } => write!(f, "a chunk of {is} bytes where one of {due} is due"),
            Flaw::Missing(due) => write!(f, "a chunk of {due} bytes is missing"),
        }
    }
}

impl Error for Fault {}
