//! The house form of 02, request 1: "one byte of kind, then a body whose length the kind fixes". A
//! set of items is written in it. The kinds 130 and 131, with which request 10 writes a table, are
//! none of a set; they would be further cases of [`Piece`].

use crate::answer::Refusal;

/// "The set may have up to 1,048,576 bytes".
pub const SET_LIMIT: usize = 1_048_576;
/// A set without items, which the program `expand` lends: "one byte 0".
pub const NO_ITEMS: &[u8] = &[END];

const END: u8 = 0;
/// "Kinds 1 to 128 carry that many bytes".
pub const FULL: u8 = 128;
const ITEM: u8 = 129;

/// A kind with its body.
enum Piece<'a> {
    /// "Kind 0 ends the set, with nothing after it."
    End,
    /// The bytes that one of the kinds 1 to 128 carries.
    Chunk(&'a [u8]),
    /// "Kind 129 begins an item; its 8-byte body holds name length and text length".
    Item { name: u32, text: u32 },
}

/// Pieces that are not taken yet.
struct Pieces<'a>(&'a [u8]);

impl<'a> Pieces<'a> {
    /// Takes a piece. There is none where its kind is no kind of a set, or where bytes run short.
    fn take(&mut self) -> Option<Piece<'a>> {
        match self.take_bytes(1)?[0] {
            END => Some(Piece::End),
            count @ 1..=FULL => Some(Piece::Chunk(self.take_bytes(usize::from(count))?)),
            ITEM => Some(Piece::Item {
                name: self.take_length()?,
                text: self.take_length()?,
            }),
            _ => None,
        }
    }

    /// "32-bit, least byte first".
    fn take_length(&mut self) -> Option<u32> {
        let bytes = self.take_bytes(4)?;
        Some(u32::from_le_bytes(bytes.try_into().expect("four bytes")))
    }

    fn take_bytes(&mut self, count: usize) -> Option<&'a [u8]> {
        let (bytes, rest) = self.0.split_at_checked(count)?;
        self.0 = rest;
        Some(bytes)
    }

    /// Takes so many bytes that "follow in chunks, each full at 128 except the last".
    fn take_joined(&mut self, count: u64) -> Option<Vec<u8>> {
        let mut bytes = Vec::new();
        while (bytes.len() as u64) < count {
            let due = (count - bytes.len() as u64).min(u64::from(FULL));
            match self.take()? {
                Piece::Chunk(chunk) if chunk.len() as u64 == due => bytes.extend(chunk),
                _ => return None,
            }
        }
        Some(bytes)
    }
}

/// An item: a name, which may be any bytes, and what is included under it.
#[derive(Clone, Debug, PartialEq, Eq)]
pub struct Item {
    pub name: Vec<u8>,
    pub text: Vec<u8>,
}

impl Item {
    pub fn new(name: &[u8], text: &[u8]) -> Item {
        Item {
            name: name.to_vec(),
            text: text.to_vec(),
        }
    }

    /// "name and text, joined".
    pub fn joined(&self) -> Vec<u8> {
        [&self.name[..], &self.text].concat()
    }

    /// "name length and text length".
    pub fn lengths(&self) -> [u32; 2] {
        [self.name.len() as u32, self.text.len() as u32]
    }

    fn take(pieces: &mut Pieces, name: u32, text: u32) -> Option<Item> {
        let mut joined = pieces.take_joined(u64::from(name) + u64::from(text))?;
        let text = joined.split_off(name as usize);
        Some(Item { name: joined, text })
    }
}

/// A good set.
#[derive(Clone, Debug, Default, PartialEq, Eq)]
pub struct Set {
    pub items: Vec<Item>,
}

impl Set {
    /// Judges a set whole; 14: "bad or overlong set".
    pub fn read(set: &[u8]) -> Result<Set, Refusal> {
        if set.len() > SET_LIMIT {
            return Err(Refusal::BadSet);
        }
        let items = read_items(set).ok_or(Refusal::BadSet)?;
        Ok(Set { items })
    }

    /// What is included under a name. "The first of two items with one name counts."
    pub fn text_of(&self, name: &[u8]) -> Option<&[u8]> {
        let mut items = self.items.iter();
        let item = items.find(|item| item.name == name)?;
        Some(&item.text)
    }
}

/// The items of a set. A chunk that is due is taken with its item, so that one found here is not
/// joined to any.
fn read_items(set: &[u8]) -> Option<Vec<Item>> {
    let mut pieces = Pieces(set);
    let mut items = Vec::new();
    loop {
        match pieces.take()? {
            Piece::End => return pieces.0.is_empty().then_some(items),
            Piece::Chunk(_) => return None,
            Piece::Item { name, text } => items.push(Item::take(&mut pieces, name, text)?),
        }
    }
}

/// The set of some items.
pub fn write(items: &[Item]) -> Vec<u8> {
    let mut set = Vec::new();
    for item in items {
        write_item(&mut set, item.lengths(), &item.joined());
    }
    set.push(END);
    set
}

/// The beginning of an item with these two lengths, true or not, and these bytes in chunks.
pub fn write_item(set: &mut Vec<u8>, lengths: [u32; 2], joined: &[u8]) {
    set.push(ITEM);
    for length in lengths {
        set.extend(length.to_le_bytes());
    }
    write_chunks(set, joined, FULL);
}

/// Bytes in chunks of so many, full or not.
pub fn write_chunks(set: &mut Vec<u8>, bytes: &[u8], each: u8) {
    for chunk in bytes.chunks(usize::from(each)) {
        set.push(chunk.len() as u8);
        set.extend(chunk);
    }
}
