//! On which ground a set is bad, found by going through its bytes.

use super::Form;

/// What is wrong with a set.
#[derive(Debug, PartialEq, Eq)]
pub struct Fault {
    pub ground: Form,
    /// How many items stand whole before it.
    pub items: usize,
}

/// The first fault of a set, its length aside.
pub fn fault(set: &[u8]) -> Option<Fault> {
    let mut fault = Reading::of(set, u64::MAX).fault()?;
    // with lengths added in 32 bits it would be good
    if Reading::of(set, u64::from(u32::MAX)).fault().is_none() {
        fault.ground = Form::LengthsWrap;
    }
    Some(fault)
}

struct Reading<'s> {
    set: &'s [u8],
    /// Which bits of the sum of two lengths count.
    mask: u64,
    at: usize,
    /// How many items were begun.
    begun: usize,
    /// How many bytes the item begun last has in all, and how many of them are still to come.
    joined: u64,
    left: u64,
}

impl Reading<'_> {
    fn of(set: &[u8], mask: u64) -> Reading<'_> {
        Reading {
            set,
            mask,
            at: 0,
            begun: 0,
            joined: 0,
            left: 0,
        }
    }

    fn fault(mut self) -> Option<Fault> {
        loop {
            let ground = match self.set.get(self.at) {
                None => Some(self.run_out()),
                Some(0) if self.left == 0 && self.at + 1 == self.set.len() => return None,
                Some(0) if self.left == 0 => Some(Form::BehindEnd),
                Some(0) => Some(Form::EndInItem),
                Some(&count @ 1..=128) => self.chunk(u64::from(count)),
                Some(129) => self.item(),
                Some(130) => Some(Form::Kind130),
                Some(131) => Some(Form::Kind131),
                Some(132..) => Some(Form::KindAbove),
            };
            if let Some(ground) = ground {
                let items = self.begun - usize::from(self.left > 0);
                return Some(Fault { ground, items });
            }
        }
    }

    /// No kind stands where one must.
    fn run_out(&self) -> Form {
        match self.left {
            _ if self.set.is_empty() => Form::NoBytes,
            0 => Form::NoEnd,
            _ => Form::CutItem,
        }
    }

    fn chunk(&mut self, count: u64) -> Option<Form> {
        let ground = match self.left {
            0 if self.begun == 0 => Form::ChunkFirst,
            0 if self.joined == 0 => Form::ChunkOfNone,
            0 => Form::ChunkTooMany,
            left if count > left => Form::LongChunk,
            left if count < 128 && left > 128 => Form::ShortChunk,
            left if count < left.min(128) => Form::ShortLastChunk,
            _ if self.at + 1 + count as usize > self.set.len() => Form::CutChunk,
            _ => {
                self.left -= count;
                self.at += 1 + count as usize;
                return None;
            }
        };
        Some(ground)
    }

    fn item(&mut self) -> Option<Form> {
        if self.left > 0 {
            return Some(Form::ItemInItem);
        }
        let Some(body) = self.set.get(self.at + 1..self.at + 9) else {
            return Some(Form::CutLengths);
        };
        let number = |bytes: &[u8]| {
            let digits = bytes.iter().rev();
            digits.fold(0, |number, &byte| number * 256 + u64::from(byte))
        };
        self.joined = (number(&body[..4]) + number(&body[4..])) & self.mask;
        self.left = self.joined;
        self.begun += 1;
        self.at += 9;
        None
    }
}
