//! The ways of request 1 of 02, first part: the forms of sets, good ones and bad ones, and what a run
//! makes of them. Tests look here at runs from outside: whether a set is bad is found out by a reading
//! of its own, and then the answer is held to it.

mod ground;
mod shape;
#[cfg(test)]
mod tests;

use crate::answer::Setting;
use crate::house::{write, Set};
use crate::{Report, SET_LIMIT};
use ground::{fault, Fault};

/// What a set is like.
#[derive(Clone, Copy, Debug, PartialEq, Eq)]
pub enum Form {
    NoBytes,
    NoEnd,
    BehindEnd,
    ChunkFirst,
    ChunkOfNone,
    ChunkTooMany,
    ShortChunk,
    ShortLastChunk,
    LongChunk,
    Kind130,
    Kind131,
    KindAbove,
    EndInItem,
    ItemInItem,
    CutLengths,
    CutChunk,
    CutItem,
    LengthsWrap,
    TooLong,
    TooLongAndBad,
    BadLater,
    BadAndNotUsed,
    BadAndSpent,
    BadAndLend,
    Longest,
    NoItem,
    OneItem,
    SeveralItems,
    ItemOfNone,
    ItemBehindNone,
    NoName,
    NoText,
    TwoOfOneName,
    Of127,
    Of128,
    Of129,
    Of255,
    Of256,
    Of257,
    NameAcross,
    NameFills,
    TextAcross,
    TextFills,
}

const FORMS: [(Form, &str); 43] = [
    (Form::NoBytes, "set: no bytes"),
    (Form::NoEnd, "set: no end"),
    (Form::BehindEnd, "set: behind its end"),
    (Form::ChunkFirst, "set: chunk first"),
    (Form::ChunkOfNone, "set: chunk of none"),
    (Form::ChunkTooMany, "set: chunk too many"),
    (Form::ShortChunk, "set: short chunk"),
    (Form::ShortLastChunk, "set: short last one"),
    (Form::LongChunk, "set: long chunk"),
    (Form::Kind130, "set: kind 130"),
    (Form::Kind131, "set: kind 131"),
    (Form::KindAbove, "set: kind above 131"),
    (Form::EndInItem, "set: end in an item"),
    (Form::ItemInItem, "set: item in an item"),
    (Form::CutLengths, "set: cut in lengths"),
    (Form::CutChunk, "set: cut in a chunk"),
    (Form::CutItem, "set: cut in an item"),
    (Form::LengthsWrap, "set: lengths wrap"),
    (Form::TooLong, "set: too long"),
    (Form::TooLongAndBad, "set: too long, bad"),
    (Form::BadLater, "set: bad later"),
    (Form::BadAndNotUsed, "set: bad, not used"),
    (Form::BadAndSpent, "set: 14 before 3"),
    (Form::BadAndLend, "set: 2 before 14"),
    (Form::Longest, "set: the longest"),
    (Form::NoItem, "set: no item"),
    (Form::OneItem, "set: one item"),
    (Form::SeveralItems, "set: several items"),
    (Form::ItemOfNone, "set: item of none"),
    (Form::ItemBehindNone, "set: item behind it"),
    (Form::NoName, "set: no name"),
    (Form::NoText, "set: no text"),
    (Form::TwoOfOneName, "set: two of one name"),
    (Form::Of127, "set: item of 127"),
    (Form::Of128, "set: item of 128"),
    (Form::Of129, "set: item of 129"),
    (Form::Of255, "set: item of 255"),
    (Form::Of256, "set: item of 256"),
    (Form::Of257, "set: item of 257"),
    (Form::NameAcross, "set: name in two"),
    (Form::NameFills, "set: name fills some"),
    (Form::TextAcross, "set: text in two"),
    (Form::TextFills, "set: text fills some"),
];

/// How often each form was met.
pub struct Sets {
    met: [u64; FORMS.len()],
}

impl Default for Sets {
    fn default() -> Sets {
        Sets {
            met: [0; FORMS.len()],
        }
    }
}

impl Sets {
    /// Notes the set of a run that ended in this report. Fails if it is not answered as 02 asks.
    pub fn note(
        &mut self,
        text: &[u8],
        set: &[u8],
        setting: &Setting,
        report: &Report,
    ) -> Result<(), String> {
        let fault = fault(set);
        if fault.is_none() && set.len() <= SET_LIMIT {
            return self.note_good(set, report);
        }
        match &fault {
            Some(fault) => self.note_fault(fault, set),
            None => self.meet(Form::TooLong),
        }
        self.note_answer(text, setting, report)
    }

    fn meet(&mut self, form: Form) {
        self.met[form as usize] += 1;
    }

    fn note_fault(&mut self, fault: &Fault, set: &[u8]) {
        if set.len() > SET_LIMIT {
            self.meet(Form::TooLongAndBad);
        }
        if fault.items > 0 {
            self.meet(Form::BadLater);
        }
        self.meet(fault.ground);
    }

    /// "14 bad or overlong set, right after 2"; no step was due and no byte is taken.
    fn note_answer(
        &mut self,
        text: &[u8],
        setting: &Setting,
        report: &Report,
    ) -> Result<(), String> {
        match [report.number, report.detail, report.steps, report.place] {
            [2, ..] => self.meet(Form::BadAndLend),
            [14, 0, 0, 0] => self.note_refused(text, setting),
            other => return Err(format!("a bad set is answered {other:?}")),
        }
        Ok(())
    }

    fn note_refused(&mut self, text: &[u8], setting: &Setting) {
        if setting.budget == 0 {
            self.meet(Form::BadAndSpent);
        }
        let name = b"include";
        if !text.windows(name.len()).any(|part| part == name) {
            self.meet(Form::BadAndNotUsed);
        }
    }

    /// The bytes of a good set are those that its items come to: it has one form.
    fn note_good(&mut self, set: &[u8], report: &Report) -> Result<(), String> {
        if set.len() == SET_LIMIT {
            self.meet(Form::Longest);
        }
        let Ok(Set { items }) = Set::read(set) else {
            return Err("a good set is not read".to_string());
        };
        shape::shape(&items, |form| self.meet(form));
        if write(&items) != set {
            return Err("a set has two forms".to_string());
        }
        match report.number {
            14 => Err("a good set is answered 14".to_string()),
            _ => Ok(()),
        }
    }

    /// Every count, with its name. None must stay 0.
    pub fn counts(&self) -> [(&'static str, u64); FORMS.len()] {
        FORMS.map(|(form, name)| (name, self.met[form as usize]))
    }
}
