//! A case: a text with its set, a setting, and what the lent memory holds before.

use model::generate::{self, Scale};
use model::random::Random;
use model::table::{write, Row};
use model::{expand, expand_recorded, expand_traced, Report, Setting, Trace, LIMIT, SET_LIMIT};

/// What one call of the archive gets.
#[derive(Clone, Debug)]
pub struct Case {
    pub text: Vec<u8>,
    pub set: Vec<u8>,
    pub setting: Setting,
    /// Decides which noise the lent memory holds, and its alignment.
    pub salt: u64,
}

impl Case {
    /// Whether all of it may be lent, and so its buffers have no more bytes than they may.
    pub fn is_lendable(&self) -> bool {
        let lengths = self.setting.lengths.iter();
        self.text.len() <= LIMIT && self.set.len() <= SET_LIMIT && lengths.max() <= Some(&LIMIT)
    }

    /// The model's answer.
    pub fn expected(&self) -> Report {
        expand(&self.text, &self.set, &self.setting)
    }

    /// The model's answer, and what the run did.
    pub fn traced(&self) -> (Report, Trace) {
        expand_traced(&self.text, &self.set, &self.setting)
    }

    /// The same, with the history of the run.
    pub fn recorded(&self) -> (Report, Trace) {
        expand_recorded(&self.text, &self.set, &self.setting)
    }
}

/// Makes case `index` of a seed.
pub fn case(seed: u64, index: u64) -> Case {
    made(seed, index, |random| generate::case(random, Scale::Full))
}

/// Makes case `index` of a seed so.
pub fn made(seed: u64, index: u64, make: impl FnOnce(&mut Random) -> generate::Case) -> Case {
    let mut random = Random::numbered(seed, index);
    let generate::Case { text, set, setting } = make(&mut random);
    Case {
        text,
        set,
        setting,
        salt: random.bits(),
    }
}

/// A case with the model's answer as a line of a table like tests/vectors.tsv.
pub fn line(item: &str, case: &Case, expected: Report) -> String {
    write(&Row {
        item: item.to_string(),
        text: case.text.clone(),
        set: case.set.clone(),
        setting: case.setting.clone(),
        expected,
    })
}
