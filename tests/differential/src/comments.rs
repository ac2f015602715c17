//! Comments that no end mark closes, wherever one may begin, under marks of every kind: request 3 of
//! 02. The archive against the model, with ample and with tight rooms.

use crate::arenas::Arenas;
use crate::case::{line, Case};
use model::generate::comments::{
    filled, fits, Marks, Outcome, Place, CONTENTS, ENDINGS, MARKS, PLACES, PLAIN,
};
use model::generate::setting::exact_and_shorter;
use model::ways::remarks::Remarks;
use model::{expand, expand_traced, Report, Setting, Trace, LIMIT, NO_ITEMS};
use std::collections::BTreeSet;

/// More steps than any of the texts needs: a run that goes on without end is soon over.
const STEPS: u32 = 20_000;
/// Tight rooms are for every third text: all of them would take long, and each place has about a
/// hundred under each kind of marks.
const TIGHT: usize = 3;
/// So many failures are printed; all are counted.
const SHOWN: usize = 20;

/// Gives the cases that passed and failed. A place that does not show what it is there for fails
/// too, and so does a way that is never taken.
pub fn every_comment() -> (usize, usize) {
    let mut table = Table {
        arenas: Arenas::new(),
        all: Remarks::default(),
        turn: 0,
        passed: 0,
        failed: 0,
    };
    for place in &PLACES {
        for marks in MARKS.iter().filter(|marks| fits(place.text, marks)) {
            table.try_place(place, marks);
        }
    }
    table.try_large();
    for (way, _) in table.all.counts().iter().filter(|(_, count)| *count == 0) {
        table.fail(&format!("never reached: {way}"));
    }
    (table.passed, table.failed)
}

struct Table {
    arenas: Arenas,
    all: Remarks,
    /// Counts texts up to [`TIGHT`]; where it is 0 again, one gets tight rooms.
    turn: usize,
    passed: usize,
    failed: usize,
}

impl Table {
    fn fail(&mut self, what: &str) {
        self.failed += 1;
        if self.failed <= SHOWN {
            println!("{what}");
        }
    }

    fn try_place(&mut self, place: &Place, marks: &Marks) {
        for way in unseen(place, marks) {
            self.fail(&format!("{} with {marks:?}: no {way}", place.text));
        }
        for text in texts(place, marks) {
            self.turn = (self.turn + 1) % TIGHT;
            self.try_text(&text, self.turn == 0);
        }
    }

    fn try_large(&mut self) {
        for (text, answer) in large() {
            let report = self.try_text(&text, true);
            let found = (report.number, report.detail);
            if found != answer {
                self.fail(&format!("a long comment: {found:?} instead of {answer:?}"));
            }
        }
    }

    /// Tries a text with ample room, and with tight rooms too. Gives the answer with ample room.
    fn try_text(&mut self, text: &[u8], tightly: bool) -> Report {
        let ample = Setting {
            budget: STEPS,
            ..Setting::ample()
        };
        let (report, trace) = expand_traced(text, NO_ITEMS, &ample);
        self.try_case(text, ample, report.clone());
        let tight = tightly.then(|| tight(&report, &trace));
        for setting in tight.into_iter().flatten() {
            let report = expand(text, NO_ITEMS, &setting);
            self.try_case(text, setting, report);
        }
        report
    }

    fn try_case(&mut self, text: &[u8], setting: Setting, expected: Report) {
        let walked = self.all.walk(text, NO_ITEMS, &expected);
        let case = Case {
            text: text.to_vec(),
            set: NO_ITEMS.to_vec(),
            setting,
            salt: (self.passed + self.failed) as u64,
        };
        match self.arenas.try_case(&case, &expected).and(walked) {
            Ok(()) => self.passed += 1,
            Err(what) => {
                let shown = String::from_utf8_lossy(&text[..text.len().min(200)]);
                self.fail(&format!(
                    "{shown:?}: {what}\n{}",
                    line("comments", &case, expected)
                ));
            }
        }
    }
}

/// All texts of a place under such marks, each once: where the end mark is a newline, some endings
/// are the same.
fn texts(place: &Place, marks: &Marks) -> BTreeSet<Vec<u8>> {
    let endings = |content| ENDINGS.map(|ending| filled(place.text, marks, content, ending));
    CONTENTS.into_iter().flat_map(endings).collect()
}

/// Just what a run with ample room needs, one byte less of each buffer, and one and two steps less:
/// behind an open comment there is one step more, which finds the end.
fn tight(report: &Report, trace: &Trace) -> Vec<Setting> {
    // a refused step needs its place in the budget too
    let needed = report.steps + u32::from(report.number > 1);
    let exact = Setting {
        lengths: trace.peaks,
        budget: needed,
    };
    let mut settings = exact_and_shorter(&exact);
    settings.extend((needed.saturating_sub(2)..needed).map(|budget| Setting {
        budget,
        ..exact.clone()
    }));
    settings
}

/// What a place is there for and does not show under such marks, if one comment is all there is.
fn unseen(place: &Place, marks: &Marks) -> Vec<&'static str> {
    let text = filled(place.text, marks, PLAIN, "");
    let report = expand(&text, NO_ITEMS, &Setting::ample());
    let ways: &[&str] = match marks.outcome {
        Outcome::Closed => place.closed,
        Outcome::Refused => place.refused,
        // no comment begins there, whatever ends it
        _ if place.closed == place.refused => &[],
        Outcome::Off => &["comments are off"],
        Outcome::Quote if (report.number, report.detail) == (5, 1) => &[],
        Outcome::Quote => &["open quote"],
    };
    let mut seen = Remarks::default();
    // what the walk finds wrong is found in the table too
    let _ = seen.walk(&text, NO_ITEMS, &report);
    let taken = |way: &str| {
        seen.counts()
            .iter()
            .any(|(name, count)| *name == way && *count > 0)
    };
    ways.iter().copied().filter(|way| !taken(way)).collect()
}

/// A comment of a whole text, and one of pending text and input that no buffer can hold; with the
/// number and the detail of the answer.
fn large() -> [(Vec<u8>, (u32, u32)); 5] {
    let whole = |last: u8| [&b"#"[..], &[b'a'; LIMIT - 2], &[last]].concat();
    let twice = "define(`d',`define(`x',defn(`x')defn(`x'))')define(`x',`#a')";
    let across = |before: &str| {
        let mut text = [before, twice, &"d ".repeat(14), "x()"]
            .concat()
            .into_bytes();
        text.resize(LIMIT, b'b');
        text
    };
    [
        (whole(b'a'), (0, 0)),
        (whole(b'\n'), (0, 0)),
        (across(""), (4, 7)),
        (across("divert(-1)"), (0, 0)),
        (across("m4wrap(`c')divert(10)"), (0, 0)),
    ]
}
