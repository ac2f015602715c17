//! Copies of every meaning onto names of every kind, and what becomes of them: request 7 of 02. The
//! archive against the model, with ample and with tight rooms; copies of texts between inaccessible
//! pages too.

mod kinds;
mod refused;
mod tables;
mod texts;

use crate::archive::AREAS;
use crate::arenas::Arenas;
use crate::case::{line, Case};
use crate::fences::Fences;
use crate::supervise::{all_pass, supervise, End, Progress};
use model::generate::setting::exact_and_shorter;
use model::house::{write, Item};
use model::ways::copies::Copies;
use model::{expand_traced, Report, Setting, Trace};

/// Ample room for most of the texts; to lend all that may be lent would take long.
const ROOM: usize = 2_000;
/// More steps than most of them need: a run that goes on without end is soon over.
const STEPS: u32 = 2_000;
/// What copies do in longer runs is not followed step by step.
const MOST_STEPS: u32 = 300;
/// A longer line of a table is not printed, and no more of a text.
const PRINTED: usize = 4_000;

/// A text of two parts.
struct Text {
    /// This ends with the call in question.
    done: String,
    /// This looks at the definitions then.
    asked: String,
}

impl Text {
    fn new(done: impl Into<String>, asked: impl Into<String>) -> Text {
        let (done, asked) = (done.into(), asked.into());
        Text { done, asked }
    }
}

/// Texts that are tried in one way.
struct Group {
    name: &'static str,
    texts: Vec<Text>,
    /// Room and steps that are enough for them.
    ample: Setting,
    /// Of so many texts one gets tight rooms too; so many that each kind of text is among them.
    tight: usize,
    /// Whether it is tried between inaccessible pages then, in just the room that it needs.
    fenced: bool,
}

impl Group {
    fn new(name: &'static str, texts: Vec<Text>) -> Group {
        Group {
            name,
            texts,
            ample: Setting {
                lengths: [ROOM; 7],
                budget: STEPS,
            },
            tight: 1,
            fenced: false,
        }
    }

    /// One whose texts need all the room that there is.
    fn large(name: &'static str, texts: Vec<Text>) -> Group {
        let mut group = Group::new(name, texts);
        group.ample = Setting::ample();
        group
    }
}

/// Tries every text of every group. True if all agree and every way of a copy was taken.
pub fn every_copy() -> bool {
    let groups = [
        kinds::groups(),
        texts::groups(),
        tables::groups(),
        refused::groups(),
    ];
    let groups: Vec<Group> = groups.into_iter().flatten().collect();
    let end = supervise(|progress| try_all(progress, &groups));
    if let End::Killed { index, .. } = end {
        let mut texts = groups.iter().flat_map(|group| &group.texts);
        let Text { done, asked } = texts.nth(index as usize).expect("a text");
        let shown: String = done.chars().chain(asked.chars()).take(PRINTED).collect();
        println!("{shown:?}: {}", end.shown());
    }
    end == End::Verdict(true)
}

fn try_all(progress: &Progress, groups: &[Group]) -> bool {
    let mut trial = Trial {
        arenas: Arenas::new(),
        fences: Fences::new(),
        // include and sinclude find something
        set: write(&[Item::new(b"i", b"`included' ")]),
        ways: Copies::default(),
        texts: 0,
        runs: 0,
    };
    // counted to the end: every finding is to be printed
    let failed = groups
        .iter()
        .filter(|group| !trial.try_group(progress, group))
        .count();
    failed == 0 && trial.every_way_is_taken()
}

struct Trial {
    arenas: Arenas,
    fences: Fences<AREAS>,
    set: Vec<u8>,
    ways: Copies,
    /// How many texts of other groups were tried before.
    texts: u64,
    runs: u64,
}

impl Trial {
    fn try_group(&mut self, progress: &Progress, group: &Group) -> bool {
        let (first, runs) = (self.texts, self.runs);
        self.texts += group.texts.len() as u64;
        let indexes = first..self.texts;
        let agrees = |index| self.try_text(group, (index - first) as usize);
        let (name, count) = (group.name, group.texts.len());
        let tell = |index, what: &str| println!("{name}, text {}: {what}", index - first);
        let good = all_pass(progress, indexes, agrees, tell);
        let fences = if group.fenced { ", fenced too" } else { "" };
        println!("{name}: {count} texts, {} runs{fences}", self.runs - runs);
        good && count > 0
    }

    fn try_text(&mut self, group: &Group, number: usize) -> Result<(), String> {
        let Text { done, asked } = &group.texts[number];
        let mut case = Case {
            text: format!("{done}{asked}").into_bytes(),
            set: self.set.clone(),
            setting: group.ample.clone(),
            salt: self.runs,
        };
        let (report, trace) = case.traced();
        let done = expand_traced(done.as_bytes(), &self.set, &group.ample);
        self.try_case(&case, report.clone(), false)?;
        if !number.is_multiple_of(group.tight) {
            return Ok(());
        }
        let settings = tight(&group.ample, (report, trace), done);
        for (number, setting) in settings.into_iter().enumerate() {
            case.setting = setting;
            case.salt = self.runs;
            let expected = case.expected();
            self.try_case(&case, expected, group.fenced && number == 0)?;
        }
        Ok(())
    }

    fn try_case(&mut self, case: &Case, expected: Report, fenced: bool) -> Result<(), String> {
        self.runs += 1;
        let mut verdict = self.arenas.try_case(case, &expected);
        if fenced {
            verdict = verdict.and_then(|()| self.fences.try_case(case));
        }
        if expected.steps <= MOST_STEPS {
            let walked = self
                .ways
                .walk(&case.text, &case.set, &case.setting, &expected);
            verdict = verdict.and(walked);
        }
        verdict.map_err(|what| {
            let line = line("copies", case, expected);
            let shown = if line.len() <= PRINTED { &line } else { "" };
            format!("{what}\n{shown}")
        })
    }

    fn every_way_is_taken(&self) -> bool {
        let counts = self.ways.counts();
        let never = counts.iter().filter(|(_, count)| *count == 0);
        // counted to the end, as above
        never.map(|(way, _)| println!("never taken: {way}")).count() == 0
    }
}

/// Just what a run with ample room needs, and one byte less of each buffer; as much of buffer 3 as the
/// call in question needs, and one byte less; and a step less than it takes to get there, so that this
/// call is not made, and so many that nothing behind it is.
fn tight(
    ample: &Setting,
    (report, trace): (Report, Trace),
    (done, until): (Report, Trace),
) -> Vec<Setting> {
    let mut settings = exact_and_shorter(&Setting {
        lengths: trace.peaks,
        // a refused step needs its place in the budget too
        budget: report.steps + u32::from(report.number > 1),
    });
    let needed = until.peaks[2];
    settings.extend((needed.saturating_sub(1)..=needed).map(|room| {
        let mut setting = ample.clone();
        setting.lengths[2] = room;
        setting
    }));
    // without the step that ends a run
    let steps = done.steps - u32::from(done.number == 0);
    settings.extend((steps.saturating_sub(1)..=steps).map(|budget| Setting {
        budget,
        ..ample.clone()
    }));
    settings
}
