//! Each of the 27 names in every place where a name may stand, before all that may follow it: the
//! archive against the model, with ample and with tight rooms. Where include and sinclude stand, a set
//! has what they ask for, or has no items.

use crate::arenas::Arenas;
use crate::case::{line, Case};
use model::generate::names::{filled, Place, FOLLOWERS, PLACES};
use model::generate::setting::exact_and_shorter;
use model::house::{write, Item};
use model::predefined::Predefined;
use model::ways::{keeps_bare_call, Use, Ways};
use model::{Report, Setting, Trace, NO_ITEMS};

/// Gives the cases that passed and failed. A place that does not show what it is there for fails
/// too, and so does a way that is never taken.
pub fn every_name() -> (usize, usize) {
    let mut table = Table {
        arenas: Arenas::new(),
        all: Ways::default(),
        texts: 0,
        passed: 0,
        failed: 0,
    };
    PLACES.iter().for_each(|place| table.try_place(place));
    for (way, _) in table.all.counts().iter().filter(|(_, count)| *count == 0) {
        println!("never reached: {way}");
        table.failed += 1;
    }
    (table.passed, table.failed)
}

struct Table {
    arenas: Arenas,
    all: Ways,
    texts: u32,
    passed: usize,
    failed: usize,
}

impl Table {
    fn try_place(&mut self, (text, uses): &Place) {
        let mut here = Ways::default();
        for which in Predefined::ALL {
            for set in sets(which) {
                for follower in FOLLOWERS {
                    self.try_text(&mut here, &filled(text, which.name(), follower), &set);
                }
            }
        }
        for (how, which) in expected(text, uses) {
            if here.used(how, which) == 0 {
                println!("{text}: {} is never {how:?} there", which.name());
                self.failed += 1;
            }
        }
        self.all.add(&here);
    }

    fn try_text(&mut self, ways: &mut Ways, text: &str, set: &[u8]) {
        let mut case = Case {
            text: text.into(),
            set: set.to_vec(),
            setting: Setting::ample(),
            salt: self.passed as u64,
        };
        let (report, trace) = case.traced();
        let tight = tight(&report, &trace, self.texts);
        self.texts += 1;
        self.try_case(ways, &case, report);
        for setting in tight {
            case.setting = setting;
            case.salt = self.passed as u64;
            self.try_case(ways, &case, case.expected());
        }
    }

    fn try_case(&mut self, ways: &mut Ways, case: &Case, expected: Report) {
        let walked = ways.walk(&case.text, &case.set, &expected);
        match self.arenas.try_case(case, &expected).and(walked) {
            Ok(()) => self.passed += 1,
            Err(what) => {
                let text = String::from_utf8_lossy(&case.text);
                println!("{text:?}: {what}\n{}", line("words", case, expected));
                self.failed += 1;
            }
        }
    }
}

/// The sets that are lent with a name: those who include get one with what follows them, too.
fn sets(which: Predefined) -> Vec<Vec<u8>> {
    let items = [Item::new(b"2", b"<2>"), Item::new(b"", b"`n,one'")];
    match which {
        Predefined::Include | Predefined::Sinclude => vec![NO_ITEMS.to_vec(), write(&items)],
        _ => vec![NO_ITEMS.to_vec()],
    }
}

/// Just what a run with ample room needs, one byte less of each buffer, and fewer steps, how many
/// fewer being different from text to text.
fn tight(report: &Report, trace: &Trace, number: u32) -> Vec<Setting> {
    let exact = Setting {
        lengths: trace.peaks,
        budget: report.steps,
    };
    let mut settings = exact_and_shorter(&exact);
    if report.steps > 0 {
        settings.push(Setting {
            budget: number % report.steps,
            ..exact
        });
    }
    settings
}

/// How each name must be used in a place. popdef that is covered can't uncover itself.
fn expected(place: &str, uses: &[Use]) -> Vec<(Use, Predefined)> {
    let names = |how: Use| Predefined::ALL.into_iter().map(move |which| (how, which));
    let all = uses.iter().copied().flat_map(names);
    all.filter(|(how, which)| match how {
        _ if *which == Predefined::Popdef && place.contains("popdef(") => *how == Use::Text,
        Use::Plain => !keeps_bare_call(*which),
        Use::Bare => keeps_bare_call(*which),
        _ => true,
    })
    .collect()
}
