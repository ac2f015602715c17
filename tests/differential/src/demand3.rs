//! The letter's third demand on random pairs of settings: its three sentences, checked as
//! statements about two calls with one set.

use crate::arenas::Arenas;
use crate::case::Case;
use crate::judge::{report, reported};
use crate::supervise::{supervise, End, Progress};
use crate::tally::ENOUGH;
use model::generate::{pair, Pair, Scale};
use model::random::Random;
use model::table::hex;
use model::{Report, Setting, ANSWERS};

/// The answers of runs that were stopped by their setting.
const SPENT: u32 = 3;
const ROOM: u32 = 4;
/// After so many violations a run stops.
const PATIENCE: usize = 3;

/// What a run gives: "number, detail, completed steps, place and both counts" and "written bytes".
#[derive(Clone, Debug, PartialEq, Eq)]
pub struct Ran {
    pub numbers: [u32; 6],
    pub output: Vec<u8>,
    pub errors: Vec<u8>,
}

/// Which of the three sentences spoke of a pair.
#[derive(Clone, Copy, Debug, PartialEq, Eq)]
pub enum Sentence {
    /// "If the first run ends in anything but "room" or "spent", the second gives the same numbers
    /// .. and the same written bytes."
    Same,
    /// "If the first ends in one of those two after n completed steps, the second completes at
    /// least n."
    AsFar,
    /// "If also what stopped the first .. is equal in both settings, the second gives the same
    /// refusal, number for number."
    SameRefusal,
}

/// Checks the three sentences. Gives the last one that spoke of the pair, or the one that is
/// violated.
pub fn check(settings: &[Setting; 2], first: &Ran, second: &Ran) -> Result<Sentence, Sentence> {
    let [number, detail, steps, ..] = first.numbers;
    let holds = |sentence, holds| if holds { Ok(sentence) } else { Err(sentence) };
    if number != ROOM && number != SPENT {
        return holds(Sentence::Same, first == second);
    }
    holds(Sentence::AsFar, second.numbers[2] >= steps)?;
    let stopped_by = settings.each_ref().map(|setting| match number {
        ROOM => setting.lengths[detail as usize - 1],
        _ => setting.budget as usize,
    });
    if stopped_by[0] == stopped_by[1] {
        return holds(Sentence::SameRefusal, first.numbers == second.numbers);
    }
    Ok(Sentence::AsFar)
}

/// Makes pair `index` of a seed, and two salts, so that the lent memory of the runs differs.
fn salted_pair(seed: u64, index: u64) -> (Pair, [u64; 2]) {
    let mut random = Random::numbered(seed, index);
    let pair = pair(&mut random, Scale::Full);
    (pair, [random.bits(), random.bits()])
}

/// Runs the text of a pair, with its set, in noise.
fn run(arenas: &mut Arenas, pair: &Pair, setting: &Setting, salt: u64) -> Ran {
    let case = Case {
        text: pair.text.clone(),
        set: pair.set.clone(),
        setting: setting.clone(),
        salt,
    };
    arenas.called(&case, |_, seen| {
        let Report { output, errors, .. } = report(seen);
        Ran {
            numbers: reported(seen),
            output,
            errors,
        }
    })
}

pub fn random_pairs(seed: u64, count: u64, first: u64) -> bool {
    let end = supervise(|progress| check_all(progress, seed, count, first));
    if let End::Killed { index, .. } = end {
        println!("pair {index} of seed {seed}: {}", end.shown());
        println!("  repeat it: differential demand3 {seed} 1 {index}");
    }
    end == End::Verdict(true)
}

fn check_all(progress: &Progress, seed: u64, count: u64, first: u64) -> bool {
    let mut arenas = Arenas::new();
    let mut spoke = [0u64; 3];
    let mut answers = [0u64; ANSWERS];
    let mut failed = 0;
    for index in first..first + count {
        progress.at(index);
        let (pair, salts) = salted_pair(seed, index);
        let [one, two] = [0, 1].map(|i| run(&mut arenas, &pair, &pair.settings[i], salts[i]));
        answers[(one.numbers[0] as usize).min(ANSWERS - 1)] += 1;
        match check(&pair.settings, &one, &two) {
            Ok(sentence) => spoke[sentence as usize] += 1,
            Err(sentence) => {
                tell(seed, index, sentence, &pair, &one, &two);
                failed += 1;
                if failed == PATIENCE {
                    return false;
                }
            }
        }
    }
    println!("first answers 0 to {}: {answers:?}", ANSWERS - 1);
    println!(
        "same answer {}, as far {}, same refusal {}",
        spoke[0], spoke[1], spoke[2]
    );
    let all = spoke.iter().chain(&answers).all(|&count| count > 0);
    if count >= ENOUGH && !all {
        println!("some sentence or answer was never reached");
        return false;
    }
    failed == 0
}

fn tell(seed: u64, index: u64, sentence: Sentence, pair: &Pair, one: &Ran, two: &Ran) {
    println!("pair {index} of seed {seed}: the sentence {sentence:?} is violated");
    println!("  repeat it: differential demand3 {seed} 1 {index}");
    println!("  text {}, set {}", hex(&pair.text), hex(&pair.set));
    for (setting, ran) in pair.settings.iter().zip([one, two]) {
        println!(
            "  {setting:?} gives {:?}, output {}, error text {}",
            ran.numbers,
            hex(&ran.output),
            hex(&ran.errors)
        );
    }
}
