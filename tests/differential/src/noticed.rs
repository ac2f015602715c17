//! Whether the comparisons notice what they are there for: calls that went well are tampered with,
//! each time in one place.

use crate::archive::{call, given, lengths, AREAS, SET, TEXT};
use crate::arenas::Arenas;
use crate::case::case;
use crate::demand3::{check, Ran, Sentence};
use crate::fences::{Fences, Side};
use crate::histories;
use crate::judge::judge;
use crate::noted::ways_noted;
use crate::supervise::{libc, supervise, End};
use crate::windows::{lent_parts, Before, Seen};
use model::random::Random;
use model::Setting;

/// How many calls are tampered with, and the seed of their cases.
const CALLS: u64 = 500;
pub const SEED: u64 = 7;

/// Every way of tampering is noticed, and each was tried.
pub fn all_noticed() -> bool {
    // not one short-circuit: every finding is to be printed
    let bytes = bytes_noticed();
    let sentences = sentences_noticed();
    let numbers = histories::sentences_noticed();
    let ways = ways_noted();
    let case = case(SEED, 0);
    let fences = fences_trap(&lengths(&case), &[TEXT, SET]);
    bytes && sentences && numbers && ways && fences
}

/// One bit of one lent byte, of one surrounding byte or of the returned number.
fn bytes_noticed() -> bool {
    let mut arenas = Arenas::new();
    calls_noticed(|index, tried| {
        let case = case(SEED, index);
        let expected = case.expected();
        let windows = arenas.windows(&case);
        let before = Before::fill(&windows, &given(&case), &arenas.noise, case.salt);
        // SAFETY: the windows lie in the arenas, and the report is aligned.
        let returned = unsafe { call(&lent_parts(&windows), case.setting.budget) };
        let judge = |returned, seen: &[Seen; AREAS]| judge(returned, seen, &expected);
        tamper(index, returned, &before.seen(&windows), judge, tried)
    })
}

/// How often what is around each area was tampered with, and what is lent there.
pub type Tried<const N: usize> = [[u64; 2]; N];

/// Tampers with calls, each in one way after the other, and with all areas often enough.
pub fn calls_noticed<const N: usize>(
    mut tampered: impl FnMut(u64, &mut Tried<N>) -> Result<(), String>,
) -> bool {
    let mut tried = [[0; 2]; N];
    let good = (0..CALLS).all(|index| {
        let verdict = tampered(index, &mut tried);
        if let Err(what) = &verdict {
            println!("case {index} of seed {SEED}: {what}");
        }
        verdict.is_ok()
    });
    good && tried.iter().flatten().all(|&count| count > CALLS / 10)
}

/// Tampers with a call that went well, in what it returned, and in and around every area.
pub fn tamper<const N: usize>(
    index: u64,
    returned: u32,
    seen: &[Seen; N],
    judge: impl Fn(u32, &[Seen; N]) -> Result<(), String>,
    tried: &mut Tried<N>,
) -> Result<(), String> {
    judge(returned, seen)?;
    if judge(returned + 1, seen).is_ok() {
        return Err("another number returned is not noticed".to_string());
    }
    let mut random = Random::numbered(SEED, index);
    for area in 0..N {
        let (from, to) = (seen[area].lent.start, seen[area].lent.end);
        let around = random.pick(&[0, from - 1, to, seen[area].after.len() - 1]);
        let inside = (from < to).then(|| random.between(from, to - 1));
        for (kind, at) in [Some(around), inside].into_iter().enumerate() {
            let Some(at) = at else { continue };
            let mut bytes = seen[area].after.to_vec();
            bytes[at] ^= 1 << random.below(8);
            let mut tampered = seen.clone();
            tampered[area].after = &bytes;
            if judge(returned, &tampered).is_ok() {
                return Err(format!(
                    "a changed byte {at} of the window of area {area} is not noticed"
                ));
            }
            tried[area][kind] += 1;
        }
    }
    Ok(())
}

/// Pairs of runs that violate one sentence of the third demand each.
fn sentences_noticed() -> bool {
    let tight = Setting {
        lengths: [5; 7],
        budget: 9,
    };
    let more_room = Setting {
        lengths: [5, 5, 6, 5, 5, 5, 5],
        ..tight.clone()
    };
    let ran = |numbers: [u32; 6]| Ran {
        numbers,
        output: vec![b'a'; numbers[4] as usize],
        errors: vec![b'e'; numbers[5] as usize],
    };
    let mut other_bytes = ran([0, 0, 7, 3, 1, 1]);
    other_bytes.errors[0] = b'f';
    let cases = [
        (Sentence::Same, ran([0, 0, 7, 3, 1, 1]), other_bytes),
        (
            Sentence::Same,
            ran([0, 0, 7, 3, 1, 1]),
            ran([0, 0, 8, 3, 1, 1]),
        ),
        (
            Sentence::Same,
            ran([7, 0, 7, 3, 0, 0]),
            ran([7, 0, 7, 4, 0, 0]),
        ),
        (
            Sentence::AsFar,
            ran([4, 3, 7, 3, 0, 0]),
            ran([0, 0, 6, 3, 1, 1]),
        ),
        (
            Sentence::AsFar,
            ran([3, 0, 9, 3, 0, 0]),
            ran([4, 1, 8, 3, 0, 0]),
        ),
        (
            Sentence::SameRefusal,
            ran([4, 2, 7, 3, 0, 0]),
            ran([0, 0, 8, 3, 1, 1]),
        ),
        (
            Sentence::SameRefusal,
            ran([3, 0, 9, 3, 0, 0]),
            ran([3, 0, 9, 4, 0, 0]),
        ),
    ];
    let settings = [tight, more_room];
    cases.iter().all(|(sentence, first, second)| {
        let noticed = check(&settings, first, second) == Err(*sentence);
        if !noticed {
            println!("{first:?} and {second:?} are not seen to violate {sentence:?}");
        }
        noticed
    })
}

/// One byte read outside of each area traps on both sides, and one byte written to each of those
/// that are read-only.
pub fn fences_trap<const N: usize>(lengths: &[usize; N], read_only: &[usize]) -> bool {
    let trapped = |name: &str, touch: &dyn Fn(&Fences<N>)| {
        let end = supervise(|_| {
            touch(&Fences::new());
            true
        });
        let trapped = matches!(
            end,
            End::Killed {
                signal: libc::SIGSEGV,
                ..
            }
        );
        if !trapped {
            println!("{name} does not trap");
        }
        trapped
    };
    // SAFETY: none of these; they must trap.
    (0..N).all(|area| {
        trapped("a byte behind the end", &|fences| unsafe {
            let (start, length) = fences.windows(lengths, Side::End)[area].lent();
            start.add(length).read_volatile();
        }) && trapped("a byte before the beginning", &|fences| unsafe {
            let (start, _) = fences.windows(lengths, Side::Beginning)[area].lent();
            start.sub(1).read_volatile();
        })
    }) && read_only.iter().all(|&area| {
        trapped("a write to what is only read", &|fences| {
            let (start, _) = fences.windows(lengths, Side::Beginning)[area].lent();
            fences.read_only(&[area], || unsafe { start.write_volatile(0) });
        })
    })
}
