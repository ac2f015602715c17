//! Lengths and counts that are good ones in 32 bits.

use super::archive::{call, given, lengths, AREAS, TEXT, TOTAL, TOTALS, WORD, WORDS};
use super::judge::judge;
use crate::huge::HUGE;
use crate::noise::Noise;
use crate::supervise::libc::{self, MAP_NORESERVE, MAP_PRIVATE, PROT_NONE, PROT_READ, PROT_WRITE};
use crate::supervise::try_each;
use crate::windows::{lent_parts, Before, Lent, Window};
use model::lines::case::{Asked, Case, Outcome};
use model::lines::Answer;

/// The part of each area that is accessible, a multiple of every usual page size.
const FRONT: usize = 65_536;
/// A text of two lines, and its index.
const TEXT_OF_TWO: &[u8] = b"a\nb";
const WORD_OF_TWO: u64 = 2;
const TOTAL_OF_TWO: u32 = 0;

/// A case, and the areas that are lent otherwise than it says.
struct Huge {
    case: Case,
    lent: Vec<(usize, Lent)>,
}

/// A text of huge length is refused before anything is read or written, and the index of a small one
/// may stand at the front of huge room.
pub fn huge_lengths() -> bool {
    let nowhere = inaccessible();
    let areas = std::array::from_fn(|_| with_front());
    let too_long = HUGE.iter().flat_map(|&length| too_long(nowhere, length));
    let roomy = HUGE.iter().flat_map(|&count| roomy(&areas, count));
    let all: Vec<Huge> = too_long.chain(roomy).collect();
    let noise = Noise::new();
    try_each(
        0..all.len() as u64,
        |index| try_case(&areas, &all[index as usize], &noise),
        |index, what| {
            let Huge { case, lent } = &all[index as usize];
            println!("{:?} with {lent:?} (0 is the text): {what}", case.asked);
        },
    )
}

/// Room for as many words as ever, none of it accessible.
fn inaccessible() -> *mut u8 {
    libc::map(HUGE[2] * WORD, PROT_NONE, MAP_PRIVATE | MAP_NORESERVE)
}

/// As much room, with a front that is accessible.
fn with_front() -> *mut u8 {
    let area = inaccessible();
    // SAFETY: the front of the mapping just made.
    let done = unsafe { libc::mprotect(area.cast(), FRONT, PROT_READ | PROT_WRITE) };
    assert_eq!(done, 0, "mprotect failed");
    area
}

/// A text too long, of which nothing is accessible, and no word or total either.
fn too_long(nowhere: *mut u8, length: usize) -> [Huge; 3] {
    let lent = vec![
        (TEXT, (nowhere, length)),
        (WORDS, (nowhere, length * WORD)),
        (TOTALS, (nowhere, length * TOTAL)),
    ];
    let (words, totals) = (vec![WORD_OF_TWO], vec![TOTAL_OF_TWO]);
    questions(length).map(|asked| Huge {
        case: Case {
            asked,
            words: words.clone(),
            totals: totals.clone(),
            expected: Outcome {
                answer: Answer::TextTooLong,
                words: words.clone(),
                totals: totals.clone(),
            },
        },
        lent: lent.clone(),
    })
}

/// A small text, with huge room for its words or for its totals.
fn roomy(areas: &[*mut u8; AREAS], count: usize) -> Vec<Huge> {
    let rooms = [(WORDS, count * WORD), (TOTALS, count * TOTAL)];
    let huge = |(area, bytes): (usize, usize)| {
        questions(TEXT_OF_TWO.len()).map(|asked| Huge {
            case: Case::new(asked, vec![WORD_OF_TWO], vec![TOTAL_OF_TWO]),
            lent: vec![(area, (areas[area], bytes))],
        })
    };
    rooms.into_iter().flat_map(huge).collect()
}

fn questions(length: usize) -> [Asked; 3] {
    [
        Asked::Build(TEXT_OF_TWO.to_vec()),
        Asked::Line { length, place: 2 },
        Asked::Start { length, line: 2 },
    ]
}

fn try_case(areas: &[*mut u8; AREAS], huge: &Huge, noise: &Noise) -> Result<(), String> {
    let lengths = lengths(&huge.case);
    let windows = std::array::from_fn(|area| Window {
        start: areas[area],
        length: FRONT,
        lent: 0..lengths[area],
    });
    let before = Before::fill(&windows, &given(&huge.case), noise, 0);
    let mut lent = lent_parts(&windows);
    for &(area, otherwise) in &huge.lent {
        lent[area] = otherwise;
    }
    // SAFETY: as many bytes are there as is said, if nobody touches those that are not accessible.
    let returned = unsafe { call(&huge.case.asked, &lent) };
    judge(returned, &before.seen(&windows), &huge.case)
}
