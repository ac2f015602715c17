//! Lengths above 4,294,967,295, of which little is accessible.

use super::archive::{call, given, lengths, AREAS, NAME, SET, TEXT};
use super::judge::judge;
use crate::huge::HUGE;
use crate::noise::Noise;
use crate::supervise::libc::{self, MAP_NORESERVE, MAP_PRIVATE, PROT_NONE, PROT_READ, PROT_WRITE};
use crate::supervise::try_each;
use crate::windows::{lent_parts, Before, Seen, Window};
use model::answer::Refusal;
use model::sheet::case::{Asked, Case, Outcome, Template};
use model::sheet::{Expanded, Line, Reading};
use model::{Setting, NO_ITEMS};

/// How much is accessible at the front of each area and in its middle, a multiple of every usual page
/// size; and where that middle begins.
const ACCESSIBLE: usize = 65_536;
const MIDDLE: usize = 1 << 32;

/// A case, the area that is lent with more bytes than it has there, and how many. Of a question, which
/// the model cannot be asked, the line that is to be found.
struct Huge {
    case: Case,
    area: usize,
    length: usize,
    line: Option<u32>,
}

/// A run with a huge length is refused as ever, and a huge text is read as far as its first bad line.
/// Names are found at the front of a huge text and in its middle, and no line has a huge name.
pub fn huge_lengths() -> bool {
    let areas = std::array::from_fn(|_| area());
    let all: Vec<Huge> = runs().chain(texts()).chain(questions()).collect();
    let noise = Noise::new();
    try_each(
        0..all.len() as u64,
        |index| try_case(&areas, &all[index as usize], &noise),
        |index, what| {
            let huge = &all[index as usize];
            println!("area {} of {} bytes: {what}", huge.area, huge.length);
            println!("  {:?}", huge.case.asked);
        },
    )
}

fn area() -> *mut u8 {
    let area = libc::map(HUGE[2], PROT_NONE, MAP_PRIVATE | MAP_NORESERVE);
    for part in [0, MIDDLE] {
        // SAFETY: parts of the mapping just made.
        let done =
            unsafe { libc::mprotect(area.add(part).cast(), ACCESSIBLE, PROT_READ | PROT_WRITE) };
        assert_eq!(done, 0, "mprotect failed");
    }
    area
}

/// One area after the other is huge.
fn runs() -> impl Iterator<Item = Huge> {
    let lengths = |area| HUGE.iter().map(move |&length| (area, length));
    (TEXT..=SET).flat_map(lengths).map(|(area, length)| {
        let refusal = match area {
            SET => Refusal::BadSet,
            _ => Refusal::Lend,
        };
        let asked = Asked::Sheet(Template {
            text: b"a=len(a)".to_vec(),
            set: NO_ITEMS.to_vec(),
            setting: Setting {
                lengths: [100; 7],
                budget: 100,
            },
            behind: Vec::new(),
        });
        let expected = Outcome::Sheet(Expanded {
            report: refusal.report(0, 0),
            sheet: None,
        });
        Huge {
            case: Case { asked, expected },
            area,
            length,
            line: None,
        }
    })
}

/// In 32 bits, the length of each text is that of its first line.
fn texts() -> impl Iterator<Item = Huge> {
    let many: String = (0..300).map(|number| format!("n{number}=1\n")).collect();
    let texts = ["a=1\n?\n", "a=1\na=2\n", &many].map(|text| text.as_bytes().to_vec());
    texts.into_iter().map(|text| {
        let first = text.iter().position(|&byte| byte == b'\n');
        Huge {
            case: Case::new(Asked::Read(text)),
            area: TEXT,
            length: MIDDLE + first.expect("it has lines") + 1,
            line: None,
        }
    })
}

/// A text with a name at its front and zeros in its middle is asked for a name of one byte at a place.
fn questions() -> impl Iterator<Item = Huge> {
    let question = |place: usize, name: &[u8]| {
        let (lines, text, name) = (vec![line(place)], b"a=1\n".to_vec(), name.to_vec());
        Case::new(Asked::Question { lines, text, name })
    };
    [
        (question(0, b"a"), TEXT, MIDDLE, 0),
        (question(MIDDLE + 9, b"\0"), TEXT, MIDDLE + 10, 0),
        (question(MIDDLE + 9, b"\0"), TEXT, MIDDLE + 9, 256),
        (question(MIDDLE, b"a"), TEXT, MIDDLE + 10, 256),
        (question(0, b"a"), NAME, MIDDLE + 1, 256),
    ]
    .into_iter()
    .map(|(case, area, length, line)| Huge {
        case,
        area,
        length,
        line: Some(line),
    })
}

fn line(place: usize) -> Line {
    Line {
        place: place as u64,
        length: 1,
        reading: Reading::Number(1),
    }
}

fn try_case(areas: &[*mut u8; AREAS], huge: &Huge, noise: &Noise) -> Result<(), String> {
    let lengths = lengths(&huge.case);
    let windows = std::array::from_fn(|area| Window {
        start: areas[area],
        length: ACCESSIBLE,
        lent: 0..lengths[area],
    });
    let before = Before::fill(&windows, &given(&huge.case, 0), noise, 0);
    let mut lent = lent_parts(&windows);
    lent[huge.area].1 = huge.length;
    // SAFETY: as many bytes are there as is said, if nobody touches those that are not accessible.
    let returned = unsafe { call(&huge.case.asked, &lent) };
    let seen = before.seen(&windows);
    match huge.line {
        Some(line) if returned == line => all_kept(&seen),
        Some(line) => Err(format!("line {returned} instead of {line}")),
        None => judge(returned, &seen, &huge.case),
    }
}

fn all_kept(seen: &[Seen; AREAS]) -> Result<(), String> {
    match seen.iter().position(|seen| seen.before != seen.after) {
        Some(area) => Err(format!("area {area} was changed")),
        None => Ok(()),
    }
}
