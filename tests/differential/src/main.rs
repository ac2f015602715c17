//! The archive libquenhovach.a against the independent model of document 01 (tests/model), on random
//! texts, sets and settings, and of the sheet, the index of lines and the histories of document 02.
//!
//! Each command ends with a line 'N passed, M failed' and has exit status 0 only if M is 0.
//!
//! - `differential compare SEED COUNT [FIRST]`: random cases; every number of the report and every
//!   byte of the text, of the set, of the seven buffers and of 16 guard bytes around each of them is
//!   compared with what the model's answer asks. From 20,000 cases on every answer, every detail of 4
//!   and 5, every macro and every way of requests 1, 2, 3 and 7 of 02 must be reached.
//! - `differential demand3 SEED COUNT [FIRST]`: the letter's third demand on random pairs of
//!   settings, without the model.
//! - `differential fences SEED COUNT [FIRST]`: random cases with what is lent against inaccessible
//!   pages.
//! - `differential bytes`: each of the 256 bytes in each place where a reader asks for its class.
//! - `differential words`: each of the 27 names in every place, before all that may follow it.
//! - `differential comments`: comments that nothing closes, in every place, under marks of every
//!   kind.
//! - `differential copies`: each of the 27 meanings copied onto names of each kind, texts of all
//!   lengths copied from each place to each, and tables of texts and copies in every order; every way
//!   of request 7 must be taken.
//! - `differential buckets SEED COUNT [FIRST]`: random tables of up to 600 definitions, many of one
//!   bucket, changed, used and asked for in any order, with ample and with tight rooms. From 200 tables
//!   on every way of request 9 must be taken.
//! - `differential orders`: names of one bucket, a predefined one among them, changed in every order;
//!   tables of 65,536 definitions.
//! - `differential sets`: good sets with each of their bytes changed, removed or doubled, cut at each
//!   place, of all lengths at which chunks turn, and about as long as may be; many of them between
//!   inaccessible pages too.
//! - `differential histories SEED COUNT [FIRST]`: random cases, half of them made for it: what the
//!   archive writes, by the numbers that the model's history gives to bytes, and all that `compare` looks
//!   at. From 20,000 cases on every way of request 8 must be taken.
//! - `differential histories-vectors FILE`: the lines of a table like tests/histories.tsv.
//! - `differential sheets SEED COUNT [FIRST]`: random cases of the sheet: texts that are read, that are
//!   expanded and read, and lines of any kind that are asked for a name; every number, every byte of
//!   the seven buffers, every word of the sheet and 16 guard bytes around each of them. From 20,000
//!   cases on every way of request 4 must be taken.
//! - `differential sheets-decimals SEED COUNT [FIRST]`: random sheets of 256 decimals.
//! - `differential sheets-fences SEED COUNT [FIRST]`: random cases of the sheet against inaccessible
//!   pages.
//! - `differential sheets-vectors FILE`: the lines of a table like tests/sheets.tsv.
//! - `differential lines SEED COUNT [FIRST]`: random cases of the index of lines; the answer, the
//!   line or start, every word and total and 16 guard bytes around each of them. From 20,000 cases
//!   on every way of request 6 must be taken.
//! - `differential lines-counted`: every place and every line of dense and thin texts, against
//!   counting through the text, without the model.
//! - `differential lines-fences SEED COUNT [FIRST]`: random cases of the index against inaccessible
//!   pages.
//! - `differential lines-vectors FILE`: the lines of a table like tests/lines.tsv.
//! - `differential huge`: lengths above 4,294,967,295.
//! - `differential memcheck SEED COUNT`: random cases in blocks of the heap, to be run under
//!   valgrind; `sheets-memcheck SEED COUNT [FIRST]` for the sheet, `lines-memcheck SEED COUNT [FIRST]`
//!   for the index. `memcheck-outside`, `memcheck-undefined`, `sheets-memcheck-undefined` and
//!   `lines-memcheck-undefined` do the same with a mistake that valgrind must find.
//! - `differential vectors FILE`: the lines of a table like tests/vectors.tsv.
//! - `differential cases SEED COUNT FILE OUT`: writes the lines of a table like tests/vectors.tsv, COUNT
//!   tables of many names and 20 * COUNT random cases to a file, for plain_search.py.
//! - `differential noticed`: the comparisons notice one changed byte or number, and what request 8 says
//!   a number that is changed, missing, there twice, lost and there, or in another's place; the ways are
//!   told apart, and the inaccessible pages trap; `sheets-noticed` for the sheet, `lines-noticed` for the
//!   index.
//!
//! Case number FIRST (default 0) of a seed is always the same: a failing one is repeated with COUNT
//! 1. It is also printed as a line of a table, and a smaller one with it.

mod archive;
mod arenas;
mod buckets;
mod case;
mod comments;
mod compare;
mod copies;
mod demand3;
mod fences;
mod histories;
mod huge;
mod judge;
mod lines;
mod memcheck;
mod names;
mod noise;
mod noted;
mod noticed;
mod readers;
mod sets;
mod sheets;
mod shrink;
mod supervise;
mod tally;
mod windows;
mod written;

use memcheck::Mistake;
use std::process::ExitCode;

const USE: &str =
    "use: differential compare|buckets|demand3|fences|histories|sheets|sheets-decimals|sheets-fences|sheets-memcheck|\
    lines|lines-fences|lines-memcheck SEED COUNT [FIRST], \
    memcheck SEED COUNT, vectors|histories-vectors|sheets-vectors|lines-vectors FILE, cases SEED COUNT FILE OUT, \
    bytes, words, comments, copies, orders, sets, lines-counted, huge, noticed, sheets-noticed or lines-noticed";

fn main() -> ExitCode {
    let arguments: Vec<String> = std::env::args().skip(1).collect();
    let words: Vec<&str> = arguments.iter().map(String::as_str).collect();
    let Some((passed, failed)) = run(&words) else {
        eprintln!("{USE}");
        return ExitCode::from(2);
    };
    println!("{passed} passed, {failed} failed");
    ExitCode::from(u8::from(failed > 0))
}

/// Runs a command; nothing if there is no such command.
fn run(words: &[&str]) -> Option<(usize, usize)> {
    let one = |verdict: bool| Some((usize::from(verdict), usize::from(!verdict)));
    match *words {
        ["vectors", path] => Some(compare::table(&std::fs::read_to_string(path).ok()?)),
        ["cases", seed, count, path, file] => {
            let (seed, count) = (seed.parse().ok()?, count.parse().ok()?);
            let rows = std::fs::read_to_string(path).ok()?;
            one(written::write_cases(seed, count, &rows, file).is_ok())
        }
        ["noticed"] => one(noticed::all_noticed()),
        ["bytes"] => Some(readers::every_byte()),
        ["words"] => Some(names::every_name()),
        ["comments"] => Some(comments::every_comment()),
        ["copies"] => one(copies::every_copy()),
        ["orders"] => {
            // both are tried, whatever the first comes to
            let orders = buckets::every_order();
            one(buckets::largest_tables() && orders)
        }
        ["sets"] => one(sets::every_set()),
        ["huge"] => {
            let sheets = sheets::huge_lengths();
            one(huge::huge_lengths() && lines::huge_lengths() && sheets)
        }
        ["histories-vectors", path] => Some(histories::table(&std::fs::read_to_string(path).ok()?)),
        ["sheets-vectors", path] => Some(sheets::table(&std::fs::read_to_string(path).ok()?)),
        ["sheets-noticed"] => one(sheets::all_noticed()),
        ["lines-vectors", path] => Some(lines::table(&std::fs::read_to_string(path).ok()?)),
        ["lines-counted"] => one(lines::every_place()),
        ["lines-noticed"] => one(lines::all_noticed()),
        [command, seed, count] => random(command, seed, count, "0").and_then(one),
        [command, seed, count, first] => random(command, seed, count, first).and_then(one),
        _ => None,
    }
}

fn random(command: &str, seed: &str, count: &str, first: &str) -> Option<bool> {
    let (seed, count, first) = (seed.parse().ok()?, count.parse().ok()?, first.parse().ok()?);
    if count == 0 {
        return None;
    }
    match command {
        "compare" => Some(compare::random_cases(seed, count, first)),
        "buckets" => Some(buckets::random_tables(seed, count, first)),
        "demand3" => Some(demand3::random_pairs(seed, count, first)),
        "fences" => Some(fences::random_cases(seed, count, first)),
        "histories" => Some(histories::random_cases(seed, count, first)),
        "memcheck" => Some(memcheck::random_cases(seed, count, Mistake::None)),
        "memcheck-outside" => Some(memcheck::random_cases(seed, count, Mistake::Outside)),
        "memcheck-undefined" => Some(memcheck::random_cases(seed, count, Mistake::Undefined)),
        "sheets" => Some(sheets::random_cases(seed, count, first)),
        "sheets-decimals" => Some(sheets::random_decimals(seed, count, first)),
        "sheets-fences" => Some(sheets::between_fences(seed, count, first)),
        "sheets-memcheck" => Some(sheets::under_valgrind(seed, count, first, false)),
        "sheets-memcheck-undefined" => Some(sheets::under_valgrind(seed, count, first, true)),
        "lines" => Some(lines::random_cases(seed, count, first)),
        "lines-fences" => Some(lines::between_fences(seed, count, first)),
        "lines-memcheck" => Some(lines::under_valgrind(seed, count, first, false)),
        "lines-memcheck-undefined" => Some(lines::under_valgrind(seed, count, first, true)),
        _ => None,
    }
}
