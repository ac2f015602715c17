//! Cases written to a file, for plain_search.py, which has them run by two builds.

use crate::buckets;
use crate::case::{case, Case};
use model::table::read;
use std::fs::File;
use std::io::{BufWriter, Result, Write};

/// Beside each table there are so many random cases.
const OTHERS: u64 = 20;

/// Writes the lines of a table like tests/vectors.tsv, `count` tables of many names with their settings,
/// and random cases. How many cases there are is printed.
pub fn write_cases(seed: u64, count: u64, rows: &str, path: &str) -> Result<()> {
    let lines = rows.lines().filter(|line| !line.starts_with('#'));
    let rows = lines.map(|line| read(line).expect("a line of a table"));
    let rows = rows.map(|row| Case {
        text: row.text,
        set: row.set,
        setting: row.setting,
        salt: 0,
    });
    let tables = (0..count).flat_map(|index| buckets::cases(seed, index));
    let others = (0..OTHERS * count).map(|index| case(seed, index));
    let all = rows.chain(tables).chain(others);
    let mut file = BufWriter::new(File::create(path)?);
    let mut written = 0;
    // what is longer than may be lent is refused before any search
    for case in all.filter(|case| case.is_lendable()) {
        write_case(&mut file, &case)?;
        written += 1;
    }
    println!("{written} cases");
    file.flush()
}

/// The budget, the seven lengths and those of text and set, a newline, and the bytes of both.
fn write_case(file: &mut impl Write, case: &Case) -> Result<()> {
    write!(file, "{}", case.setting.budget)?;
    let lengths = case.setting.lengths.iter();
    for length in lengths.chain(&[case.text.len(), case.set.len()]) {
        write!(file, " {length}")?;
    }
    writeln!(file)?;
    file.write_all(&case.text)?;
    file.write_all(&case.set)
}
