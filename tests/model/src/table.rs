//! Lines of a table of cases: item, text, set, seven lengths, budget, number, detail, steps, place,
//! output, error text, parted by tabs. Texts and sets are hexadecimal; `-` stands for an empty one.
//! The cases of the index of lines, those of the sheet and those of histories have other columns, see
//! [`lines`], [`sheets`] and [`histories`].

pub mod histories;
pub mod judge;
pub mod lines;
pub mod sheets;

use crate::answer::{Report, Setting};

/// The line above the cases.
pub const HEADER: &str = "# item\ttext (hex)\tset (hex)\tlengths 1 to 7\tbudget\t\
    number\tdetail\tsteps\tplace\toutput (hex)\terror (hex)";

/// One case with the answer that is expected.
#[derive(Clone, Debug, PartialEq, Eq)]
pub struct Row {
    pub item: String,
    pub text: Vec<u8>,
    pub set: Vec<u8>,
    pub setting: Setting,
    pub expected: Report,
}

/// Bytes in hexadecimal.
pub fn hex(bytes: &[u8]) -> String {
    if bytes.is_empty() {
        return "-".to_string();
    }
    bytes.iter().map(|byte| format!("{byte:02x}")).collect()
}

/// Bytes from hexadecimal.
pub fn unhex(field: &str) -> Result<Vec<u8>, String> {
    if field == "-" {
        return Ok(Vec::new());
    }
    let bad = || format!("not hexadecimal: {field}");
    if !field.len().is_multiple_of(2) || !field.is_ascii() {
        return Err(bad());
    }
    let pairs = (0..field.len()).step_by(2).map(|at| &field[at..at + 2]);
    pairs
        .map(|pair| u8::from_str_radix(pair, 16).map_err(|_| bad()))
        .collect()
}

/// Writes a line, without newline.
pub fn write(row: &Row) -> String {
    let lengths: Vec<String> = row.setting.lengths.iter().map(usize::to_string).collect();
    let expected = &row.expected;
    [
        row.item.clone(),
        hex(&row.text),
        hex(&row.set),
        lengths.join(","),
        row.setting.budget.to_string(),
        expected.number.to_string(),
        expected.detail.to_string(),
        expected.steps.to_string(),
        expected.place.to_string(),
        hex(&expected.output),
        hex(&expected.errors),
    ]
    .join("\t")
}

/// Reads a line.
pub fn read(line: &str) -> Result<Row, String> {
    let fields: Vec<&str> = line.split('\t').collect();
    let [item, text, set, lengths, budget, number, detail, steps, place, output, errors] =
        fields[..]
    else {
        return Err(format!("{} fields instead of 11", fields.len()));
    };
    Ok(Row {
        item: item.to_string(),
        text: unhex(text)?,
        set: unhex(set)?,
        setting: Setting {
            lengths: read_lengths(lengths)?,
            budget: read_number(budget)?,
        },
        expected: Report {
            number: read_number(number)?,
            detail: read_number(detail)?,
            steps: read_number(steps)?,
            place: read_number(place)?,
            output: unhex(output)?,
            errors: unhex(errors)?,
        },
    })
}

fn read_number(field: &str) -> Result<u32, String> {
    field.parse().map_err(|_| format!("not a number: {field}"))
}

fn read_lengths(field: &str) -> Result<[usize; 7], String> {
    let bad = || format!("not seven lengths: {field}");
    let lengths: Result<Vec<usize>, _> = field.split(',').map(str::parse).collect();
    lengths.map_err(|_| bad())?.try_into().map_err(|_| bad())
}

#[cfg(test)]
mod tests {
    use super::*;

    #[test]
    fn a_line_there_and_back() {
        let line = "x\t00ff61\t0081\t1,2,3,4,5,6,7\t8\t0\t0\t4\t3\t00ff61\t-";
        let row = read(line).unwrap();
        assert_eq!(row.text, b"\x00\xffa");
        assert_eq!(row.set, b"\x00\x81");
        assert_eq!(row.setting.lengths, [1, 2, 3, 4, 5, 6, 7]);
        assert_eq!(write(&row), line);
        assert!(read("x\ty").is_err());
        assert!(read(&line.replace("1,2,3", "1,2")).is_err());
        assert!(read(&line.replace("00ff", "0ff")).is_err());
        assert!(read(&line.replace("0081\t", "")).is_err());
    }
}
