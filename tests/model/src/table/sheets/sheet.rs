//! Sheets, lines and readings as a table has them: a line is place+length of its name and its reading;
//! lines are parted by `;`, `[]` has no line, and `none` is no sheet.

use super::read_number;
use crate::sheet::{Line, Reading};

const NO_SHEET: &str = "none";
const NO_LINES: &str = "[]";

pub fn write_sheet(sheet: Option<&[Line]>) -> String {
    sheet.map_or(NO_SHEET.to_string(), write_lines)
}

pub fn write_lines(lines: &[Line]) -> String {
    if lines.is_empty() {
        return NO_LINES.to_string();
    }
    let lines: Vec<String> = lines.iter().map(write_line).collect();
    lines.join(";")
}

fn write_line(line: &Line) -> String {
    let reading = write_reading(line.reading);
    format!("{}+{} {reading}", line.place, line.length)
}

pub fn write_reading(reading: Reading) -> String {
    match reading {
        Reading::Number(number) => format!("number {number}"),
        Reading::Decimal(bits) => format!("decimal {bits:016x}"),
        Reading::Word { place, length } => format!("word {place}+{length}"),
    }
}

pub fn read_sheet(field: &str) -> Result<Option<Vec<Line>>, String> {
    match field {
        NO_SHEET => Ok(None),
        _ => read_lines(field).map(Some),
    }
}

pub fn read_lines(field: &str) -> Result<Vec<Line>, String> {
    match field {
        NO_LINES => Ok(Vec::new()),
        _ => field.split(';').map(read_line).collect(),
    }
}

fn read_line(field: &str) -> Result<Line, String> {
    let parts = field.split_once(' ');
    let (name, reading) = parts.ok_or_else(|| format!("not a line: {field}"))?;
    let (place, length) = read_span(name)?;
    Ok(Line {
        place,
        length,
        reading: read_reading(reading)?,
    })
}

pub fn read_reading(field: &str) -> Result<Reading, String> {
    match field.split_once(' ') {
        Some(("number", number)) => read_number(number).map(Reading::Number),
        Some(("decimal", bits)) => read_bits(bits).map(Reading::Decimal),
        Some(("word", span)) => {
            read_span(span).map(|(place, length)| Reading::Word { place, length })
        }
        _ => Err(format!("not a reading: {field}")),
    }
}

fn read_bits(field: &str) -> Result<u64, String> {
    let bad = || format!("not 64 bits: {field}");
    if field.len() != 16 {
        return Err(bad());
    }
    u64::from_str_radix(field, 16).map_err(|_| bad())
}

fn read_span(field: &str) -> Result<(u64, u64), String> {
    let parts = field.split_once('+');
    let (place, length) = parts.ok_or_else(|| format!("not place+length: {field}"))?;
    Ok((read_number(place)?, read_number(length)?))
}
