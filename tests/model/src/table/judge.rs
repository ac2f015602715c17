//! Judging each line of a table in a file, for the programs `vectors`, `lines`, `sheets` and
//! `histories`.

use std::process::ExitCode;

/// Judges the file that the program's first argument names, prints what is wrong with the number of
/// its line, and ends with 'N passed, M failed'. A table without any line is a failure.
pub fn file(program: &str, judge: impl Fn(&str) -> Result<(), String>) -> ExitCode {
    let Some(path) = std::env::args().nth(1) else {
        eprintln!("use: {program} FILE");
        return ExitCode::from(2);
    };
    match std::fs::read_to_string(&path) {
        Ok(table) => {
            let (passed, failed) = lines(&table, judge);
            println!("{passed} passed, {failed} failed");
            ExitCode::from(u8::from(failed > 0))
        }
        Err(error) => {
            eprintln!("{path}: {error}");
            ExitCode::from(2)
        }
    }
}

/// Judges all lines but empty ones and remarks.
pub fn lines(table: &str, mut judge: impl FnMut(&str) -> Result<(), String>) -> (usize, usize) {
    let (mut passed, mut failed) = (0, 0);
    for (i, line) in table.lines().enumerate() {
        if line.is_empty() || line.starts_with('#') {
            continue;
        }
        match judge(line) {
            Ok(()) => passed += 1,
            Err(error) => {
                println!("line {}: {error}", i + 1);
                failed += 1;
            }
        }
    }
    if passed + failed == 0 {
        println!("the table has no line");
        failed = 1;
    }
    (passed, failed)
}

#[cfg(test)]
mod tests {
    use super::*;

    #[test]
    fn lines_that_count() {
        let judge = |line: &str| match line {
            "good" => Ok(()),
            _ => Err("not good".to_string()),
        };
        assert_eq!(lines("# a remark\ngood\n\nbad\ngood\n", judge), (2, 1));
        assert_eq!(lines("# a remark\n\n", judge), (0, 1));
        assert_eq!(lines("", judge), (0, 1));
    }
}
