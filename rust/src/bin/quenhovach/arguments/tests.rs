//! The command line, taken apart.

use super::*;
use std::path::Path;

fn parsed(arguments: &[&str]) -> Result<Request, String> {
    parse(arguments.iter().map(OsString::from))
}

fn options(arguments: &[&str]) -> Options {
    match parsed(arguments) {
        Ok(Request::Run(options)) => *options,
        other => panic!("{arguments:?}: {other:?}"),
    }
}

#[test]
fn defaults() {
    let expected = Options {
        inputs: vec![None],
        sheet: None,
        only_sheets: false,
        readings: vec![],
        report: None,
        included: Included::Nothing,
        new_set: None,
        warn: false,
        lengths: [65_536; 7],
        budget: 16_777_216,
    };
    assert_eq!(options(&[]), expected);
    assert_eq!(options(&["-"]), expected);
    assert_eq!(options(&["-o", "-", "--"]), expected);
}

#[test]
fn values_attached_or_behind() {
    for arguments in [
        ["-o", "no sheet", "--wrap", "7", "no template"].as_slice(),
        &["-ono sheet", "--wrap=7", "--", "no template"],
        &["no template", "--wrap=007", "-o", "no sheet"],
    ] {
        let options = options(arguments);
        assert_eq!(options.inputs, [Some("no template".into())]);
        assert_eq!(options.sheet.as_deref(), Some(Path::new("no sheet")));
        assert_eq!(options.lengths[4], 7);
    }
    assert_eq!(options(&["--", "-x"]).inputs, [Some("-x".into())]);
}

#[test]
fn templates_in_order() {
    let given = options(&["b", "-o", "sheet", "-", "a", "--", "b"]);
    let name = |name: &str| Some(PathBuf::from(name));
    assert_eq!(given.inputs, [name("b"), None, name("a"), name("b")]);
}

#[test]
fn folders_in_order_or_a_set() {
    let folders = |names: &[&str]| Included::Folders(names.iter().map(PathBuf::from).collect());
    let given = options(&["-I", "b", "t.m4", "-Ia/c", "-I", "b", "--write-set", "s"]);
    assert_eq!(given.included, folders(&["b", "a/c", "b"]));
    assert_eq!(given.new_set.as_deref(), Some(Path::new("s")));
    assert_eq!(options(&["-I-"]).included, folders(&["-"]));
    let given = options(&["--set=a.set"]);
    assert_eq!(given.included, Included::Set("a.set".into()));
}

#[test]
fn sheets_and_readings() {
    let given = options(&["--sheet", "t.m4"]);
    assert_eq!((given.only_sheets, given.readings.len()), (true, 0));
    assert!(given.asks_for_sheet() && !options(&["t.m4"]).asks_for_sheet());
    let given = options(&["--get", "b", "t.m4", "--get=a", "--get", "b", "-o", "s"]);
    assert_eq!(given.readings, ["b", "a", "b"]);
    assert!(given.asks_for_sheet() && !given.only_sheets);
    assert_eq!(given.sheet.as_deref(), Some(Path::new("s")));
    assert!(options(&["--sheet", "--get", "a"]).only_sheets);
}

#[test]
fn each_length_has_its_option() {
    for buffer in Buffer::ALL {
        let lengths = options(&[option_of(buffer), "0"]).lengths;
        for (i, length) in lengths.into_iter().enumerate() {
            let named = i + 1 == buffer.number() as usize;
            assert_eq!(length, if named { 0 } else { 65_536 }, "{buffer}");
        }
    }
    assert_eq!(options(&["--budget", "4294967295"]).budget, u32::MAX);
}

#[test]
fn bad_usage() {
    for arguments in [
        ["-", "-"].as_slice(),
        &["a", ""],
        &["-x"],
        &["--letter", "a"],
        &["--sheet", "--sheet"],
        &["--sheet=a"],
        &["--get"],
        &["--get", ""],
        &["--get", "9"],
        &["--get", "a=1"],
        &["--get", "a", "-o", "-"],
        &["-o"],
        &["--budget"],
        &["--budget", "4294967296"],
        &["--budget", "-1"],
        &["--pending", "65537"],
        &["--pending", ""],
        &["--pending", "+1"],
        &["--output", "sheet"],
        &["--wrap", "1", "--wrap", "1"],
        &["--report", "-"],
        &["-o", ""],
        &["--report="],
        &["--warn", "--warn"],
        &["--warn=1"],
        &["-I"],
        &["-I", ""],
        &["-I", "a", "--set", "b"],
        &["--set", "a", "--set", "b"],
        &["--set", "-"],
        &["--set="],
        &["--write-set", "a"],
        &["--set", "a", "--write-set", "b"],
        &["-I", "a", "--write-set", "-"],
    ] {
        assert!(parsed(arguments).is_err(), "{arguments:?}");
    }
}

#[test]
fn bad_usage_is_named() {
    for (arguments, complaint) in [
        (
            ["-help"].as_slice(),
            "unknown option -help; did you mean --help?",
        ),
        (
            &["-budget=3"],
            "unknown option -budget; did you mean --budget?",
        ),
        (
            &["-output", "s"],
            "unknown option -output; did you mean --output?",
        ),
        (&["-set", "a"], "unknown option -set; did you mean --set?"),
        (
            &["--set", "a", "-Ib"],
            "-I and --set: a run has one set, of folders or of a file",
        ),
        (
            &["--write-set=a"],
            "--write-set: it writes the set that -I makes, and no -I is given",
        ),
        (&["-sheet"], "unknown option -sheet; did you mean --sheet?"),
        (&["-get", "a"], "unknown option -get; did you mean --get?"),
        (&["--sheet=a"], "--sheet takes nothing behind it"),
        (
            &["-o", "-", "--get", "a"],
            "-o - and --get: readings go to standard output; give the sheet a file",
        ),
        (
            &["--get", "a b"],
            "--get: it takes a name: a letter or underscore, then letters, digits and underscores; \"a b\" is none",
        ),
        (&["-Vx"], "-V takes nothing behind it"),
        (&["--help=x"], "--help takes nothing behind it"),
        (&["-xy"], "unknown option -x"),
        (&["--helper"], "unknown option --helper"),
        (
            &["-", "a", "--", "-"],
            "-: it is given twice; standard input can be read once",
        ),
        (&["-o"], "-o: its value is missing"),
    ] {
        assert_eq!(parsed(arguments), Err(complaint.to_string()));
    }
}

#[test]
fn help_and_version_come_first() {
    assert_eq!(parsed(&["--help", "-x"]), Ok(Request::Help));
    assert_eq!(parsed(&["a", "-V", "b"]), Ok(Request::Version));
}
