//! The command line.

use crate::bytes::{is_digit, is_name};
use quenhovach::{Buffer, BUDGET, LONGEST};
use std::ffi::{OsStr, OsString};
use std::os::unix::ffi::OsStrExt;
use std::path::PathBuf;

/// What the command is asked to do.
#[derive(Debug, PartialEq)]
pub enum Request {
    Help,
    Version,
    Run(Box<Options>),
}

/// What to expand, in which room, and where to.
#[derive(Debug, PartialEq)]
pub struct Options {
    /// The templates in order, one at least; none is standard input.
    pub inputs: Vec<Option<PathBuf>>,
    /// The sheet; if none, standard output, unless readings go there.
    pub sheet: Option<PathBuf>,
    /// Whether only what is a sheet is to be written.
    pub only_sheets: bool,
    /// The names whose readings go to standard output.
    pub readings: Vec<String>,
    /// Where the six numbers go.
    pub report: Option<PathBuf>,
    /// What the templates may include.
    pub included: Included,
    /// Where the set goes that was made of folders.
    pub new_set: Option<PathBuf>,
    /// Whether likely mistakes are told of where the run is not refused, too.
    pub warn: bool,
    /// Lengths of the seven buffers, by their numbers.
    pub lengths: [usize; 7],
    /// Steps at most.
    pub budget: u32,
}

impl Options {
    /// Whether the output has to be a sheet.
    pub fn asks_for_sheet(&self) -> bool {
        self.only_sheets || !self.readings.is_empty()
    }
}

/// What the templates may include.
#[derive(Clone, Debug, PartialEq)]
pub enum Included {
    Nothing,
    /// The files below these folders, one folder at least; the first with a name counts.
    Folders(Vec<PathBuf>),
    /// The set in this file.
    Set(PathBuf),
}

/// The option that sets a buffer's length.
pub fn option_of(buffer: Buffer) -> &'static str {
    match buffer {
        Buffer::Pending => "--pending",
        Buffer::Calls => "--calls",
        Buffer::Definitions => "--definitions",
        Buffer::Streams => "--streams",
        Buffer::Wrap => "--wrap",
        Buffer::Errors => "--errors",
        Buffer::Output => "--output",
    }
}

/// What was given so far; an option but `-I` and `--get` may be given once.
#[derive(Default)]
struct Given {
    inputs: Vec<OsString>,
    sheet: Option<OsString>,
    only_sheets: Option<()>,
    readings: Vec<String>,
    report: Option<OsString>,
    folders: Vec<OsString>,
    set: Option<OsString>,
    new_set: Option<OsString>,
    warn: Option<()>,
    lengths: [Option<u32>; 7],
    budget: Option<u32>,
}

/// Reads the arguments behind the command's name; a complaint if they can't be taken.
pub fn parse(arguments: impl Iterator<Item = OsString>) -> Result<Request, String> {
    let mut arguments = arguments;
    let mut given = Given::default();
    let mut options_end = false;
    while let Some(argument) = arguments.next() {
        if options_end || argument == "-" || !argument.as_bytes().starts_with(b"-") {
            given.take_file(argument)?;
        } else if argument == "--" {
            options_end = true;
        } else if argument == "-h" || argument == "--help" {
            return Ok(Request::Help);
        } else if argument == "-V" || argument == "--version" {
            return Ok(Request::Version);
        } else if argument == "--warn" {
            set_once("--warn", &mut given.warn, ())?;
        } else if argument == "--sheet" {
            set_once("--sheet", &mut given.only_sheets, ())?;
        } else {
            let (name, attached) = parted(&argument)?;
            given.take(name, || {
                attached.map(OsStr::to_owned).or_else(|| arguments.next())
            })?;
        }
    }
    given.options().map(Box::new).map(Request::Run)
}

/// The option's name, and the value that is attached to it: `--name=value` or `-ovalue`.
fn parted(argument: &OsStr) -> Result<(&OsStr, Option<&OsStr>), String> {
    let bytes = argument.as_bytes();
    let equals = bytes.iter().position(|&b| b == b'=');
    let (word, value) = match equals {
        Some(n) => (&bytes[..n], Some(&bytes[n + 1..])),
        None => (bytes, None),
    };
    let (name, value) = if bytes.starts_with(b"--") {
        (word, value)
    } else if is_long(&[b"-", word].concat()) {
        // Not -h with `elp` behind it, and no sheet called `utput`.
        let word = String::from_utf8_lossy(word);
        return Err(format!("unknown option {word}; did you mean -{word}?"));
    } else {
        let (name, value) = bytes.split_at(2.min(bytes.len()));
        (name, (!value.is_empty()).then_some(value))
    };
    Ok((OsStr::from_bytes(name), value.map(OsStr::from_bytes)))
}

/// Whether a word is an option that begins with two dashes.
fn is_long(word: &[u8]) -> bool {
    let others = [
        "--help",
        "--version",
        "--report",
        "--set",
        "--write-set",
        "--budget",
        "--warn",
        "--sheet",
        "--get",
    ];
    let all = Buffer::ALL.map(option_of).into_iter().chain(others);
    all.into_iter().any(|option| option.as_bytes() == word)
}

impl Given {
    fn take_file(&mut self, name: OsString) -> Result<(), String> {
        if name.is_empty() {
            return Err("a template's name is empty".to_string());
        }
        if name == "-" && self.inputs.contains(&name) {
            return Err("-: it is given twice; standard input can be read once".to_string());
        }
        self.inputs.push(name);
        Ok(())
    }

    /// Takes one option, whose value is asked for if the option exists.
    fn take(
        &mut self,
        name: &OsStr,
        value: impl FnOnce() -> Option<OsString>,
    ) -> Result<(), String> {
        let name = name.to_string_lossy();
        let value = || match value() {
            Some(value) if !value.is_empty() => Ok(value),
            _ => Err(format!("{name}: its value is missing")),
        };
        let length = Buffer::ALL.into_iter().find(|&b| name == option_of(b));
        match (&*name, length) {
            ("-o", _) => set_once(&name, &mut self.sheet, value()?),
            ("--report", _) => set_once(&name, &mut self.report, value()?),
            ("-I", _) => {
                self.folders.push(value()?);
                Ok(())
            }
            ("--set", _) => set_once(&name, &mut self.set, value()?),
            ("--write-set", _) => set_once(&name, &mut self.new_set, value()?),
            ("--get", _) => {
                self.readings.push(setting(&value()?)?);
                Ok(())
            }
            ("--budget", _) => {
                let steps = number(&name, &value()?, u32::MAX)?;
                set_once(&name, &mut self.budget, steps)
            }
            (_, Some(buffer)) => {
                let bytes = number(&name, &value()?, LONGEST as u32)?;
                set_once(&name, &mut self.lengths[buffer as usize - 1], bytes)
            }
            ("-h" | "-V" | "--help" | "--version" | "--warn" | "--sheet", _) => {
                Err(format!("{name} takes nothing behind it"))
            }
            _ => Err(format!("unknown option {name}")),
        }
    }

    /// What was given, and defaults for the rest.
    fn options(self) -> Result<Options, String> {
        self.check_names()?;
        let mut inputs: Vec<_> = self.inputs.into_iter().map(file).collect();
        if inputs.is_empty() {
            inputs.push(None);
        }
        Ok(Options {
            inputs,
            sheet: self.sheet.and_then(file),
            only_sheets: self.only_sheets.is_some(),
            readings: self.readings,
            report: self.report.map(PathBuf::from),
            included: included(self.folders, self.set),
            new_set: self.new_set.map(PathBuf::from),
            warn: self.warn.is_some(),
            lengths: self.lengths.map(|n| n.map_or(LONGEST, |n| n as usize)),
            budget: self.budget.unwrap_or(BUDGET),
        })
    }

    /// Whether what was given goes together.
    fn check_names(&self) -> Result<(), String> {
        for (option, name) in [
            ("--report", &self.report),
            ("--set", &self.set),
            ("--write-set", &self.new_set),
        ] {
            if name.as_deref() == Some(OsStr::new("-")) {
                return Err(format!("{option}: it takes a file's name, not -"));
            }
        }
        if self.sheet.as_deref() == Some(OsStr::new("-")) && !self.readings.is_empty() {
            return Err(
                "-o - and --get: readings go to standard output; give the sheet a file".to_string(),
            );
        }
        if !self.folders.is_empty() && self.set.is_some() {
            return Err("-I and --set: a run has one set, of folders or of a file".to_string());
        }
        if self.folders.is_empty() && self.new_set.is_some() {
            return Err(
                "--write-set: it writes the set that -I makes, and no -I is given".to_string(),
            );
        }
        Ok(())
    }
}

/// What is to be included; a file's set and folders are not given together.
fn included(folders: Vec<OsString>, set: Option<OsString>) -> Included {
    match set {
        Some(file) => Included::Set(PathBuf::from(file)),
        None if folders.is_empty() => Included::Nothing,
        None => Included::Folders(folders.into_iter().map(PathBuf::from).collect()),
    }
}

/// A file's name; `-` is the standard stream.
fn file(name: OsString) -> Option<PathBuf> {
    (name != "-").then(|| PathBuf::from(name))
}

fn set_once<T>(name: &str, place: &mut Option<T>, value: T) -> Result<(), String> {
    if place.replace(value).is_some() {
        return Err(format!("{name}: it is given twice"));
    }
    Ok(())
}

/// The name of a setting.
fn setting(value: &OsStr) -> Result<String, String> {
    let name = value.to_str().filter(|name| is_name(name.as_bytes()));
    name.map(str::to_string).ok_or_else(|| {
        let value = value.to_string_lossy();
        format!("--get: it takes a name: a letter or underscore, then letters, digits and underscores; {value:?} is none")
    })
}

/// Decimal digits, at most `most`.
fn number(name: &str, value: &OsStr, most: u32) -> Result<u32, String> {
    let read = value.to_str().filter(|s| s.bytes().all(is_digit));
    match read.and_then(|digits| digits.parse().ok()) {
        Some(number) if number <= most => Ok(number),
        _ if name == "--output" => Err(format!(
            "--output: it takes the sheet's length, 0 to {most}; the sheet's file is given with -o"
        )),
        _ => Err(format!("{name}: it takes a number, 0 to {most}")),
    }
}

#[cfg(test)]
mod tests;
