//! Which files a run is about, told apart before any of them is written.
//!
//! A file is known by its device and inode, one that isn't there yet by those of its folder and its name. A path that leads to
//! an open descriptor (/dev/stdout, /dev/fd/3) stands for that descriptor: opened anew, its file would be written from the
//! first byte, or replaced.

use crate::arguments::{Included, Options};
use crate::standard::{self, ERRORS, INPUT, OUTPUT};
use std::ffi::{c_int, OsStr, OsString};
use std::fs::{self, File, Metadata};
use std::io::{self, ErrorKind};
use std::os::unix::ffi::OsStrExt;
use std::os::unix::fs::{FileTypeExt, MetadataExt};
use std::path::{Path, PathBuf};

/// Where a text comes from or goes to.
pub struct Endpoint {
    /// What messages call it.
    pub name: String,
    pub way: Way,
}

pub enum Way {
    /// Through a descriptor, over a copy of it.
    Open(c_int, io::Result<File>),
    /// To what this path leads to.
    Path(PathBuf),
}

impl Way {
    /// Whether both go through descriptors that may share how far was read: one descriptor, or two of one file, pipe or socket. A
    /// terminal can be read again.
    fn shares_stream(&self, other: &Way) -> bool {
        let (Way::Open(one, Ok(file)), Way::Open(two, Ok(other))) = (self, other) else {
            return false;
        };
        let same = match (file.metadata(), other.metadata()) {
            (Ok(a), Ok(b)) => {
                (a.dev(), a.ino()) == (b.dev(), b.ino()) && !a.file_type().is_char_device()
            }
            _ => false,
        };
        one == two || same
    }
}

/// The files of a run.
pub struct Files {
    pub templates: Vec<Endpoint>,
    /// The set that is read, if one is.
    pub set: Option<Endpoint>,
    /// None where only readings are asked for.
    pub sheet: Option<Endpoint>,
    /// Where the readings go that are asked for.
    pub readings: Option<Endpoint>,
    pub report: Option<Endpoint>,
    /// Where the set goes that is made.
    pub new_set: Option<Endpoint>,
    pub outputs: Outputs,
}

/// The files that a run writes, its standard output and standard error among them.
pub struct Outputs(Vec<Identity>);

impl Outputs {
    /// Whether the file with these data is one of them.
    pub fn have(&self, found: &Metadata) -> bool {
        self.0.contains(&Identity::There(found.dev(), found.ino()))
    }
}

/// The files of a run, if none that is written is also another one; else a complaint. There is none where it would go to one of
/// the two and spoil what stands there.
pub fn tell_apart(options: &Options) -> Result<Files, Option<String>> {
    let report = options.report.as_deref();
    let new_set = options.new_set.as_deref();
    let set = match &options.included {
        Included::Set(path) => Some(&**path),
        Included::Nothing | Included::Folders(_) => None,
    };
    let asks_readings = !options.readings.is_empty();
    let has_sheet = options.sheet.is_some() || !asks_readings;
    let parties = Parties {
        templates: options.inputs.iter().map(Party::template).collect(),
        set: set.map(|path| Party::named("set", "--set ", Some(path), INPUT)),
        sheet: has_sheet.then(|| Party::named("sheet", "-o ", options.sheet.as_deref(), OUTPUT)),
        readings: asks_readings.then(|| Party::named("readings", "", None, OUTPUT)),
        report: report.map(|path| Party::named("report", "--report ", Some(path), ERRORS)),
        new_set: new_set.map(|path| Party::named("new set", "--write-set ", Some(path), ERRORS)),
        streams: [INPUT, OUTPUT, ERRORS].map(Party::stream),
    };
    if let Some([one, errors]) = parties.clash_with_errors() {
        return Err(errors.is_empty().then(|| one.complaint(errors)));
    }
    if let Some([one, other]) = parties.clash() {
        return Err(Some(one.complaint(other)));
    }
    if let Some([one, other]) = parties.read_twice() {
        let roles = [&*one.role, &*other.role].join(" and ");
        return Err(Some(format!(
            "{roles} are one stream, which can be read once"
        )));
    }
    let outputs = parties.outputs();
    Ok(Files {
        templates: endpoints(parties.templates).collect(),
        set: endpoints(parties.set).next(),
        sheet: endpoints(parties.sheet).next(),
        readings: endpoints(parties.readings).next(),
        report: endpoints(parties.report).next(),
        new_set: endpoints(parties.new_set).next(),
        outputs,
    })
}

fn endpoints(parties: impl IntoIterator<Item = Party>) -> impl Iterator<Item = Endpoint> {
    parties.into_iter().map(|party| party.endpoint)
}

/// What messages call a path, or the standard stream that is taken without one.
pub fn name(path: Option<&Path>, stream: c_int) -> String {
    match (path, stream) {
        (Some(path), _) => path.display().to_string(),
        (None, INPUT) => "standard input".to_string(),
        (None, OUTPUT) => "standard output".to_string(),
        (None, _) => "standard error".to_string(),
    }
}

impl Endpoint {
    /// What a path leads to, or the standard stream that is taken without one.
    pub fn of(path: Option<&Path>, stream: c_int) -> Endpoint {
        let open = |number| Way::Open(number, standard::file(number));
        let way = match path {
            Some(path) => descriptor(path).map_or_else(|| Way::Path(path.to_owned()), open),
            None => open(stream),
        };
        let name = name(path, stream);
        Endpoint { name, way }
    }
}

struct Parties {
    templates: Vec<Party>,
    set: Option<Party>,
    sheet: Option<Party>,
    readings: Option<Party>,
    report: Option<Party>,
    new_set: Option<Party>,
    streams: [Party; 3],
}

impl Parties {
    /// What must not be the file behind standard error, where every complaint goes, and is.
    fn clash_with_errors(&self) -> Option<[&Party; 2]> {
        let [_, _, errors] = &self.streams;
        self.read()
            .chain(self.replaced())
            .find(|one| one.is(errors))
            .map(|one| [one, errors])
    }

    /// Two others that must not be the same file, and are.
    fn clash(&self) -> Option<[&Party; 2]> {
        let [input, output, _] = &self.streams;
        let mut pairs = Vec::new();
        for one in self.read() {
            pairs.extend(self.written().map(|other| [one, other]));
        }
        for (i, other) in self.written().enumerate() {
            pairs.extend(self.written().take(i).map(|one| [one, other]));
        }
        // Others too may hold the streams' files, and would lose what they write there.
        pairs.extend(
            self.replaced()
                .flat_map(|one| [[one, input], [one, output]]),
        );
        pairs.into_iter().find(|[one, other]| one.is(other))
    }

    /// Two that are read through one stream. The second would be empty, and nothing would show it.
    fn read_twice(&self) -> Option<[&Party; 2]> {
        let others = |(i, one)| self.read().take(i).map(move |other| [other, one]);
        let mut pairs = self.read().enumerate().flat_map(others);
        pairs.find(|[one, other]| one.endpoint.way.shares_stream(&other.endpoint.way))
    }

    fn read(&self) -> impl Iterator<Item = &Party> {
        self.templates.iter().chain(&self.set)
    }

    fn written(&self) -> impl Iterator<Item = &Party> {
        self.sheet
            .iter()
            .chain(&self.readings)
            .chain(&self.report)
            .chain(&self.new_set)
    }

    fn outputs(&self) -> Outputs {
        let [_, output, errors] = &self.streams;
        let all = self.written().chain([output, errors]);
        Outputs(all.map(|one| one.identity.clone()).collect())
    }

    /// Those of the written that are not written through a descriptor.
    fn replaced(&self) -> impl Iterator<Item = &Party> {
        let by_path = |one: &&Party| matches!(one.endpoint.way, Way::Path(_));
        self.written().filter(by_path)
    }
}

/// An endpoint and its part in the run.
struct Party {
    role: String,
    endpoint: Endpoint,
    identity: Identity,
}

impl Party {
    fn stream(number: c_int) -> Party {
        Party::new(name(None, number), Endpoint::of(None, number))
    }

    fn template(path: &Option<PathBuf>) -> Party {
        Party::named("template", "", path.as_deref(), INPUT)
    }

    fn named(what: &str, option: &str, path: Option<&Path>, stream: c_int) -> Party {
        let option = if path.is_some() { option } else { "" };
        let role = format!("the {what} ({option}{})", name(path, stream));
        Party::new(role, Endpoint::of(path, stream))
    }

    fn new(role: String, endpoint: Endpoint) -> Party {
        let identity = Identity::of(&endpoint.way);
        Party {
            role,
            endpoint,
            identity,
        }
    }

    fn is(&self, other: &Party) -> bool {
        match (&self.endpoint.way, &other.endpoint.way) {
            (Way::Open(one, _), Way::Open(other, _)) if one == other => true,
            _ => self.identity == other.identity && self.identity != Identity::Any,
        }
    }

    fn is_empty(&self) -> bool {
        match &self.endpoint.way {
            Way::Open(_, Ok(file)) => file.metadata().is_ok_and(|found| found.len() == 0),
            _ => false,
        }
    }

    fn complaint(&self, other: &Party) -> String {
        format!("{} and {} are the same file", self.role, other.role)
    }
}

/// What tells files apart.
#[derive(Clone, Debug, PartialEq)]
enum Identity {
    /// A file or a pipe that is there: its device and inode.
    There(u64, u64),
    /// A file that isn't there yet: device and inode of its folder, and its name.
    New(u64, u64, OsString),
    /// A character device (a terminal, /dev/null) or a socket, which may be used twice; or what can't be used, which shows when
    /// that is tried.
    Any,
}

impl Identity {
    fn of(way: &Way) -> Identity {
        let (found, path) = match way {
            Way::Open(_, Ok(file)) => (file.metadata(), None),
            Way::Open(_, Err(_)) => return Identity::Any,
            Way::Path(path) => (fs::metadata(path), Some(path)),
        };
        match (found, path) {
            (Ok(found), _) => {
                let kind = found.file_type();
                if kind.is_file() || kind.is_fifo() || kind.is_block_device() {
                    Identity::There(found.dev(), found.ino())
                } else {
                    Identity::Any
                }
            }
            (Err(error), Some(path)) if error.kind() == ErrorKind::NotFound => {
                Identity::of_new(path).unwrap_or(Identity::Any)
            }
            _ => Identity::Any,
        }
    }

    fn of_new(path: &Path) -> Option<Identity> {
        let (folder, name) = end(path)?;
        let folder = fs::metadata(folder).ok()?;
        Some(Identity::New(folder.dev(), folder.ino(), name))
    }
}

/// The descriptor of this process that a path leads to.
fn descriptor(path: &Path) -> Option<c_int> {
    let (folder, name) = end(path)?;
    let number: u32 = name.to_str()?.parse().ok()?;
    let listed = name == OsStr::new(&number.to_string()) && has_descriptors(&folder);
    c_int::try_from(number).ok().filter(|_| listed)
}

/// Whether a folder is the system's list of this process's descriptors.
fn has_descriptors(folder: &Path) -> bool {
    let lists = ["/proc/self/fd", "/proc/thread-self/fd"];
    fs::canonicalize(folder).is_ok_and(|folder| {
        lists
            .iter()
            .any(|list| fs::canonicalize(list).is_ok_and(|list| list == folder))
    })
}

/// Folder and name where the links of a path end: at one of our descriptors, or at a file that need not be there.
fn end(path: &Path) -> Option<(PathBuf, OsString)> {
    const MOST_LINKS: usize = 40;
    let mut path = path.to_owned();
    for _ in 0..=MOST_LINKS {
        let (folder, name) = parted(&path);
        match fs::read_link(folder.join(name)) {
            Ok(next) if !has_descriptors(folder) => path = folder.join(next),
            _ => return Some((folder.to_owned(), name.to_owned())),
        }
    }
    None
}

/// A path's folder, and the name in it; that is empty behind a slash.
pub fn parted(path: &Path) -> (&Path, &OsStr) {
    let bytes = path.as_os_str().as_bytes();
    let name = bytes.iter().rposition(|&b| b == b'/').map_or(0, |n| n + 1);
    match bytes.split_at(name) {
        (b"", name) => (Path::new("."), OsStr::from_bytes(name)),
        (folder, name) => (
            Path::new(OsStr::from_bytes(folder)),
            OsStr::from_bytes(name),
        ),
    }
}
