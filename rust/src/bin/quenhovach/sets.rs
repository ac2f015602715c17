//! The set that is lent: made of the files below folders, or read.

use crate::arguments::Included;
use crate::folders::{self, unread, Found};
use crate::identity::{Endpoint, Outputs, Way};
use quenhovach::{set, Set, EMPTY_SET, LONGEST_SET};
use std::collections::HashSet;
use std::fs::File;
use std::io::{self, Read};
use std::path::{Path, PathBuf};

/// A set and where it came from.
pub struct Lent {
    pub bytes: Vec<u8>,
    /// What messages call it.
    pub origin: Origin,
}

pub enum Origin {
    /// No set was asked for.
    Nowhere,
    /// Files below folders; of each item, in order, its file.
    Folders(Vec<PathBuf>, Vec<PathBuf>),
    /// A file, by what messages call it.
    File(String),
}

/// An item of a good set.
pub struct Item {
    pub name: Vec<u8>,
    pub text: Vec<u8>,
    /// What messages call it: its file, or its name.
    pub told: String,
}

/// The set of a run.
pub fn lent(
    included: &Included,
    file: Option<Endpoint>,
    outputs: &Outputs,
) -> Result<Lent, String> {
    match (included, file) {
        (Included::Folders(folders), _) => of_folders(folders, outputs),
        (Included::Set(_), Some(file)) => read(file),
        _ => Ok(Lent {
            bytes: EMPTY_SET.to_vec(),
            origin: Origin::Nowhere,
        }),
    }
}

/// The files below these folders. The first with a name counts, so that the others are left out.
fn of_folders(folders: &[PathBuf], outputs: &Outputs) -> Result<Lent, String> {
    let mut set = Set::new();
    let mut names = HashSet::new();
    let mut files = Vec::new();
    for folder in folders {
        for Found { name, path } in folders::files_below(folder, outputs)? {
            if names.contains(&name) {
                continue;
            }
            let text = text_of(&path).map_err(|error| unread(&path, &error))?;
            set.add(&name, &text).map_err(|_| too_long(&path, &set))?;
            names.insert(name);
            files.push(path);
        }
    }
    Ok(Lent {
        bytes: set.into(),
        origin: Origin::Folders(folders.to_vec(), files),
    })
}

fn too_long(path: &Path, before: &Set) -> String {
    let path = path.display();
    let before = before.as_bytes().len();
    format!(
        "{path}: it does not fit the set, which may have {LONGEST_SET} bytes and has {before} without it"
    )
}

/// A file's bytes, but no more than show that it is too long for a set.
fn text_of(path: &Path) -> io::Result<Vec<u8>> {
    let mut text = Vec::new();
    File::open(path)?
        .take(LONGEST_SET as u64)
        .read_to_end(&mut text)?;
    Ok(text)
}

/// The set in a file, but no more than shows that it is too long. Whether it is good is judged by the library.
fn read(Endpoint { name, way }: Endpoint) -> Result<Lent, String> {
    let file = match way {
        Way::Open(_, file) => file,
        Way::Path(path) => File::open(path),
    };
    let mut bytes = Vec::new();
    let whole = file.and_then(|file| file.take(LONGEST_SET as u64 + 1).read_to_end(&mut bytes));
    whole.map_err(|error| format!("{name}: could not be read: {error}"))?;
    Ok(Lent {
        bytes,
        origin: Origin::File(name),
    })
}

impl Lent {
    /// The items that can be included, in order: of those with one name the first. A bad set has those before its fault.
    pub fn items(&self) -> Vec<Item> {
        let mut names = HashSet::new();
        let mut items = Vec::new();
        for (number, item) in set::items(&self.bytes).flatten().enumerate() {
            let name: Vec<u8> = item.name().collect();
            if names.insert(name.clone()) {
                let told = match &self.origin {
                    Origin::Folders(_, files) => files[number].display().to_string(),
                    _ => printable(&name),
                };
                let text = item.text().collect();
                items.push(Item { name, text, told });
            }
        }
        items
    }
}

/// A name as it may be shown.
pub fn printable(name: &[u8]) -> String {
    crate::place::shown(name).into_iter().collect()
}
