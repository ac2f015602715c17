//! The files below a folder, which a set is made of.
//!
//! A file is called by its path from the folder, with `/` between the parts, whatever bytes these are. What begins with a dot is left
//! out, and what the run writes. Links are followed, those to folders too; one that leads back to a folder around it is an error, since
//! there would be no end to it. So is what is neither a file nor a folder: a pipe would be waited for.

use crate::identity::Outputs;
use quenhovach::LONGEST_SET;
use std::ffi::OsString;
use std::fs::{self, DirEntry, Metadata};
use std::io;
use std::os::unix::ffi::{OsStrExt, OsStringExt};
use std::os::unix::fs::MetadataExt;
use std::path::{Path, PathBuf};

/// A file and what it is called.
pub struct Found {
    pub name: Vec<u8>,
    pub path: PathBuf,
}

/// The least that an item takes beside its name: its kind and lengths.
const HEAD: usize = 9;

/// All files below a folder, in the order of the bytes of their names.
pub fn files_below(folder: &Path, outputs: &Outputs) -> Result<Vec<Found>, String> {
    let mut walk = Walk {
        outputs,
        around: Vec::new(),
        least: 0,
        found: Vec::new(),
    };
    let data = fs::metadata(folder).map_err(|error| unread(folder, &error))?;
    walk.enter(folder, &data, b"")?;
    walk.found.sort_by(|one, other| one.name.cmp(&other.name));
    Ok(walk.found)
}

/// What is said of a file or folder that can't be read.
pub fn unread(path: &Path, error: &io::Error) -> String {
    format!("{}: could not be read: {error}", path.display())
}

struct Walk<'a> {
    outputs: &'a Outputs,
    /// Device and inode of the folder that is read and of those around it.
    around: Vec<(u64, u64)>,
    /// The bytes that a set of what was found takes at least.
    least: usize,
    found: Vec<Found>,
}

impl Walk<'_> {
    /// Takes all that stands in a folder; `before` is what the names there begin with.
    fn enter(&mut self, folder: &Path, data: &Metadata, before: &[u8]) -> Result<(), String> {
        let identity = (data.dev(), data.ino());
        if self.around.contains(&identity) {
            return Err(format!(
                "{}: could not be read: it leads back to a folder that it is in",
                folder.display()
            ));
        }
        self.around.push(identity);
        for name in names(folder).map_err(|error| unread(folder, &error))? {
            let path = folder.join(&name);
            let name = [before, name.as_bytes()].concat();
            self.take(path, name)?;
        }
        self.around.pop();
        Ok(())
    }

    fn take(&mut self, path: PathBuf, name: Vec<u8>) -> Result<(), String> {
        let data = fs::metadata(&path).map_err(|error| unread(&path, &error))?;
        if self.outputs.have(&data) {
            return Ok(());
        }
        if data.is_dir() {
            return self.enter(&path, &data, &[&name[..], b"/"].concat());
        }
        if !data.is_file() {
            let error = io::Error::other("it is neither a file nor a folder");
            return Err(unread(&path, &error));
        }
        // A folder of very many files is not walked to its end.
        self.least += HEAD + name.len();
        if self.least > LONGEST_SET {
            return Err(format!(
                "{}: too many files below -I for a set, which may have {LONGEST_SET} bytes",
                path.display()
            ));
        }
        self.found.push(Found { name, path });
        Ok(())
    }
}

/// The names in a folder that are not hidden, in the order of their bytes, so that of two faults always the same one is told.
fn names(folder: &Path) -> io::Result<Vec<OsString>> {
    let name = |entry: io::Result<DirEntry>| entry.map(|entry| entry.file_name().into_vec());
    let mut names: Vec<Vec<u8>> = fs::read_dir(folder)?.map(name).collect::<Result<_, _>>()?;
    names.retain(|name| !name.starts_with(b"."));
    names.sort();
    Ok(names.into_iter().map(OsString::from_vec).collect())
}
