//! Sheet, error text and report, written whole or not at all.
//!
//! A regular file is written beside its place first (`stage`) and then renamed (`commit`). A link is followed: the file that
//! it points to is replaced. What is written through a descriptor, and a device or a pipe, can't be renamed over; it is written
//! at the commit.

use crate::identity::{self, Endpoint, Way};
use crate::signals::{self, Watch};
use crate::standard;
use std::fs::{self, File, Metadata, OpenOptions, Permissions};
use std::io::{self, ErrorKind, Write};
use std::os::unix::fs::{fchown, MetadataExt, OpenOptionsExt, PermissionsExt};
use std::path::{Path, PathBuf};

/// A text that is ready to be put in its place. Dropped without a commit it leaves no trace.
pub struct Staged {
    /// What messages call it.
    name: String,
    step: Step,
}

/// What is left to do.
enum Step {
    /// Nothing: no text was asked for, or it is empty.
    Nothing,
    /// The text is written through a descriptor.
    Open(File, Vec<u8>),
    /// The text is written to a device or a pipe.
    Direct(PathBuf, Vec<u8>),
    /// The text is in a file that becomes this one.
    Rename(Temporary, PathBuf),
}

impl Staged {
    /// Puts the text in its place.
    pub fn commit(self) -> Result<(), String> {
        let done = match self.step {
            Step::Nothing => Ok(()),
            Step::Open(file, text) => write_through(file, &text),
            Step::Direct(path, text) => write_direct(&path, &text),
            Step::Rename(temporary, path) => temporary.rename(&path),
        };
        done.map_err(|error| unwritten(&self.name, &error))
    }
}

/// A text, made ready for where it goes.
pub fn stage(to: Endpoint, text: &[u8]) -> Result<Staged, String> {
    let name = to.name;
    let step = match to.way {
        Way::Open(..) if text.is_empty() => Ok(Step::Nothing),
        Way::Open(_, file) => file.map(|file| Step::Open(file, text.to_vec())),
        Way::Path(path) => step_to(&path, text),
    };
    match step {
        Ok(step) => Ok(Staged { name, step }),
        Err(error) => Err(unwritten(&name, &error)),
    }
}

/// A text, made ready for where it goes if it was asked for.
pub fn stage_asked(to: Option<Endpoint>, text: &[u8]) -> Result<Staged, String> {
    match to {
        Some(to) => stage(to, text),
        None => Ok(Staged {
            name: String::new(),
            step: Step::Nothing,
        }),
    }
}

/// The six numbers on one line, if a report was asked for.
pub fn stage_report(to: Option<Endpoint>, numbers: [u32; 6]) -> Result<Staged, String> {
    let line = numbers.map(|n| n.to_string()).join(" ") + "\n";
    stage_asked(to, line.as_bytes())
}

/// Empties an old report, so that it can't be taken for this run's if this run fails. What others wrote through the descriptor
/// of a report is not ours to empty.
pub fn empty_report(report: Option<&Endpoint>) -> Result<(), String> {
    let Some(Endpoint { name, way }) = report else {
        return Ok(());
    };
    match way {
        Way::Path(path) if fs::metadata(path).is_ok_and(|found| found.is_file()) => {
            let emptied = OpenOptions::new().write(true).truncate(true).open(path);
            emptied.map(drop).map_err(|error| unwritten(name, &error))
        }
        _ => Ok(()),
    }
}

/// The error text, on standard error.
pub fn write_errors(text: &[u8]) -> Result<(), String> {
    stage(Endpoint::of(None, standard::ERRORS), text)?.commit()
}

fn unwritten(name: &str, error: &io::Error) -> String {
    format!("{name}: could not be written: {error}")
}

fn step_to(path: &Path, text: &[u8]) -> io::Result<Step> {
    match fs::metadata(path) {
        Ok(found) if found.is_file() => {
            // A write-protected file is not replaced; opening it shows that, and changes nothing.
            OpenOptions::new().write(true).open(path)?;
            let path = fs::canonicalize(path)?;
            Ok(Step::Rename(
                Temporary::beside(&path, text, Some(&found))?,
                path,
            ))
        }
        Ok(found) if found.is_dir() => Err(ErrorKind::IsADirectory.into()),
        Ok(_) => Ok(Step::Direct(path.to_owned(), text.to_vec())),
        Err(error) if error.kind() == ErrorKind::NotFound => {
            if fs::symlink_metadata(path).is_ok() {
                return Err(io::Error::other("it is a link to a file that isn't there"));
            }
            Ok(Step::Rename(
                Temporary::beside(path, text, None)?,
                path.to_owned(),
            ))
        }
        Err(error) => Err(error),
    }
}

/// Through a descriptor; a regular file behind it is flushed too.
fn write_through(mut file: File, text: &[u8]) -> io::Result<()> {
    file.write_all(text)?;
    if file.metadata()?.is_file() {
        file.sync_all()?;
    }
    Ok(())
}

fn write_direct(path: &Path, text: &[u8]) -> io::Result<()> {
    OpenOptions::new().write(true).open(path)?.write_all(text)
}

/// A whole, flushed file under a name of its own; removed unless it was renamed.
struct Temporary {
    path: PathBuf,
    /// Whether it replaces a file.
    replaces: bool,
    /// Until it is removed or renamed.
    watch: Option<Watch>,
}

impl Temporary {
    /// The text in a new file in the folder of `path`. It gets the permissions of the file that it will replace, and that
    /// one's owner where the system lets us.
    fn beside(path: &Path, text: &[u8], replaced: Option<&Metadata>) -> io::Result<Temporary> {
        let (folder, _) = identity::parted(path);
        let mode = if replaced.is_some() { 0o600 } else { 0o666 };
        let (mut file, mut temporary) = Temporary::create(folder, mode)?;
        temporary.replaces = replaced.is_some();
        file.write_all(text)?;
        if let Some(old) = replaced {
            keep_owner(&file, old)?;
            file.set_permissions(Permissions::from_mode(old.mode() & 0o777))?;
        }
        file.sync_all()?;
        Ok(temporary)
    }

    /// An empty file under the first free name.
    fn create(folder: &Path, mode: u32) -> io::Result<(File, Temporary)> {
        for number in 0..100 {
            let path = folder.join(format!(".quenhovach-{}-{number}", std::process::id()));
            match signals::held(|| Temporary::create_at(path, mode)) {
                Err(error) if error.kind() == ErrorKind::AlreadyExists => {}
                Err(error) => {
                    return Err(io::Error::other(format!(
                        "no file can be made in its folder: {error}"
                    )))
                }
                made => return made,
            }
        }
        Err(ErrorKind::AlreadyExists.into())
    }

    fn create_at(path: PathBuf, mode: u32) -> io::Result<(File, Temporary)> {
        let watch = Watch::on(&path)?;
        let mut new = OpenOptions::new();
        let file = new.write(true).create_new(true).mode(mode).open(&path)?;
        let temporary = Temporary {
            path,
            replaces: false,
            watch: Some(watch),
        };
        Ok((file, temporary))
    }

    /// What was made at a free place meanwhile is not ours to replace. Where names are the same in capitals, it may be the sheet.
    fn rename(mut self, path: &Path) -> io::Result<()> {
        if !self.replaces && fs::symlink_metadata(path).is_ok() {
            return Err(io::Error::other("a file was made there meanwhile"));
        }
        signals::held(|| {
            fs::rename(&self.path, path)?;
            self.watch = None;
            Ok(())
        })
    }
}

impl Drop for Temporary {
    fn drop(&mut self) {
        if let Some(watch) = self.watch.take() {
            signals::held(|| {
                let _ = fs::remove_file(&self.path);
                drop(watch);
            });
        }
    }
}

/// Gives a file the owner and group of an old one, if that is allowed.
fn keep_owner(file: &File, old: &Metadata) -> io::Result<()> {
    let new = file.metadata()?;
    if (new.uid(), new.gid()) == (old.uid(), old.gid()) {
        return Ok(());
    }
    match fchown(file, Some(old.uid()), Some(old.gid())) {
        Err(error) if error.kind() == ErrorKind::PermissionDenied => Ok(()),
        done => done,
    }
}
