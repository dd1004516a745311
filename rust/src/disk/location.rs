//! Where a stored file is, and the names of the files that help to save it.

use std::ffi::{OsStr, OsString};
use std::fs::{self, Metadata};
use std::io::ErrorKind;
use std::os::unix::ffi::OsStrExt;
use std::path::{Path, PathBuf};

use super::{SaveError, Step};

/// A folder, and the name of a file in it. Links are followed, so that all ways to one file have one location; the file
/// itself need not be there.
pub(super) struct Location {
    pub(super) folder: PathBuf,
    name: OsString,
}

impl Location {
    pub(super) fn of(path: &Path) -> Result<Location, SaveError> {
        let real = match fs::canonicalize(path) {
            Ok(real) => real,
            Err(error) if error.kind() == ErrorKind::NotFound && !path.is_symlink() => missing(path)?,
            Err(error) => return Err(Step::Find.failed(path, error)),
        };
        match (real.parent(), real.file_name()) {
            (Some(folder), Some(name)) => Ok(Location { folder: folder.into(), name: name.into() }),
            _ => Err(SaveError::NotAFile),
        }
    }

    /// The file itself.
    pub(super) fn path(&self) -> PathBuf {
        self.folder.join(&self.name)
    }

    /// A helping file beside the file. Files whose long names begin alike share the lock, and so take turns.
    pub(super) fn hidden(&self, ending: &str) -> PathBuf {
        let mut hidden = OsString::from(".");
        let bytes = self.name.as_bytes();
        hidden.push(OsStr::from_bytes(&bytes[..bytes.len().min(NAME_BYTES)]));
        hidden.push(ending);
        self.folder.join(hidden)
    }
}

/// How much of a file's name stands in the names of its helping files, so that these are not too long for the system.
const NAME_BYTES: usize = 240;

/// Where a file that is not there would be.
fn missing(path: &Path) -> Result<PathBuf, SaveError> {
    let name = path.file_name().ok_or(SaveError::NotAFile)?;
    let folder = match path.parent() {
        Some(folder) if !folder.as_os_str().is_empty() => folder,
        _ => Path::new("."),
    };
    let folder = fs::canonicalize(folder).map_err(|error| Step::Find.failed(path, error))?;
    Ok(folder.join(name))
}

/// What the system knows of a file, if it is there; what is no file is left alone, and a pipe is not waited for.
pub(super) fn regular(path: &Path) -> Result<Option<Metadata>, SaveError> {
    match fs::metadata(path) {
        Err(error) if error.kind() == ErrorKind::NotFound => Ok(None),
        Err(error) => Err(Step::Read.failed(path, error)),
        Ok(found) if found.is_file() => Ok(Some(found)),
        Ok(_) => Err(SaveError::NotAFile),
    }
}
