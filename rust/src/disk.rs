//! Saving a part.met to the disk: what others saved since is kept, and the file is whole at any moment.
//!
//! An editor keeps the bytes that it opened. When its work is to be stored, [`save`] does all of this:
//!
//! 1. It takes the lock of the file, an empty file `.NAME.lock` beside it that is there during the save. Every user who may
//!    write the folder can take it. Whoever holds it too long is named ([`SaveError::Locked`]).
//! 2. It reads the stored file and has the proved code make the save that the [`Mode`] names ([`crate::save`] or
//!    [`crate::save_strict`]). If the stored bytes are those that were opened, the new ones are stored. If not, they are merged
//!    with what is stored, or it is a conflict. A file that is not there counts as empty.
//! 3. It makes a new file `.NAME.saving` beside it, and gives it the owner, group, permissions and extended attributes of the
//!    old one, before a byte is written. Where the owner cannot be kept, the group is, so that the owner is not locked out;
//!    where that would not do, nothing is saved ([`SaveError::Unkept`]).
//! 4. It writes the bytes, brings them to the disk, renames the new file to the stored one, and brings the folder to the disk.
//!
//! However this is interrupted, the stored file is the old or the new one, whole. What a killed save left beside it does no
//! harm, and the next save removes it. A program that saves without the lock is not held off. Other hard links to the stored
//! file keep the old one.
//!
//! ```
//! use ed2k::disk::{self, Mode, SaveError, WAIT};
//! use ed2k::{GapRecord, Refusal, put_gaps};
//! # let folder = std::env::temp_dir().join(format!("ed2k disk {}", std::process::id()));
//! # std::fs::create_dir(&folder)?;
//! # let path = folder.join("001.part.met");
//! # let file = [&[0xE0, 0, 0, 0, 0][..], &[7; 16], &[0, 0], &[1, 0, 0, 0, 3, 1, 0, 2, 100, 0, 0, 0]].concat();
//! # let model = put_gaps(&file, &GapRecord::all_missing(100)?)?;
//! # let marked = |opened: &[u8], start, end| {
//! #     let mut record = GapRecord::read(opened)?;
//! #     record.mark(start, end)?;
//! #     put_gaps(opened, &record)
//! # };
//!
//! // The model's first save: nothing was opened.
//! let opened = disk::save(&path, Mode::Strict, b"", &model, WAIT)?.bytes;
//!
//! // Two windows opened the file, and each marks what arrived in it. The first one saves:
//! disk::save(&path, Mode::Merge, &opened, &marked(&opened, 0, 30)?, WAIT)?;
//!
//! // The archive job would be told, and nothing would be lost:
//! match disk::save(&path, Mode::Strict, &opened, &marked(&opened, 60, 100)?, WAIT) {
//!     Err(SaveError::Refused(Refusal::Conflict)) => (),
//!     other => panic!("{other:?}"),
//! }
//!
//! // What the second window saves is merged. It goes on from the bytes that are stored now:
//! let saved = disk::save(&path, Mode::Merge, &opened, &marked(&opened, 60, 100)?, WAIT)?;
//! assert!(saved.merged_with.is_some());
//! assert_eq!(GapRecord::read(&saved.bytes)?.missing(), 30);
//! disk::save(&path, Mode::Merge, &saved.bytes, &marked(&saved.bytes, 30, 60)?, WAIT)?;
//! assert_eq!(GapRecord::read(&std::fs::read(&path)?)?.missing(), 0);
//! # std::fs::remove_dir_all(&folder)?;
//! # Ok::<(), Box<dyn std::error::Error>>(())
//! ```
//!
//! To change a file by itself, as `ed2k mark` does, [`Stored`] holds the lock from the reading to the saving. All of this is for
//! Linux, as the archive is.

mod error;
mod keeping;
mod location;
mod lock;
#[allow(unsafe_code)]
mod system;
mod users;

use std::fs::{self, File, OpenOptions};
use std::io::{self, ErrorKind, Read, Write};
use std::os::unix::fs::OpenOptionsExt;
use std::path::{Path, PathBuf};
use std::time::Duration;

use crate::kind::MET_CEILING;
use crate::refusal::Refusal;

pub use error::{SaveError, Step};
pub use keeping::Unkept;
pub use lock::Holder;

use keeping::{NotGiven, keep};
use location::{Location, regular};
use lock::{Lock, NotTaken};

/// How long to wait for another's save where a person waits too. A save takes some thousandths of a second.
pub const WAIT: Duration = Duration::from_secs(10);

/// Which save is made.
#[derive(Clone, Copy, Debug, PartialEq, Eq)]
pub enum Mode {
    /// [`crate::save`]: what was saved since the file was opened is merged with the new bytes.
    Merge,
    /// [`crate::save_strict`]: it is a conflict if anything was saved since the file was opened. The archive job, which must never
    /// store a file that no window wrote, and a model's first save ask for this one.
    Strict,
}

impl Mode {
    /// What is to be stored from now on, by the call that the mode names.
    pub fn save(self, stored: &[u8], opened: &[u8], new: &[u8]) -> Result<Vec<u8>, Refusal> {
        match self {
            Mode::Merge => crate::save(stored, opened, new),
            Mode::Strict => crate::save_strict(stored, opened, new),
        }
    }

    /// How much of the stored file that call needs. A byte more than was opened is enough to see that they differ; a merge needs
    /// all, and of a file above the ceiling a byte more than that, for which it is refused whatever follows.
    fn needed(self, opened: &[u8]) -> usize {
        match self {
            Mode::Merge => opened.len().max(MET_CEILING) + 1,
            Mode::Strict => opened.len() + 1,
        }
    }
}

/// Saves the new bytes over the stored file, in the way that the mode says; waits at most so long for saves of others. A file
/// that is not there counts as empty, so that nothing opened makes a first save.
///
/// All that [`Stored::lock`] and [`Stored::save`] do and refuse.
pub fn save(
    path: impl AsRef<Path>,
    mode: Mode,
    opened: &[u8],
    new: &[u8],
    wait: Duration,
) -> Result<Saved, SaveError> {
    Stored::lock(path, wait)?.save(mode, opened, new)
}

/// What has been saved.
#[derive(Clone, Debug, PartialEq, Eq)]
pub struct Saved {
    /// The bytes that the stored file has now. A window goes on from them, and keeps them as what it opened, for its next save.
    pub bytes: Vec<u8>,
    /// What was stored before, if that was not what was opened. Then `bytes` is its merge with the new bytes.
    pub merged_with: Option<Vec<u8>>,
    /// Whether its owner is the same as before. If not, it is the user who saved; group and permissions are the same.
    pub owner_kept: bool,
}

/// A stored file, and its lock, which no other save has as long as this value lives.
///
/// ```
/// use ed2k::disk::{Mode, Stored, WAIT};
/// use ed2k::{GapRecord, put_gaps};
/// # let folder = std::env::temp_dir().join(format!("ed2k stored {}", std::process::id()));
/// # std::fs::create_dir(&folder)?;
/// # let path = folder.join("001.part.met");
/// # let file = [&[0xE0, 0, 0, 0, 0][..], &[7; 16], &[0, 0], &[1, 0, 0, 0, 3, 1, 0, 2, 100, 0, 0, 0]].concat();
/// # std::fs::write(&path, put_gaps(&file, &GapRecord::all_missing(100)?)?)?;
///
/// let stored = Stored::lock(&path, WAIT)?;
/// let opened = stored.read()?;
/// let mut record = GapRecord::read(&opened)?;
/// record.mark(40, 60)?;
/// stored.save(Mode::Strict, &opened, &put_gaps(&opened, &record)?)?;
/// drop(stored);
///
/// assert_eq!(GapRecord::read(&std::fs::read(&path)?)?.missing(), 80);
/// # std::fs::remove_dir_all(&folder)?;
/// # Ok::<(), Box<dyn std::error::Error>>(())
/// ```
#[derive(Debug)]
pub struct Stored {
    path: PathBuf,
    folder: PathBuf,
    new_path: PathBuf,
    _lock: Lock,
}

impl Stored {
    /// Takes the lock of the file, and waits at most so long for it. Links are followed, so that all ways to one file have
    /// one lock. What a killed save left is removed.
    ///
    /// [`SaveError::Locked`] if another has the lock all the time, [`SaveError::NotAFile`] for a folder, a pipe or a device.
    pub fn lock(path: impl AsRef<Path>, wait: Duration) -> Result<Stored, SaveError> {
        let location = Location::of(path.as_ref())?;
        let path = location.path();
        regular(&path)?;
        let lock_path = location.hidden(".lock");
        let lock = Lock::take(lock_path.clone(), wait).map_err(|problem| match problem {
            NotTaken::Held(holder) => SaveError::Locked { holder },
            NotTaken::System(error) => Step::Lock.failed(&lock_path, error),
        })?;
        let new_path = location.hidden(".saving");
        // It cannot be in use, as the lock is ours.
        match fs::remove_file(&new_path) {
            Err(error) if error.kind() != ErrorKind::NotFound => Err(Step::CleanUp.failed(&new_path, error)),
            _ => Ok(Stored { path, folder: location.folder, new_path, _lock: lock }),
        }
    }

    /// Where the file is, with links followed.
    pub fn path(&self) -> &Path {
        &self.path
    }

    /// Whether there is such a file.
    pub fn is_there(&self) -> bool {
        self.path.exists()
    }

    /// The file's bytes; of a file above [`MET_CEILING`] one byte more than that, for which it is refused whatever follows.
    /// A file that is not there is an error here.
    pub fn read(&self) -> Result<Vec<u8>, SaveError> {
        let read = File::open(&self.path).and_then(|file| beginning(file, MET_CEILING + 1));
        read.map_err(|error| self.unreadable(error))
    }

    fn unreadable(&self, error: io::Error) -> SaveError {
        Step::Read.failed(&self.path, error)
    }

    /// Saves the new bytes, in the way that the mode says.
    ///
    /// [`SaveError::Refused`] as [`crate::save`] or [`crate::save_strict`] refuses; [`SaveError::ReadOnly`] for a file that may
    /// not be written; [`SaveError::Unkept`] where somebody would be locked out. After these, and after all others but
    /// [`SaveError::Unsynced`], the stored file is as it was.
    pub fn save(&self, mode: Mode, opened: &[u8], new: &[u8]) -> Result<Saved, SaveError> {
        let stored = match File::open(&self.path) {
            Ok(file) => beginning(file, mode.needed(opened)),
            Err(error) if error.kind() == ErrorKind::NotFound => Ok(vec![]),
            Err(error) => Err(error),
        };
        let stored = stored.map_err(|error| self.unreadable(error))?;
        let bytes = mode.save(&stored, opened, new)?;
        let owner_kept = self.replace(&bytes)?;
        Ok(Saved { bytes, merged_with: (stored != opened).then_some(stored), owner_kept })
    }

    /// Makes the bytes the file's contents: until the renaming the file is the old one, from then on the new one. Whether it has the
    /// old one's owner.
    fn replace(&self, bytes: &[u8]) -> Result<bool, SaveError> {
        let old = self.replaceable()?;
        let renamed = self.write_new(bytes, old.as_ref()).and_then(|owner_kept| {
            let renamed = fs::rename(&self.new_path, &self.path);
            renamed.map_err(|error| Step::Replace.failed(&self.path, error)).map(|()| owner_kept)
        });
        let owner_kept = renamed.inspect_err(|_| {
            // The failure is what is reported; what cannot be removed now, the next save removes.
            let _ = fs::remove_file(&self.new_path);
        })?;
        let synced = File::open(&self.folder).and_then(|folder| folder.sync_all());
        synced.map_err(SaveError::Unsynced).map(|()| owner_kept)
    }

    /// The old file, if it is there and may be written. Renaming would replace a file that may not be written too, but who
    /// protects a file means to keep it.
    fn replaceable(&self) -> Result<Option<File>, SaveError> {
        let Some(old) = regular(&self.path)? else {
            return Ok(None);
        };
        if old.permissions().readonly() {
            return Err(SaveError::ReadOnly);
        }
        let opened = OpenOptions::new().read(true).write(true).open(&self.path);
        opened.map(Some).map_err(|error| Step::Open.failed(&self.path, error))
    }

    /// Writes the new file and brings it to the disk; whether it has the old one's owner. Nobody else can read it before it
    /// has the old one's permissions.
    fn write_new(&self, bytes: &[u8], old: Option<&File>) -> Result<bool, SaveError> {
        let failed = |error| Step::Write.failed(&self.new_path, error);
        let mode = if old.is_some() { 0o600 } else { 0o666 };
        let made = OpenOptions::new().read(true).write(true).create_new(true).mode(mode).open(&self.new_path);
        let mut new = made.map_err(failed)?;
        let owner_kept = old.map_or(Ok(true), |old| keep(old, &new)).map_err(|problem| match problem {
            NotGiven::Unkept(unkept) => SaveError::Unkept(unkept),
            NotGiven::System(error) => failed(error),
        })?;
        new.write_all(bytes).and_then(|()| new.sync_all()).map_err(failed)?;
        Ok(owner_kept)
    }
}

/// So many bytes from the front, or all if there are fewer.
fn beginning(file: File, limit: usize) -> io::Result<Vec<u8>> {
    let mut bytes = Vec::new();
    file.take(limit as u64).read_to_end(&mut bytes)?;
    Ok(bytes)
}
