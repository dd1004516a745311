//! Why a save to the disk is not made.

use std::error::Error;
use std::fmt;
use std::io;
use std::path::{Path, PathBuf};

use super::keeping::Unkept;
use super::lock::Holder;
use crate::refusal::Refusal;

/// Why a stored file is not locked, read or saved. After each but [`SaveError::Unsynced`] it is as it was.
#[derive(Debug)]
#[non_exhaustive]
pub enum SaveError {
    /// The proved code refuses, as [`crate::save`] or [`crate::save_strict`] does: with the reader's number for the new bytes, or
    /// because the stored file is not the one that was opened. A strict save is then a conflict ([`Refusal::Conflict`]); the other
    /// one is refused as the merge is, whose conflict is something that was changed in two different ways.
    Refused(Refusal),
    /// Another save has the lock, and did not let go of it in time.
    Locked {
        /// Who has it, if the system says: it does not of another machine's processes.
        holder: Option<Holder>,
    },
    /// The path is that of a folder, a pipe or a device.
    NotAFile,
    /// The stored file may not be written.
    ReadOnly,
    /// The new file could not keep what the old one has, and somebody would have been locked out. Nothing was written.
    Unkept(Unkept),
    /// The system does not allow a step.
    System {
        /// What was tried.
        step: Step,
        /// The file at which it was tried: the stored one, or one that helps to save it.
        path: PathBuf,
        /// What the system says.
        error: io::Error,
    },
    /// The new file is stored, but its folder could not be brought to the disk: a power cut might undo the save.
    Unsynced(io::Error),
}

/// What a save does with the files on the disk.
#[derive(Clone, Copy, Debug, PartialEq, Eq)]
#[non_exhaustive]
pub enum Step {
    /// Following the path and its links.
    Find,
    /// Taking the lock.
    Lock,
    /// Removing what a killed save left.
    CleanUp,
    /// Reading the stored file.
    Read,
    /// Opening the stored file as one that may be written.
    Open,
    /// Writing the new file beside the stored one.
    Write,
    /// Renaming the new file to the stored one.
    Replace,
}

impl Step {
    pub(super) fn failed(self, path: &Path, error: io::Error) -> SaveError {
        SaveError::System { step: self, path: path.into(), error }
    }

    fn words(self) -> &'static str {
        match self {
            Step::Find => "find",
            Step::Lock => "take the lock",
            Step::CleanUp => "remove",
            Step::Read => "read",
            Step::Open => "write to",
            Step::Write => "write",
            Step::Replace => "replace",
        }
    }
}

impl From<Refusal> for SaveError {
    fn from(refusal: Refusal) -> SaveError {
        SaveError::Refused(refusal)
    }
}

impl fmt::Display for SaveError {
    fn fmt(&self, f: &mut fmt::Formatter<'_>) -> fmt::Result {
        match self {
            SaveError::Refused(refusal) => refusal.fmt(f),
            SaveError::Locked { holder: Some(holder) } => write!(f, "the file is being saved by {holder}"),
            SaveError::Locked { holder: None } => f.write_str("the file is being saved by another process"),
            SaveError::NotAFile => f.write_str("it is not a file"),
            SaveError::ReadOnly => f.write_str("the file is read-only"),
            SaveError::Unkept(unkept) => write!(f, "the file is not saved: {unkept}"),
            SaveError::System { step, path, error } => {
                write!(f, "cannot {} {}: {error}", step.words(), path.display())
            }
            SaveError::Unsynced(error) => {
                write!(f, "the file is saved, but a power cut might undo it: its folder: {error}")
            }
        }
    }
}

impl Error for SaveError {
    fn source(&self) -> Option<&(dyn Error + 'static)> {
        match self {
            SaveError::Refused(refusal) => Some(refusal),
            SaveError::System { error, .. }
            | SaveError::Unsynced(error)
            | SaveError::Unkept(Unkept::Attribute { error, .. }) => Some(error),
            _ => None,
        }
    }
}
