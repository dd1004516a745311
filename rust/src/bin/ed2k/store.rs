//! What `save`, `mark` and `merge` do alike with a stored file: waiting for its lock, and what to say where the disk says no.

use std::ffi::OsStr;
use std::io::{self, Write};
use std::path::Path;
use std::time::Duration;

use ed2k::disk::{self, Holder, SaveError, Saved, Step, Stored, Unkept};

use crate::arguments::Arguments;
use crate::failure::Failure;
use crate::{Outcome, text};

/// How long others' saves are waited for without a word.
const SILENT: Duration = Duration::from_secs(1);

/// A stored file that is to be changed.
pub struct Store<'a> {
    /// Its name, as it was given.
    pub name: &'a OsStr,
    /// How long to wait for others' saves.
    pub wait: Duration,
    /// The files that have people's work, if those are others.
    pub work: Vec<&'a OsStr>,
}

/// How long to wait for others' saves: as long as --wait says, or as a person would.
pub fn wait(arguments: &Arguments) -> Result<Duration, Failure> {
    let Ok(word) = arguments.value("--wait") else {
        return Ok(disk::WAIT);
    };
    let wrong = || {
        arguments.wrong(format!("--wait is a number of seconds in decimal, not {}", text::file_name(word)))
    };
    word.to_str().and_then(text::number).map(Duration::from_secs).ok_or_else(wrong)
}

impl Store<'_> {
    /// Takes the lock of the file. Who wonders why that takes long is told.
    pub fn lock(&self) -> Result<Stored, Failure> {
        let silent = SILENT.min(self.wait);
        let locked = match Stored::lock(self.name, silent) {
            Err(SaveError::Locked { holder }) if silent < self.wait => {
                let line = format!("ed2k: {}; waiting for it", self.held_by(holder));
                let _ = write!(io::stderr(), "{}", text::message(&line));
                Stored::lock(self.name, self.wait - silent)
            }
            other => other,
        };
        locked.map_err(|error| self.failure(error))
    }

    fn held_by(&self, holder: Option<Holder>) -> String {
        let name = text::file_name(self.name);
        match holder {
            Some(holder) => format!("{name} is being saved by {holder}"),
            None => format!("{name} is being saved by a process that cannot be named"),
        }
    }

    /// What has become of the files where nothing was saved, in a line each.
    pub fn nothing_lost(&self) -> String {
        let kept = format!("Nothing was lost: {} is as it was.", text::file_name(self.name));
        if self.work.is_empty() {
            return kept;
        }
        format!("{kept}\nYour work is still in {}.", text::file_names(&self.work))
    }

    /// Says whose the file is, if it is another's than before.
    pub fn print_owner(&self, saved: &Saved, output: &mut dyn Write) -> Outcome {
        if !saved.owner_kept {
            let name = text::file_name(self.name);
            let line = format!("{name} belongs to you now; its group and permissions are as they were");
            write!(output, "{}", text::message(&line))?;
        }
        Ok(())
    }

    /// What happened, what was not lost, and what to do next.
    pub fn failure(&self, error: SaveError) -> Failure {
        let (name, kept) = (text::file_name(self.name), self.nothing_lost());
        match error {
            SaveError::Refused(refusal) => Failure::refused(name)(refusal).and_say(kept),
            SaveError::Locked { holder } => {
                Failure::Unfit(self.held_by(holder)).and_say(kept).and_say(self.locked_advice())
            }
            SaveError::NotAFile => Failure::Unfit(format!("{name} is not a file")).and_say(kept),
            SaveError::ReadOnly => Failure::Unfit(format!("{name} is read-only")).and_say(kept),
            SaveError::Unkept(unkept) => {
                let (harm, advice) = of_unkept(&unkept);
                Failure::Unfit(format!("{name} is not saved: {harm}"))
                    .and_say(format!("In the new file {unkept}."))
                    .and_say(kept)
                    .and_say(advice.into())
            }
            SaveError::Unsynced(error) => {
                Failure::file(format!("bring the folder of {name} to the disk"))(error)
                    .and_say(format!("{name} is saved, but a power cut might undo it."))
            }
            SaveError::System { step, path, error } => self.not_allowed(step, &path, error),
            _ => Failure::Unfit(format!("{name} cannot be saved: {error}")).and_say(kept),
        }
    }

    fn locked_advice(&self) -> String {
        let seconds = text::count(self.wait.as_secs() as usize, "second", "seconds");
        format!(
            "Waited {seconds} for it. Try again, or wait longer with --wait SECONDS.\n\
             If that process hangs, end it: the lock is then free by itself."
        )
    }

    fn not_allowed(&self, step: Step, path: &Path, error: io::Error) -> Failure {
        let name = text::file_name(self.name);
        let lock_is_there = step == Step::Lock && path.symlink_metadata().is_ok();
        let helping = text::file_name(path.file_name().unwrap_or_default());
        let tried = match step {
            Step::Find => format!("find {name}"),
            Step::Lock => format!("take the lock {helping} beside {name}"),
            Step::CleanUp => format!("remove {helping} beside {name}, which a killed save left"),
            Step::Read => format!("read {name}"),
            Step::Write => format!("write {helping} beside {name}"),
            Step::Replace => format!("replace {name}"),
            _ => format!("write {name}"),
        };
        let failure = Failure::file(tried)(error).and_say(self.nothing_lost());
        if lock_is_there {
            return failure
                .and_say(format!("If no save of {name} is running, remove {helping} and try again."));
        }
        failure
    }
}

/// What the save would do, and what to do instead.
fn of_unkept(unkept: &Unkept) -> (&'static str, &'static str) {
    match unkept {
        Unkept::OwnerAndGroup { .. } | Unkept::Owner { .. } => (
            "its owner would be locked out of it",
            "Ask its owner to save it, or to give it a group that you are both in.",
        ),
        Unkept::Group { .. } => (
            "what its group may do with it would change",
            "Give it a group that you are in (chgrp), then save again.",
        ),
        Unkept::Attribute { .. } => {
            ("it would lose an attribute", "Ask its owner or an administrator to save it.")
        }
    }
}
