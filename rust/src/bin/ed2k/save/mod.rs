//! `ed2k save`: saves a part.met, merged with what was saved since it was opened; the strict save is a conflict instead.

mod refused;

use std::ffi::{OsStr, OsString};
use std::fs;
use std::io::Write;

use ed2k::disk::{Mode, SaveError, Saved};
use ed2k::{Kind, MET_CEILING};

use crate::arguments::Arguments;
use crate::failure::Failure;
use crate::merge::report::Report;
use crate::merge::versions::{OF_SAVE, Version, Versions};
use crate::store::{self, Store};
use crate::{Outcome, files, text};

pub const HELP: &str = "\
ed2k save [--strict] [--wait SECONDS] --opened OLD --new NEW STORED

Saves the part.met NEW as STORED. OLD is the copy of STORED as it was opened.

If STORED is still that file, byte for byte, it becomes NEW. If somebody has
saved it since, it becomes the merge of what is stored and NEW, as 'ed2k merge'
makes it with STORED as FIRST and NEW as SECOND, and so has what both brought.
The first word that is printed says which it was, 'saved' or 'merged'. Of a
merge it is said what each of the two brought, and what is missing now. If two
windows changed the part.met that both opened, it does not matter which of them
saves first: STORED has the same bytes in the end, or the one that saves second
is refused with the same number.

If both changed the hashes or the tags in different ways, the save is refused as
a conflict (11), and every change is shown with its three values. A stock client
changes its tag 23 at every save: two saves of a running client are such a
conflict. Files with different file hashes or sizes are strangers (12). After a
refusal nothing is changed, and your work is where it was.

With --strict nothing is merged: if somebody has saved STORED since, that is the
conflict (11). The archive job, which must never store a file that no window
wrote, and the first save of a model ask for this.

A first save: where STORED is not there, it counts as empty, and so does OLD. So
NEW is stored if neither is there (or OLD is empty). If only one of them is,
nothing is changed: with --strict that is a conflict, else the one that is empty
is refused (1). Neither OLD nor NEW may be STORED itself by another name. NEW
may be - for standard input.

Saves of one file wait for each other by a lock on '.STORED.lock', an empty file
beside STORED that is there during the save; OLD and NEW are read before. Who
waited SECONDS (10 unless given) is told who holds the lock, and nothing is
saved.

The new file is written to '.STORED.saving' beside it, brought to the disk, and
renamed to STORED. However this is interrupted, STORED is the old or the new
file, whole. What a killed save left beside it does no harm, and the next save
removes it. A program that saves without this lock is not held off.

STORED keeps its owner, group, permissions and extended attributes, and access
control lists are among these. Who may not give files away becomes the owner of
STORED, which stays with its group, so that its old owner is not locked out.
Where that would not do, nothing is saved. Not kept are attributes that the
system itself gives (security.*), and other hard links: these keep the old file.

Exit status: 0 saved or merged, 1 refused (NEW's own refusal; with --strict 11;
else, where STORED is not the file that was opened, the own refusal of OLD or of
STORED; 12; 11; 6: more than 64 gaps or 1,048,576 bytes), 2 wrong usage or a
file that cannot be read or written.
";

pub fn run(words: Vec<OsString>, output: &mut dyn Write) -> Outcome {
    let with_value = ["--wait", "--opened", "--new"];
    let arguments = Arguments::sort(words, &with_value, &["--strict"], "ed2k save --help")?;
    let [stored] = arguments.operands("STORED")?;
    let (opened, new) = (arguments.value("--opened")?, arguments.value("--new")?);
    if files::are_one(opened, &stored) {
        return Err(arguments.wrong(OPENED_IS_STORED.into()));
    }
    if new != "-" && files::are_one(new, &stored) {
        return Err(arguments.wrong(NEW_IS_STORED.into()));
    }
    let mode = if arguments.flag("--strict") { Mode::Strict } else { Mode::Merge };
    let work = if new == "-" { vec![] } else { vec![new] };
    let store = Store { name: &stored, wait: store::wait(&arguments)?, work };
    let save = Save { mode, opened, new, store };
    save.run()?.print(&save, output).map_err(|failure| {
        let line = format!("{} is saved.", text::file_name(&stored));
        failure.and_say(line)
    })
}

const OPENED_IS_STORED: &str = "\
--opened is STORED itself: what was saved since could not be seen
It takes a copy that was made when the file was opened.";

const NEW_IS_STORED: &str = "\
--new is STORED itself: there would be nothing to save
It takes a file of its own, with the work that is to be stored.";

struct Save<'a> {
    mode: Mode,
    opened: &'a OsStr,
    new: &'a OsStr,
    store: Store<'a>,
}

impl Save<'_> {
    /// OLD and NEW are read before the lock is taken: they may be pipes, and who is waited for must not hold up others.
    fn run(&self) -> Result<Done, Failure> {
        let new = files::read_input(Kind::PartMet, self.new)?;
        let room = self.room();
        let opened = files::read_or_empty(room, self.opened)?;
        if opened.len() == room {
            // It is longer than STORED, and was not read to its end: that they differ is known, and that no merge takes it.
            let refusal = self.mode.save(b"", &opened, &new).expect_err("what was opened is not empty");
            return Err(self.refused(refusal, [&opened, b"", &new]));
        }
        let stored = self.store.lock()?;
        match stored.save(self.mode, &opened, &new) {
            Ok(saved) => Ok(Done { opened, new, saved }),
            Err(SaveError::Refused(refusal)) => {
                // It is read again for what is said. A file that is not there counts as empty.
                let held = stored.read().unwrap_or_default();
                Err(self.refused(refusal, [&opened, &held, &new]))
            }
            Err(other) => Err(self.store.failure(other)),
        }
    }

    /// More bytes than STORED has, and than any part.met.
    fn room(&self) -> usize {
        let length = fs::metadata(self.store.name).map_or(0, |stored| stored.len());
        MET_CEILING.max(length as usize) + 1
    }
}

/// The bytes of OLD and of NEW, and what was made of them.
struct Done {
    opened: Vec<u8>,
    new: Vec<u8>,
    saved: Saved,
}

impl Done {
    fn print(&self, save: &Save<'_>, output: &mut dyn Write) -> Outcome {
        let (stored, new) = (text::file_name(save.store.name), text::input_name(save.new));
        let length = text::bytes(self.saved.bytes.len() as u64);
        match &self.saved.merged_with {
            None => {
                let line = format!("saved: {stored} is now {new}, {length}");
                write!(output, "{}", text::message(&line))?;
            }
            Some(held) => {
                let line = format!("merged: {stored} now holds your save and what was saved since, {length}");
                write!(output, "{}", text::message(&line))?;
                self.report(held).print(&self.outcome(), [stored, new], output)?;
            }
        }
        save.store.print_owner(&self.saved, output)?;
        Ok(output.flush()?)
    }

    /// What came from the stored file, which held these bytes, and what from the new one.
    fn report(&self, held: &[u8]) -> Report {
        let read = Versions::read(OF_SAVE, [&self.opened, held, &self.new]);
        Report::of(&read.expect("what was merged was accepted"))
    }

    fn outcome(&self) -> Version<'_> {
        Version::read(&self.saved.bytes).expect("what was saved is accepted")
    }
}
