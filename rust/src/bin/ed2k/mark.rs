//! `ed2k mark`: marks bytes of a model as arrived, and saves its part.met.

use std::ffi::{OsStr, OsString};
use std::io::Write;

use ed2k::disk::{Mode, Saved};
use ed2k::{GapRecord, Kind, Refusal};

use crate::arguments::Arguments;
use crate::failure::Failure;
use crate::store::{self, Store};
use crate::{Outcome, files, gaps, text};

pub const HELP: &str = "\
ed2k mark [--dry-run] [--wait SECONDS] FILE START END

Marks the bytes from START up to END, which is the first byte that is not
meant, as arrived in the part.met FILE, and says what is still missing. Numbers
are taken as 'ed2k gaps' prints them (7,321,600) and without commas.

FILE is changed: its gaps are written anew after its other tags, and it is
saved as 'ed2k save' does it, so that FILE is at any moment the old or the new
file, whole. Marks made at the same time wait for each other and all count; one
that waited SECONDS (10 unless given) is told who is saving FILE, and marks
nothing. If all the bytes have arrived before, FILE stays as it is. With
--dry-run FILE stays as it is in any case and only the outcome is shown.

Exit status: 0 marked, 1 refused (8: not START < END <= size of the model, or
damaged gaps; 6: more than 64 gaps would be left; or the file's own refusal),
2 wrong usage or a file that cannot be read or written.
";

pub fn run(words: Vec<OsString>, output: &mut dyn Write) -> Outcome {
    let arguments = Arguments::sort(words, &["--wait"], &["--dry-run"], "ed2k mark --help")?;
    let [name, start, end] = arguments.operands("FILE, START and END")?;
    let (start, end) = (arguments.number("START", &start)?, arguments.number("END", &end)?);
    let store = Store { name: &name, wait: store::wait(&arguments)?, work: vec![] };
    let mark = Mark { name: &name, start, end };
    if arguments.flag("--dry-run") {
        let marked = mark.on(&files::read(Kind::PartMet, &name)?)?;
        marked.report(output)?;
        Ok(writeln!(output, "not saved, as --dry-run asks")?)
    } else {
        let (marked, saved) = mark.saved(&store)?;
        marked.print(&store, saved, output)
    }
}

struct Mark<'a> {
    name: &'a OsStr,
    start: u64,
    end: u64,
}

struct Marked {
    new: Vec<u8>,
    before: u64,
    record: GapRecord,
}

impl Mark<'_> {
    fn refused(&self, refusal: Refusal) -> Failure {
        Failure::refused(text::file_name(self.name))(refusal)
    }

    /// The part.met with the bytes marked.
    fn on(&self, file: &[u8]) -> Result<Marked, Failure> {
        let mut record = GapRecord::read(file).map_err(|refusal| self.refused(refusal))?;
        let before = record.missing();
        record.mark(self.start, self.end).map_err(|refusal| self.range_refused(&record, refusal))?;
        let new = ed2k::put_gaps(file, &record).map_err(|refusal| self.refused(refusal))?;
        Ok(Marked { new, before, record })
    }

    fn range_refused(&self, record: &GapRecord, refusal: Refusal) -> Failure {
        let (start, end) = (text::grouped(self.start), text::grouped(self.end));
        let what = format!("the mark from {start} up to {end} in {}", text::file_name(self.name));
        let size = text::bytes(record.size());
        let more = match refusal {
            Refusal::Limit => "A part.met has at most 64 gaps. Nothing was changed.".into(),
            _ => format!(
                "START must be below END, and END at most the model's size, {size}.\nNothing was changed."
            ),
        };
        Failure::refused(what)(refusal).and_say(more)
    }

    /// Marks under the lock, from reading to renaming. Where that changes nothing, nothing is saved: a strict save of another
    /// window would be refused for it. The file must not have changed since it was read, by a program that takes no lock.
    fn saved(&self, store: &Store) -> Result<(Marked, Option<Saved>), Failure> {
        let stored = store.lock()?;
        let opened = stored.read().map_err(|error| store.failure(error))?;
        let marked = self.on(&opened)?;
        if marked.arrived() == 0 {
            return Ok((marked, None));
        }
        let saved = stored.save(Mode::Strict, &opened, &marked.new).map_err(|error| store.failure(error))?;
        Ok((marked, Some(saved)))
    }
}

impl Marked {
    /// How many bytes have arrived that were missing before.
    fn arrived(&self) -> u64 {
        self.before - self.record.missing()
    }

    fn print(&self, store: &Store, saved: Option<Saved>, output: &mut dyn Write) -> Outcome {
        let name = text::file_name(store.name);
        let Some(saved) = saved else {
            self.report(output)?;
            let line = format!("these bytes had arrived before: {name} is as it was");
            return Ok(write!(output, "{}", text::message(&line))?);
        };
        let mut printed = || -> Outcome {
            self.report(output)?;
            let line = format!("saved    {name}, {}", text::bytes(saved.bytes.len() as u64));
            write!(output, "{}", text::message(&line))?;
            store.print_owner(&saved, output)?;
            Ok(output.flush()?)
        };
        printed().map_err(|failure| failure.and_say(format!("{name} is saved.")))
    }

    fn report(&self, output: &mut dyn Write) -> Outcome {
        writeln!(output, "arrived  {}", text::bytes(self.arrived()))?;
        gaps::missing_line(&self.record, output)
    }
}
