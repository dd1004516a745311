//! `ed2k merge`: one part.met of the two that two windows want to save.

pub mod changes;
pub mod report;
pub mod versions;

use std::ffi::{OsStr, OsString};
use std::io::Write;

use ed2k::disk::{Mode, Saved, Stored};
use ed2k::{Kind, Refusal};

use crate::arguments::Arguments;
use crate::failure::Failure;
use crate::json::Json;
use crate::store::{self, Store};
use crate::{Outcome, files, text};
use report::Report;
use versions::{OF_MERGE, Version, Versions};

pub const HELP: &str = "\
ed2k merge [--json] [--wait SECONDS] --opened OLD FIRST SECOND OUT

Makes one part.met of two saves of one model, where both are files: 'ed2k save'
merges by itself with what is stored. Two windows opened one part.met, of which
OLD is the copy; FIRST and SECOND are what they want to save. OUT gets:

  bytes    One that OLD misses is there if FIRST or SECOND has it. One that OLD
           has is there unless FIRST or SECOND misses it.
  date     The later one of FIRST and SECOND.
  hashes   The opening byte and the hash lists, as one thing: from the save that
           changed them.
  tags     All but those of gaps, as one list with its order: from the save that
           changed it. The gaps follow, numbered from 0.

Equal changes are one change. If FIRST and SECOND changed the hashes or the tags
in different ways, the merge is refused as a conflict (11), and every change is
shown with its three values. A stock client changes its tag 23 at every save:
two saves of a running client are such a conflict. Files with different file
hashes or sizes are strangers (12). After a refusal nothing is written.

If each of the three files is accepted by itself, FIRST and SECOND may change
places: OUT gets the same bytes, or the merge is refused with the same number.

OUT is a file that is not there yet, or one with the bytes of OLD, FIRST or
SECOND. Any other file that is there is left alone.

    $ ed2k merge --opened opened.copy w1 w2 merged.part.met

OLD, FIRST and SECOND must be three files, not one by several names. OUT is
locked before they are read, and written as 'ed2k save' does it, so that it is
at any moment the old or the new file, whole. Who waited SECONDS (10 unless
given) is told who is saving OUT, and nothing is written.

With --json one object is printed for scripts, on one line; man ed2k lists its
keys. 'number' is 0 for a merge that is made, or the number of its refusal.

Exit status: 0 merged, 1 refused (the own refusal of OLD, FIRST or SECOND; 12;
11; 6: more than 64 gaps or 1,048,576 bytes), 2 wrong usage or a file that
cannot be read or written, or an OUT that is left alone.
";

pub fn run(words: Vec<OsString>, output: &mut dyn Write) -> Outcome {
    let arguments = Arguments::sort(words, &["--wait", "--opened"], &["--json"], "ed2k merge --help")?;
    let [first, second, out] = arguments.operands("FIRST, SECOND and OUT")?;
    let names = [arguments.value("--opened")?, &first, &second];
    if let Some(problem) = one_file_twice(names) {
        return Err(arguments.wrong(problem.into()));
    }
    let store = Store { name: &out, wait: store::wait(&arguments)?, work: names[1..].to_vec() };
    let merge = Merge { names, store };
    match merge.run() {
        Ok(merged) => {
            let printed = merge.print(&merged, arguments.flag("--json"), output);
            printed.map_err(|failure| failure.and_say(format!("{} is saved.", text::file_name(&out))))
        }
        Err(failure) if arguments.flag("--json") => Json::refused(failure, output),
        Err(failure) => Err(failure),
    }
}

/// Why these cannot be the opened file and two saves of it, if one file is named twice.
fn one_file_twice([opened, first, second]: [&OsStr; 3]) -> Option<&'static str> {
    if files::are_one(opened, first) {
        return Some(OPENED_IS_FIRST);
    }
    if files::are_one(opened, second) {
        return Some(OPENED_IS_SECOND);
    }
    files::are_one(first, second).then_some(FIRST_IS_SECOND)
}

const OPENED_IS_FIRST: &str = "\
--opened is FIRST itself: what FIRST changed could not be seen
It takes a copy that was made when the file was opened.";

const OPENED_IS_SECOND: &str = "\
--opened is SECOND itself: what SECOND changed could not be seen
It takes a copy that was made when the file was opened.";

const FIRST_IS_SECOND: &str = "\
FIRST is SECOND itself: there would be nothing to merge
They are two files, each with the work of one window.";

struct Merge<'a> {
    names: [&'a OsStr; 3],
    store: Store<'a>,
}

struct Merged {
    report: Report,
    saved: Saved,
}

impl Merge<'_> {
    /// The lock is taken before anything is read: OUT may be one of the files, and must not change from then on.
    fn run(&self) -> Result<Merged, Failure> {
        let stored = self.store.lock()?;
        let [opened, first, second] = self.read()?;
        let versions = self.accepted([&opened, &first, &second], &stored)?;
        let replaced = self.replaced([&opened, &first, &second], &stored)?;
        let bytes = ed2k::merge(&opened, &first, &second)
            .map_err(|refusal| self.refused(refusal, &versions, &stored))?;
        let report = Report::of(&versions);
        let saved = stored.save(Mode::Strict, replaced, &bytes);
        Ok(Merged { report, saved: saved.map_err(|error| self.store.failure(error))? })
    }

    fn read(&self) -> Result<[Vec<u8>; 3], Failure> {
        let [opened, first, second] = self.names.map(|name| {
            files::read(Kind::PartMet, name).map_err(|failure| failure.and_say("Nothing was written.".into()))
        });
        Ok([opened?, first?, second?])
    }

    /// The three files, or the refusal of the first that is not accepted.
    fn accepted<'f>(&self, files: [&'f [u8]; 3], stored: &Stored) -> Result<Versions<'f>, Failure> {
        Versions::read(OF_MERGE, files).map_err(|(place, refusal)| {
            let what = format!("the {} {}", OF_MERGE.words[place], text::file_name(self.names[place]));
            Failure::refused(what)(refusal).and_say(self.nothing_written(stored))
        })
    }

    /// What OUT holds: nothing, or what one of the files held that were read. All else is somebody's work.
    fn replaced<'f>(&self, files: [&'f [u8]; 3], stored: &Stored) -> Result<&'f [u8], Failure> {
        if !stored.is_there() {
            return Ok(b"");
        }
        let held = stored.read().map_err(|error| self.store.failure(error))?;
        files.into_iter().find(|file| *file == held).ok_or_else(|| self.left_alone(stored))
    }

    fn left_alone(&self, stored: &Stored) -> Failure {
        let out = text::file_name(self.store.name);
        Failure::Unfit(format!("{out} is there and is none of the three files: it is left alone"))
            .and_say(self.nothing_written(stored))
            .and_say(OUT.into())
    }

    /// The refusal of files that are accepted by themselves.
    fn refused(&self, refusal: Refusal, versions: &Versions<'_>, stored: &Stored) -> Failure {
        let what = format!("the merge of {}", text::file_names(&self.names[1..]));
        let (meaning, why) = changes::of_refusal(refusal, versions);
        let failure =
            Failure::refused_as(what, refusal, meaning).and_say(why).and_say(self.nothing_written(stored));
        if refusal == Refusal::Conflict { failure.and_say(ADVICE.into()) } else { failure }
    }

    /// What has become of the files after a refusal.
    fn nothing_written(&self, stored: &Stored) -> String {
        let (out, work) = (text::file_name(self.store.name), text::file_names(&self.names[1..]));
        let state = if stored.is_there() { "as it was" } else { "still not there" };
        format!("Nothing was written: {out} is {state}, and your work is still in {work}.")
    }

    fn print(&self, Merged { report, saved }: &Merged, json: bool, output: &mut dyn Write) -> Outcome {
        let out = text::file_name(self.store.name);
        let outcome = Version::read(&saved.bytes).map_err(Failure::refused(&out))?;
        if json {
            report.print_json(&outcome, saved, output)?;
        } else {
            let [_, first, second] = self.names.map(text::file_name);
            report::line("merged", &format!("{out}, {}", text::bytes(saved.bytes.len() as u64)), output)?;
            report.print(&outcome, [first, second], output)?;
            self.store.print_owner(saved, output)?;
        }
        Ok(output.flush()?)
    }
}

const OUT: &str = "OUT is a file that is not there yet, or one with the bytes of OLD, FIRST or SECOND.";

/// What to do where both saves changed something in different ways.
pub const ADVICE: &str = "To keep the bytes of both, take the save that is right in this, and mark in it (ed2k mark) \
    what the other has (ed2k gaps).";
