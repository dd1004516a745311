//! `ed2k search`: the entries of a known.met for which a query holds.

use std::ffi::{OsStr, OsString};
use std::io::{self, Write};
use std::os::unix::ffi::OsStrExt;

use ed2k::{Bound, FileEntries, FileEntry, Kind, Operator, Refusal, write};

use crate::arguments::Arguments;
use crate::failure::Failure;
use crate::{Outcome, files, text};

pub const HELP: &str = "\
ed2k search [--name TEXT] [--type TYPE] [--min SIZE] [--max SIZE]
            [QUERY-FILE] KNOWN-MET

Prints the names of the models in the known.met that are looked for, one to a
line, in the order of the file. A model without a name is shown by its hash.
How many were found is written to standard error.

  --name TEXT   TEXT occurs in the name, with the same capitals and spaces
  --type TYPE   the type is TYPE, as Audio, Video, Image, Pro, Doc or Col; a
                model without a type in the file is not found
  --min SIZE    the model has at least SIZE bytes
  --max SIZE    the model has at most SIZE bytes

All that are given must hold. A SIZE is taken with commas (7,321,600) and
without, up to 4,294,967,295.

    $ ed2k search --name 'ball girth' --min 1,000,000 known.met

QUERY-FILE holds the bytes of one query and nothing else, as they stand in a
Search file packet after the opcode; it may be - for standard input. It must
hold too. For models with 'last' or with 'heel' in their name:

    $ printf '\\0\\1\\1\\4\\0last\\1\\4\\0heel' > either.query
    $ ed2k search either.query known.met

Exit status: 0 searched (also if nothing was found), 1 the query, the known.met
or the tag list of an entry is refused (a list has at most 65,536 bytes),
2 wrong usage or a file that cannot be read.
";

/// The tags that options ask about, by their published special names.
const SIZE: &[u8] = &[0x02];
const TYPE: &[u8] = &[0x03];

pub fn run(words: Vec<OsString>, output: &mut dyn Write) -> Outcome {
    let options = ["--name", "--type", "--min", "--max"];
    let arguments = Arguments::sort(words, &options, &[], "ed2k search --help")?;
    let conditions = conditions(&arguments)?;
    let (query_name, met_name) = operands(&arguments, conditions.is_empty())?;
    let query = query(query_name.as_deref(), conditions)?;
    let known = files::read(Kind::KnownMet, &met_name)?;
    let met = ed2k::read_known_met(&known).map_err(Failure::refused(text::file_name(&met_name)))?;
    let all = met.entries.len();
    let search = Search::run(&query, met.entries, output)?;
    output.flush()?;
    // The count is for people at a terminal; nothing hangs on it.
    let _ = writeln!(io::stderr(), "{} of {} found", search.found, text::count(all, "model", "models"));
    search.outcome(&text::file_name(&met_name))
}

/// The names of the query file, if there is one, and of the known.met. Without conditions there must be a query.
fn operands(arguments: &Arguments, query_needed: bool) -> Result<(Option<OsString>, OsString), Failure> {
    if query_needed || arguments.operand_count() == 2 {
        let [query, known] =
            arguments.operands("--name, --type, --min, --max or QUERY-FILE, and KNOWN-MET")?;
        return Ok((Some(query), known));
    }
    let [known] = arguments.operands("KNOWN-MET, and QUERY-FILE before it or not")?;
    Ok((None, known))
}

/// A query for each option that is there.
fn conditions(arguments: &Arguments) -> Result<Vec<Vec<u8>>, Failure> {
    let text = |name: &str| arguments.value_if_any(name).map(OsStr::as_bytes);
    let limit = |name: &str, bound: Bound| -> Result<_, Failure> {
        let Some(word) = arguments.value_if_any(name) else {
            return Ok(None);
        };
        Ok(Some(("the limit", write::limit(arguments.dword(name, word)?, bound, SIZE))))
    };
    let all = [
        text("--name").map(|text| ("the text of --name", write::keyword(text))),
        text("--type").map(|text| ("the text of --type", write::field(text, TYPE))),
        limit("--min", Bound::Min)?,
        limit("--max", Bound::Max)?,
    ];
    all.into_iter().flatten().map(|(what, written)| written.map_err(Failure::refused(what))).collect()
}

/// The query of a file and the conditions, all joined by 'and', the first two first.
fn query(file: Option<&OsStr>, conditions: Vec<Vec<u8>>) -> Result<Vec<u8>, Failure> {
    let mut queries = conditions;
    if let Some(name) = file {
        let query = files::read_input(Kind::Query, name)?;
        ed2k::read_query(&query).map_err(Failure::refused(text::input_name(name)))?;
        queries.insert(0, query);
    }
    let joined =
        queries.into_iter().map(Ok).reduce(|left, right| write::join(Operator::And, &left?, &right?));
    joined.expect("there is a query").map_err(Failure::refused("the query with all conditions"))
}

/// What a search came to.
struct Search {
    found: usize,
    /// The numbers, counted from 1, of the entries that could not be searched, and why.
    unsearched: Vec<(usize, Refusal)>,
}

impl Search {
    /// Prints the name of each entry for which the query holds. An entry may be refused though its file is accepted: its
    /// tag list may have more bytes than a lone one may have. The others are searched all the same.
    fn run(query: &[u8], entries: FileEntries<'_>, output: &mut dyn Write) -> io::Result<Search> {
        let mut search = Search { found: 0, unsearched: vec![] };
        for (number, entry) in (1..).zip(entries) {
            match ed2k::truth(query, &entry.tags.encoded()) {
                Ok(false) => {}
                Ok(true) => {
                    search.found += 1;
                    writeln!(output, "{}", name_of(&entry))?;
                }
                Err(refusal) => search.unsearched.push((number, refusal)),
            }
        }
        Ok(search)
    }

    fn outcome(&self, met_name: &str) -> Outcome {
        let Some((number, refusal)) = self.unsearched.first() else {
            return Ok(());
        };
        let unsearched = text::count(self.unsearched.len(), "entry was", "entries were");
        let what = format!("the tag list of entry {number} of {met_name}");
        Err(Failure::refused(what)(*refusal).and_say(format!("{unsearched} not searched; all others were.")))
    }
}

/// The entry's name, or the hash of one that has none.
fn name_of(entry: &FileEntry<'_>) -> String {
    entry.tags.file_name().map_or_else(|| entry.hash.to_string(), text::plain)
}
