//! `ed2k gaps`: what is missing of a model.

use std::env;
use std::ffi::OsString;
use std::io::{self, IsTerminal, Write};

use ed2k::{Gap, GapRecord, Kind, PART_SIZE, PartMet};

use crate::arguments::Arguments;
use crate::failure::Failure;
use crate::json::Json;
use crate::{Outcome, files, text};

pub const HELP: &str = "\
ed2k gaps [--json] FILE

Shows what is missing of the model that the part.met FILE describes: the model
as a bar, how much is missing, and the missing ranges, part by part. FILE may
be - for standard input. A range goes from its first byte up to the number
after 'to', which is not in it any more, as 'ed2k mark' takes it.

With --json one object is printed for scripts, on one line; man ed2k lists its
keys. 'number' is 0 for a file that is accepted, or the number of its refusal.

Exit status: 0 shown, 1 the file is refused, 2 wrong usage or a file that
cannot be read.
";

/// How many cells the bar has, within 80 columns.
const CELLS: u64 = 74;

pub fn run(words: Vec<OsString>, output: &mut dyn Write) -> Outcome {
    let arguments = Arguments::sort(words, &[], &["--json"], "ed2k gaps --help")?;
    let [name] = arguments.operands("one FILE")?;
    let bytes = files::read_input(Kind::PartMet, &name)?;
    let read = ed2k::read_part_met(&bytes).and_then(|met| Ok((met, GapRecord::read(&bytes)?)));
    match read {
        Ok((met, record)) if arguments.flag("--json") => Ok(Json::print(members(&met, &record), output)?),
        Ok((met, record)) => show(&met, &record, output),
        Err(refusal) => {
            let failure = Failure::refused(text::input_name(&name))(refusal);
            if arguments.flag("--json") { Json::refused(failure, output) } else { Err(failure) }
        }
    }
}

fn show(met: &PartMet<'_>, record: &GapRecord, output: &mut dyn Write) -> Outcome {
    overview(met, record, output)?;
    if record.missing() > 0 {
        ranges(met, record, output)?;
    }
    Ok(())
}

/// How much of the model is there, in numbers and as a bar.
pub fn overview(met: &PartMet<'_>, record: &GapRecord, output: &mut dyn Write) -> Outcome {
    summary(met, record, output)?;
    if record.size() > 0 {
        bar(record, Cells::of_output(), output)?;
    }
    Ok(())
}

/// The keys are those of the manual page.
pub fn members(met: &PartMet<'_>, record: &GapRecord) -> [(&'static str, Json); 7] {
    let gap =
        |gap: Gap| Json::Object(vec![("start", Json::number(gap.start)), ("end", Json::number(gap.end))]);
    [
        ("model", met.tags.file_name().map_or(Json::Null, Json::bytes)),
        ("hash", Json::word(met.hash)),
        ("size", Json::number(record.size())),
        ("parts", Json::number(ed2k::part_count(met.size))),
        ("there", Json::number(record.size() - record.missing())),
        ("missing", Json::number(record.missing())),
        ("gaps", Json::list(record.gaps().map(gap))),
    ]
}

fn summary(met: &PartMet<'_>, record: &GapRecord, output: &mut dyn Write) -> Outcome {
    let (size, missing) = (record.size(), record.missing());
    let parts = text::count(ed2k::part_count(met.size) as usize, "part", "parts");
    writeln!(output, "{}", text::folded(&format!("model    {}", model_name(met)), 9))?;
    writeln!(output, "size     {}, {parts}", text::bytes(size))?;
    writeln!(output, "there    {}, {}", text::bytes(size - missing), text::per_cent(size - missing, size))?;
    missing_line(record, output)
}

/// How much is missing, and in how many gaps.
pub fn missing_line(record: &GapRecord, output: &mut dyn Write) -> Outcome {
    let (size, missing) = (record.size(), record.missing());
    let gaps = match record.gaps().len() {
        0 => String::new(),
        number => format!(", in {}", text::count(number, "gap", "gaps")),
    };
    writeln!(output, "missing  {}, {}{gaps}", text::bytes(missing), text::per_cent(missing, size))?;
    Ok(())
}

fn model_name(met: &PartMet<'_>) -> String {
    met.tags.file_name().map_or_else(|| format!("(no name) {}", met.hash), text::plain)
}

/// The signs of the bar.
struct Cells {
    there: char,
    some: char,
    missing: char,
}

impl Cells {
    /// Blocks on a terminal that can show them, else ASCII.
    fn of_output() -> Cells {
        if io::stdout().is_terminal() && speaks_utf8() {
            Cells { there: '█', some: '▒', missing: '·' }
        } else {
            Cells { there: '#', some: '+', missing: '.' }
        }
    }

    fn sign(&self, missing: u64, bytes: u64) -> char {
        match missing {
            0 => self.there,
            _ if missing == bytes => self.missing,
            _ => self.some,
        }
    }
}

/// By the first of the variables that name the terminal's encoding.
fn speaks_utf8() -> bool {
    let locale = ["LC_ALL", "LC_CTYPE", "LANG"]
        .into_iter()
        .find_map(|name| env::var(name).ok().filter(|value| !value.is_empty()));
    locale.is_some_and(|locale| locale.to_uppercase().replace('-', "").contains("UTF8"))
}

fn bar(record: &GapRecord, cells: Cells, output: &mut dyn Write) -> Outcome {
    let size = record.size();
    let count = size.min(CELLS);
    let edge = |cell: u64| cell * size / count;
    let signs: String = (0..count)
        .map(|cell| Gap { start: edge(cell), end: edge(cell + 1) })
        .map(|range| cells.sign(missing_in(record, range), range.byte_count()))
        .collect();
    writeln!(output, "\n  [{signs}]")?;
    writeln!(output, "  {} there   {} missing   {} some of both", cells.there, cells.missing, cells.some)?;
    Ok(())
}

/// What two ranges have in common, if anything.
fn common(one: Gap, other: Gap) -> Option<Gap> {
    let both = Gap { start: one.start.max(other.start), end: one.end.min(other.end) };
    (both.start < both.end).then_some(both)
}

fn missing_in(record: &GapRecord, range: Gap) -> u64 {
    record.gaps().filter_map(|gap| common(gap, range)).map(Gap::byte_count).sum()
}

/// How many bytes both records miss.
pub fn missing_in_both(one: &GapRecord, other: &GapRecord) -> u64 {
    one.gaps().map(|gap| missing_in(other, gap)).sum()
}

/// A missing range within one part, or over several parts that are missing whole.
#[derive(Debug, PartialEq)]
struct Row {
    first_part: u64,
    last_part: u64,
    gap: Gap,
    whole: bool,
}

fn ranges(met: &PartMet<'_>, record: &GapRecord, output: &mut dyn Write) -> Outcome {
    let rows = rows(record);
    let width = rows.iter().map(|row| text::grouped(row.gap.end).len()).max().unwrap_or(0);
    let parts = ed2k::part_count(met.size);
    writeln!(output, "\nmissing, by part (1 to {parts}, of {} bytes each):", text::grouped(PART_SIZE))?;
    writeln!(output, "\n  {:>9}  {:>width$}    {:>width$}  {:>width$}", "part", "from", "to", "bytes")?;
    for row in rows {
        let part = match row {
            Row { first_part, last_part, .. } if first_part == last_part => first_part.to_string(),
            Row { first_part, last_part, .. } => format!("{first_part} to {last_part}"),
        };
        let whole = if row.whole { "  all" } else { "" };
        writeln!(
            output,
            "  {part:>9}  {:>width$} to {:>width$}  {:>width$}{whole}",
            text::grouped(row.gap.start),
            text::grouped(row.gap.end),
            text::grouped(row.gap.byte_count())
        )?;
    }
    Ok(())
}

/// The missing ranges cut at the edges of parts; neighbouring parts that are missing whole are one row.
fn rows(record: &GapRecord) -> Vec<Row> {
    let mut rows: Vec<Row> = Vec::new();
    for gap in record.gaps() {
        for part in gap.start / PART_SIZE..=(gap.end - 1) / PART_SIZE {
            let range = part_range(part, record.size());
            let cut = common(gap, range).expect("the part is one that the gap reaches");
            let row = Row { first_part: part + 1, last_part: part + 1, gap: cut, whole: cut == range };
            match rows.last_mut() {
                Some(last) if last.whole && row.whole && last.last_part == part => {
                    last.last_part = row.last_part;
                    last.gap.end = row.gap.end;
                }
                _ => rows.push(row),
            }
        }
    }
    rows
}

fn part_range(part: u64, size: u64) -> Gap {
    Gap { start: part * PART_SIZE, end: size.min((part + 1) * PART_SIZE) }
}

#[cfg(test)]
mod tests {
    use super::*;

    fn row(first_part: u64, last_part: u64, start: u64, end: u64, whole: bool) -> Row {
        Row { first_part, last_part, gap: Gap { start, end }, whole }
    }

    #[test]
    fn ranges_are_cut_at_parts_and_whole_parts_are_joined() {
        let size = 4 * PART_SIZE + 5;
        let record = GapRecord::from_gaps(size, &[Gap { start: PART_SIZE - 10, end: size }]).unwrap();
        assert_eq!(
            rows(&record),
            [row(1, 1, PART_SIZE - 10, PART_SIZE, false), row(2, 5, PART_SIZE, size, true)]
        );
    }

    #[test]
    fn two_gaps_in_a_part_are_two_rows() {
        let gaps = [Gap { start: 0, end: 1 }, Gap { start: 5, end: 9 }];
        let record = GapRecord::from_gaps(100, &gaps).unwrap();
        assert_eq!(rows(&record), [row(1, 1, 0, 1, false), row(1, 1, 5, 9, false)]);
    }

    #[test]
    fn the_largest_model_is_one_row() {
        let record = GapRecord::all_missing(4_294_967_295).unwrap();
        assert_eq!(rows(&record), [row(1, 442, 0, 4_294_967_295, true)]);
    }

    #[test]
    fn the_bar_shows_each_byte_of_a_small_model() {
        let record = GapRecord::from_gaps(5, &[Gap { start: 1, end: 3 }]).unwrap();
        let mut output = Vec::new();
        let plain = Cells { there: '#', some: '+', missing: '.' };
        assert!(bar(&record, plain, &mut output).is_ok());
        assert!(String::from_utf8(output).unwrap().starts_with("\n  [#..##]\n"));
    }
}
