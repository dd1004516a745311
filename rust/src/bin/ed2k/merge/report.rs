//! What a merge says when it is made.

use std::cmp::Ordering;
use std::fmt;
use std::io::Write;

use ed2k::GapRecord;
use ed2k::disk::Saved;

use super::changes::{Form, plain_tags};
use super::versions::{Roles, Version, Versions};
use crate::json::Json;
use crate::{Outcome, gaps, text};

/// Whose value the merged file has.
#[derive(Clone, Copy, Debug, PartialEq)]
enum Source {
    First,
    Second,
    Both,
    Unchanged,
}

impl Source {
    /// Of a value that is not in conflict.
    fn three_way<T: PartialEq>([opened, first, second]: &[T; 3]) -> Source {
        match (first == opened, second == opened) {
            (true, true) => Source::Unchanged,
            (false, true) => Source::First,
            (true, false) => Source::Second,
            (false, false) => Source::Both,
        }
    }

    /// Of the date, which is the later one.
    fn later([opened, first, second]: [u32; 3]) -> Source {
        match first.cmp(&second) {
            Ordering::Greater => Source::First,
            Ordering::Less => Source::Second,
            Ordering::Equal if first == opened => Source::Unchanged,
            Ordering::Equal => Source::Both,
        }
    }

    /// The word that the manual page has for it.
    fn word(self) -> &'static str {
        match self {
            Source::First => "first",
            Source::Second => "second",
            Source::Both => "both",
            Source::Unchanged => "unchanged",
        }
    }

    /// The same for people.
    fn phrase(self, roles: Roles) -> String {
        match self {
            Source::First => format!("from the {}", roles.words[1]),
            Source::Second => format!("from the {}", roles.words[2]),
            Source::Both => "the same in both".into(),
            Source::Unchanged => "unchanged".into(),
        }
    }
}

/// How many bytes a save has that the opened file misses, and how many it misses that the opened file has.
struct Moved {
    brought: u64,
    given_up: u64,
}

impl Moved {
    fn between(opened: &GapRecord, save: &GapRecord) -> Moved {
        let both = gaps::missing_in_both(opened, save);
        Moved { brought: opened.missing() - both, given_up: save.missing() - both }
    }

    fn json(&self) -> Json {
        let members =
            vec![("brought", Json::number(self.brought)), ("given_up", Json::number(self.given_up))];
        Json::Object(members)
    }
}

impl fmt::Display for Moved {
    fn fmt(&self, f: &mut fmt::Formatter<'_>) -> fmt::Result {
        write!(f, "brought {}", text::bytes(self.brought))?;
        if self.given_up > 0 {
            write!(f, ", and gave up {}", text::bytes(self.given_up))?;
        }
        Ok(())
    }
}

/// What each of the saves gave to a merge that is made.
pub struct Report {
    roles: Roles,
    moved: [Moved; 2],
    date: Source,
    hashes: Source,
    tags: Source,
}

impl Report {
    pub fn of(versions: &Versions<'_>) -> Report {
        let [opened, first, second] = versions.each(|version| &version.record);
        Report {
            roles: versions.roles,
            moved: [first, second].map(|save| Moved::between(opened, save)),
            date: Source::later(versions.each(|version| version.met.date)),
            hashes: Source::three_way(&versions.each(|version| Form::of(&version.met))),
            tags: Source::three_way(&versions.each(|version| plain_tags(&version.met))),
        }
    }

    /// Says what came from each of the saves, which have these names, and what the merged file holds.
    pub fn print(&self, outcome: &Version<'_>, names: [String; 2], output: &mut dyn Write) -> Outcome {
        let [_, first, second] = self.roles.labels;
        let [from_first, from_second] = &self.moved;
        let [first_name, second_name] = names;
        let lines = [
            (first, format!("{first_name} {from_first}")),
            (second, format!("{second_name} {from_second}")),
            ("date", format!("{}, {}", text::date(outcome.met.date), self.date.phrase(self.roles))),
            ("hashes", self.hashes.phrase(self.roles)),
            ("tags", self.tags.phrase(self.roles)),
        ];
        for (label, words) in lines {
            line(label, &words, output)?;
        }
        writeln!(output)?;
        gaps::overview(&outcome.met, &outcome.record, output)
    }

    /// The keys are those of the manual page.
    pub fn print_json(&self, outcome: &Version<'_>, saved: &Saved, output: &mut dyn Write) -> Outcome {
        let [first, second] = &self.moved;
        let members = [
            ("length", Json::number(saved.bytes.len() as u64)),
            ("owner_kept", Json::Truth(saved.owner_kept)),
            ("first", first.json()),
            ("second", second.json()),
            ("date_from", Json::word(self.date.word())),
            ("hashes_from", Json::word(self.hashes.word())),
            ("tags_from", Json::word(self.tags.word())),
        ];
        let model = gaps::members(&outcome.met, &outcome.record);
        Ok(Json::print(members.into_iter().chain(model), output)?)
    }
}

/// A line of what is said of a merge: a label, and words.
pub fn line(label: &str, words: &str, output: &mut dyn Write) -> Outcome {
    Ok(writeln!(output, "{}", text::wrapped(&format!("{label:<9}"), words, 9))?)
}

#[cfg(test)]
mod tests {
    use super::*;

    #[test]
    fn the_changed_value_is_taken_and_the_later_date() {
        let three_way = |values: [u32; 3]| Source::three_way(&values);
        assert_eq!([three_way([1, 1, 1]), three_way([1, 2, 2])], [Source::Unchanged, Source::Both]);
        assert_eq!([three_way([1, 2, 1]), three_way([1, 1, 2])], [Source::First, Source::Second]);
        assert_eq!([Source::later([5, 5, 5]), Source::later([5, 7, 7])], [Source::Unchanged, Source::Both]);
        assert_eq!([Source::later([5, 5, 3]), Source::later([5, 6, 9])], [Source::First, Source::Second]);
    }
}
