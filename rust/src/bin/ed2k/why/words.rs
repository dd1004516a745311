//! A refusal in a sentence, with the numbers that are in the bytes.

use ed2k::{Kind, Link, PACKET_CEILING, QUERY_DEPTH, Reason, Rule};

use super::walk::Wanted;
use crate::text;

/// The byte that packets open with.
const OPENING: u8 = 0xE3;

/// How many bytes the opening byte and the length have.
const HEADER: usize = 5;

/// How many bytes a name has at most.
const NAME_CEILING: usize = 255;

const LINKS: [Link; 3] = [Link::Server, Link::Client, Link::Udp];

/// What is wrong with the bytes. `wanted` is what should stand where the fault is, if that is known. Nothing is said of a rule that
/// came later than this.
pub fn sentence(link: Link, bytes: &[u8], reason: &Reason, wanted: Option<&Wanted>) -> Option<String> {
    let fault = Fault { link, bytes, offset: reason.offset, size: reason.size, wanted };
    Some(match reason.rule {
        Rule::Short => fault.short(),
        Rule::Opening => fault.opening(),
        Rule::Length => fault.length(),
        Rule::Kind => fault.kind(),
        Rule::Choice => fault.choice(),
        Rule::StatusBit => fault.status_bit(),
        Rule::ByteCeiling => {
            let [found, most] = [bytes.len(), PACKET_CEILING].map(number);
            format!("The packet has at least {found} bytes, and may have {most}.")
        }
        Rule::DepthCeiling => {
            format!("A query would begin here at depth {}, and the limit is {QUERY_DEPTH}.", QUERY_DEPTH + 1)
        }
        Rule::NameCeiling => {
            let found = number(fault.number_at(fault.offset, fault.size) as usize);
            format!("{} is {found}, and may be at most {NAME_CEILING}.", fault.item())
        }
        Rule::Rest => fault.rest(),
        Rule::Order => fault.order(),
        Rule::Data => fault.data(),
        _ => return None,
    })
}

/// A faulty item and what is around it.
struct Fault<'a> {
    link: Link,
    bytes: &'a [u8],
    offset: usize,
    size: usize,
    wanted: Option<&'a Wanted>,
}

impl Fault<'_> {
    /// The item by its name, as the beginning of a sentence.
    fn item(&self) -> String {
        let Some(wanted) = self.wanted else {
            return "The item".into();
        };
        let entries: String = wanted.entries.iter().map(|entry| format!(" of {entry}")).collect();
        format!("The item '{}'{entries}", wanted.name)
    }

    /// How many bytes there are from the faulty item on.
    fn left(&self) -> usize {
        self.bytes.len().saturating_sub(self.offset)
    }

    /// The number in so many bytes, of which the low one comes first. Bytes that are not there count as 0.
    fn number_at(&self, offset: usize, size: usize) -> u64 {
        let bytes = self.bytes.iter().skip(offset).take(size);
        bytes.rev().fold(0, |number, byte| number << 8 | u64::from(*byte))
    }

    fn byte(&self) -> u8 {
        self.number_at(self.offset, 1) as u8
    }

    fn short(&self) -> String {
        let needed = text::count(self.size, "byte", "bytes");
        format!("{} needs {needed}, and {} there.", self.item(), are(self.left()))
    }

    fn opening(&self) -> String {
        format!("The packet opens with ({:02X}), and must open with ({OPENING:02X}).", self.byte())
    }

    fn length(&self) -> String {
        let said = self.number_at(self.offset, self.size) as usize;
        let said_words = text::count(said, "byte follows", "bytes follow");
        let following = text::count(self.bytes.len().saturating_sub(HEADER), "does", "do");
        let opcode = if said == 0 { "; there must be an opcode" } else { "" };
        format!("The header says that {said_words} it, and {following}{opcode}.")
    }

    /// An opcode that is listed for another link may have been read as of the wrong one.
    fn kind(&self) -> String {
        let opcode = self.byte();
        let others: Vec<String> = LINKS
            .into_iter()
            .filter_map(|link| ed2k::opcode_name(link, opcode).map(|name| (Kind::from(link), name)))
            .map(|(kind, name)| format!("; for {kind} it is {name}"))
            .collect();
        format!("The opcode ({opcode:02X}) is not listed for {}{}.", Kind::from(self.link), others.concat())
    }

    /// The item is the byte, or the WORD of an empty name.
    fn choice(&self) -> String {
        if self.size > 1 {
            return format!("{} is 0, and must be 1 to {NAME_CEILING}.", self.item());
        }
        let choices = self.wanted.map_or(&[][..], |wanted| wanted.choices);
        let choices: Vec<String> = choices.iter().map(|choice| format!("({choice:02X})")).collect();
        let allowed = match listed(&choices, "or") {
            none if none.is_empty() => "is outside its list".into(),
            choices => format!("must be {choices}"),
        };
        format!("{} is ({:02X}), and {allowed}.", self.item(), self.byte())
    }

    /// The WORD before the status bytes says how many parts there are. Parts are counted from 1.
    fn status_bit(&self) -> String {
        let parts = self.number_at(self.offset.saturating_sub(2), 2) as usize;
        let is_set = |part: &usize| self.number_at(self.offset + part / 8, 1) >> (part % 8) & 1 == 1;
        let beyond: Vec<String> =
            (parts..8 * self.size).filter(is_set).map(|part| number(part + 1)).collect();
        let set = match &beyond[..] {
            [one] => format!("a bit is set for part {one}"),
            several => format!("bits are set for the parts {}", listed(several, "and")),
        };
        format!("The file has {}, and {set}.", text::count(parts, "part", "parts"))
    }

    fn rest(&self) -> String {
        let left = text::count(self.left(), "byte is", "bytes are");
        format!("The packet should end at offset {}, and {left} left.", self.offset)
    }

    /// All starts stand before all ends. Several ranges have numbers.
    fn order(&self) -> String {
        let ranges = self.size / 8;
        let bounds =
            |range: usize| [range, ranges + range].map(|place| self.number_at(self.offset + 4 * place, 4));
        let wrong = (0..ranges).map(|range| (range, bounds(range))).filter(|(_, [start, end])| start > end);
        let phrases: Vec<String> = wrong
            .map(|(range, bounds)| {
                let name = if ranges > 1 { format!("range {}", range + 1) } else { "the range".into() };
                let [start, end] = bounds.map(text::grouped);
                format!("{name} starts at {start} and ends at {end}")
            })
            .collect();
        capitalized(&format!("{}.", phrases.join("; ")))
    }

    fn data(&self) -> String {
        let [start, end] = [0, 4].map(|at| self.number_at(self.offset + at, 4));
        let held = text::count(end.saturating_sub(start) as usize, "byte", "bytes");
        let there = are(self.left().saturating_sub(self.size));
        let [start, end] = [start, end].map(text::grouped);
        format!("The range from {start} to {end} has {held}, and {there} there.")
    }
}

/// So many with the verb: none is, 1 is, 2 are.
fn are(number: usize) -> String {
    if number == 0 { "none is".into() } else { text::count(number, "is", "are") }
}

fn number(number: usize) -> String {
    text::grouped(number as u64)
}

/// Words with commas between them, and this word before the last.
fn listed(words: &[String], word: &str) -> String {
    match words {
        [] => String::new(),
        [one] => one.clone(),
        [first @ .., last] => format!("{} {word} {last}", first.join(", ")),
    }
}

fn capitalized(sentence: &str) -> String {
    let mut signs = sentence.chars();
    signs.next().map_or(String::new(), |first| first.to_uppercase().chain(signs).collect())
}
