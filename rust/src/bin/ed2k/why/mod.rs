//! `ed2k why`: where and why a packet is refused.

mod layout;
mod marked;
#[cfg(test)]
mod tests;
mod walk;
mod words;

use std::ffi::{OsStr, OsString};
use std::io::{self, Write};

use ed2k::{Kind, Link, Reason, Refusal, Rule};

use crate::arguments::Arguments;
use crate::failure::Failure;
use crate::json::Json;
use crate::{Outcome, files, text};
use marked::Marked;

pub const HELP: &str = "\
ed2k why [--json] LINK FILE

Says where and why FILE, a packet of LINK, is refused: the number, the offset
where the faulty item begins, and the rule that it breaks; what is wrong, with
the numbers; the bytes there in hexadecimal, with the item marked and -- for
each byte that it lacks; and all items before it, as 'ed2k show' prints them.
LINK is s, c or u, or the word (ed2k --help lists the kinds). FILE may be - for
standard input.

    $ printf '\\343\\7\\0\\0\\0\\64\\3\\0\\0\\0\\5\\0' > status.bin
    $ ed2k why s status.bin
    refused 1 at offset 10: the bytes end before the item being read ends
    The item 'Nfiles' needs 4 bytes, and 2 are there.

     offset  bytes
          0  E3 07 00 00 00 34 03 00 00 00 05 00 -- --
                                           ^^ ^^ ^^ ^^

    The items before it (server-link, 12 bytes):

     offset  item                      value
          0  Protocol                  (E3) eDonkey
          1  Packet data length        7 bytes after the header
          5  opcode                    (34) Server status
          6  Nusers                    3 users

The reason is proved to be the true one: whatever stands after the item, a
packet of the same length is refused for it. Single bytes, in brackets, are
hexadecimal. Of a met file, query or tag list the number is given, and no more
for now.

With --json one object is printed for scripts, on one line; man ed2k lists its
keys. 'number' is 0 for a packet that is accepted, or the number of its refusal.

Exit status: 0 accepted, 1 refused, 2 wrong usage or a file that cannot be read.
";

/// What is said of the kinds that are no packets.
const FOR_PACKETS: &str = "Where and why is said of packets alone, for now.";

pub fn run(words: Vec<OsString>, output: &mut dyn Write) -> Outcome {
    let arguments = Arguments::sort(words, &[], &["--json"], "ed2k why --help")?;
    let [kind, name] = arguments.operands("LINK and FILE")?;
    let kind = arguments.kind(&kind)?;
    let bytes = files::read_input(kind, &name)?;
    let answer = match kind.link() {
        Some(link) => ed2k::why(link, &bytes).map_or(Answer::Accepted, |reason| Answer::Reason(link, reason)),
        None => ed2k::read(kind, &bytes).map_or_else(Answer::Refusal, |_| Answer::Accepted),
    };
    if arguments.flag("--json") {
        writeln!(output, "{}", answer.json(kind))?;
    } else {
        answer.print(kind, &bytes, output)?;
    }
    output.flush()?;
    match answer {
        Answer::Accepted => Ok(()),
        _ => Err(Failure::Explained),
    }
}

/// The failure with a line that points to this subcommand, if it is the refusal of a packet.
pub fn point_to(kind: Kind, name: &OsStr, failure: Failure) -> Failure {
    if kind.link().is_none() {
        return failure;
    }
    let file = if name == "-" { "- (with the same input)".into() } else { text::file_name(name) };
    failure.and_say(format!("Where and why: ed2k why {} {file}", kind.letter()))
}

/// What is said of bytes.
enum Answer {
    Accepted,
    /// Of a packet: all that there is to say.
    Reason(Link, Reason),
    /// Of other bytes: the number.
    Refusal(Refusal),
}

impl Answer {
    fn print(&self, kind: Kind, bytes: &[u8], output: &mut dyn Write) -> io::Result<()> {
        match self {
            Answer::Accepted if kind.link().is_some() => {
                writeln!(output, "accepted: the packet breaks no rule")
            }
            Answer::Accepted => writeln!(output, "accepted\n{FOR_PACKETS}"),
            Answer::Refusal(refusal) => {
                write!(output, "{}", text::message(&format!("{refusal}\n{FOR_PACKETS}")))
            }
            Answer::Reason(link, reason) => print_reason(*link, bytes, reason, output),
        }
    }

    /// The keys are those of the manual page.
    fn json(&self, kind: Kind) -> Json {
        let (number, meaning) = match self {
            Answer::Accepted => (0, None),
            Answer::Reason(_, reason) => (reason.refusal.number(), Some(reason.rule.meaning())),
            Answer::Refusal(refusal) => (refusal.number(), Some(refusal.meaning())),
        };
        let [rule, offset, size] = match self {
            Answer::Reason(_, reason) => [
                Json::word(rule_word(reason.rule)),
                Json::number(reason.offset as u64),
                Json::number(reason.size as u64),
            ],
            _ => [Json::Null, Json::Null, Json::Null],
        };
        let mut members = vec![("number", Json::number(number))];
        members.extend(meaning.map(|meaning| ("meaning", Json::word(meaning))));
        members.extend([("kind", Json::word(kind)), ("rule", rule), ("offset", offset), ("size", size)]);
        Json::Object(members)
    }
}

/// The reason in words, the bytes around the faulty item, and the items before it.
fn print_reason(link: Link, bytes: &[u8], reason: &Reason, output: &mut dyn Write) -> io::Result<()> {
    let mut items = Vec::new();
    let wanted = walk::walk(link, bytes, Some(reason.offset), &mut items)?;
    write!(output, "{}", text::message(&reason.to_string()))?;
    if let Some(sentence) = words::sentence(link, bytes, reason, wanted.as_ref()) {
        writeln!(output, "{}", text::wrapped("", &sentence, 0))?;
    }
    Marked::new(bytes, reason.offset, reason.size).print(output)?;
    if reason.offset > 0 {
        let length = text::bytes(bytes.len() as u64);
        writeln!(output, "\nThe items before it ({}, {length}):", Kind::from(link))?;
        output.write_all(&items)?;
    }
    Ok(())
}

/// A rule in a word, for scripts. It is the name that include/ed2k.h gives it, in small letters.
fn rule_word(rule: Rule) -> &'static str {
    match rule {
        Rule::Short => "short",
        Rule::Opening => "opening",
        Rule::Length => "length",
        Rule::Kind => "kind",
        Rule::Choice => "choice",
        Rule::StatusBit => "status-bit",
        Rule::ByteCeiling => "bytes",
        Rule::DepthCeiling => "depth",
        Rule::NameCeiling => "name",
        Rule::GapCeiling => "gaps",
        Rule::Rest => "rest",
        Rule::Order => "order",
        Rule::Data => "data",
        Rule::SizeTag => "size",
        _ => "other",
    }
}
