//! `ed2k show`: every item of a packet or file, in words.

mod json;
pub mod met;
pub mod names;
pub mod packet;
pub mod query;
pub mod sheet;
pub mod tags;

use std::ffi::OsString;
use std::io::{self, Write};

use ed2k::{Kind, Message};

use crate::arguments::Arguments;
use crate::failure::Failure;
use crate::json::Json;
use crate::{Outcome, files, text, why};
use sheet::Sheet;

pub const HELP: &str = "\
ed2k show [--json] KIND FILE

Shows every item of FILE, one to a line: the offset at which it begins, its
published name, and what it says. KIND is what FILE holds (ed2k --help lists the
kinds). FILE may be - for standard input.

A tag stands on one line, with its name, its type and its value. Numbers are
decimal; single bytes, in brackets, hashes and 'bits' are hexadecimal. What
cannot be printed in a text is shown as an escape. Parts are counted from 1.
A long line goes on below its value, with no sign lost or added.

With --json one object is printed for scripts, on one line; man ed2k lists its
keys. 'number' is 0 for a file that is accepted, or the number of its refusal.
Where and why a packet is refused, 'ed2k why' says.

Exit status: 0 shown, 1 the file is refused, 2 wrong usage or a file that
cannot be read.
";

pub fn run(words: Vec<OsString>, output: &mut dyn Write) -> Outcome {
    let arguments = Arguments::sort(words, &[], &["--json"], "ed2k show --help")?;
    let [kind, name] = arguments.operands("KIND and FILE")?;
    let kind = arguments.kind(&kind)?;
    let bytes = files::read_input(kind, &name)?;
    match ed2k::read(kind, &bytes) {
        Ok(message) if arguments.flag("--json") => {
            let head = [("kind", Json::word(kind)), ("length", Json::number(bytes.len() as u64))];
            Ok(Json::print(head.into_iter().chain(json::members(&message)), output)?)
        }
        Ok(message) => Ok(show(kind, &message, bytes.len(), output)?),
        Err(refusal) => {
            let failure = why::point_to(kind, &name, Failure::refused(text::input_name(&name))(refusal));
            if arguments.flag("--json") { Json::refused(failure, output) } else { Err(failure) }
        }
    }
}

pub fn show(kind: Kind, message: &Message<'_>, length: usize, output: &mut dyn Write) -> io::Result<()> {
    writeln!(output, "{kind}, {}", text::bytes(length as u64))?;
    let mut sheet = Sheet::new(output)?;
    match message {
        Message::Packet(link, packet) => packet::show(&mut sheet, *link, packet, length)?,
        Message::KnownMet(met) => met::show_known(&mut sheet, met)?,
        Message::ServerMet(met) => met::show_server(&mut sheet, met)?,
        Message::PartMet(met) => met::show_part(&mut sheet, met)?,
        Message::Query(query) => query::show(&mut sheet, query)?,
        Message::Tags(tags) => tags::show(&mut sheet, tags.clone())?,
    }
    sheet.end()
}
