//! `ed2k read`: the reading program's line.

use std::ffi::OsString;
use std::io::Write;

use ed2k::Message;

use crate::arguments::Arguments;
use crate::failure::Failure;
use crate::{Outcome, files, text, why};

pub const HELP: &str = "\
ed2k read KIND FILE

Says in one line whether FILE is accepted as what KIND says (ed2k --help lists
the kinds). FILE may be - for standard input. A packet, query or tag list has at
most 65,536 bytes, a met file at most 1,048,576.

    $ ed2k read s status.bin
    accepted 52 14

An accepted packet is shown with its opcode and its length, a met file with its
opening byte and its length. A query has no such byte: its depth stands there;
a tag list shows how many tags it has. All numbers are decimal.

    $ ed2k read p damaged.part.met
    refused 8

What the number means is written to standard error. Where and why a packet is
refused, 'ed2k why' says. Exit status: 0 accepted, 1 refused, 2 wrong usage or a
file that cannot be read.
";

pub fn run(words: Vec<OsString>, output: &mut dyn Write) -> Outcome {
    let arguments = Arguments::sort(words, &[], &[], "ed2k read --help")?;
    let [kind, name] = arguments.operands("KIND and FILE")?;
    let kind = arguments.kind(&kind)?;
    let bytes = files::read_input(kind, &name)?;
    match ed2k::read(kind, &bytes) {
        Ok(message) => Ok(writeln!(output, "accepted {} {}", first_number(&message), bytes.len())?),
        Err(refusal) => {
            writeln!(output, "refused {}", refusal.number())?;
            output.flush()?;
            Err(why::point_to(kind, &name, Failure::refused(text::input_name(&name))(refusal)))
        }
    }
}

/// What stands after `accepted`.
fn first_number(message: &Message<'_>) -> usize {
    match message {
        Message::Packet(_, packet) => packet.opcode.into(),
        Message::KnownMet(met) => met.opening.into(),
        Message::ServerMet(met) => met.opening.into(),
        Message::PartMet(met) => met.opening.into(),
        Message::Query(query) => query.depth(),
        Message::Tags(tags) => tags.len(),
    }
}
