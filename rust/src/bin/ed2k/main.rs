//! The command `ed2k`: reads, shows, explains, marks, searches, saves and merges packets and met files.

#![forbid(unsafe_code)]

mod arguments;
mod failure;
mod files;
mod gaps;
#[cfg(test)]
#[path = "../../../tests/inputs/mod.rs"]
mod inputs;
mod json;
mod mark;
mod merge;
mod output;
#[cfg(test)]
#[path = "../../../tests/plain/mod.rs"]
mod plain;
mod read;
mod save;
mod search;
mod show;
mod store;
mod text;
mod why;

use std::env;
use std::ffi::{OsStr, OsString};
use std::io::{self, Write};
use std::process::ExitCode;

use failure::Failure;
use output::Output;

/// What a subcommand ends with.
type Outcome = Result<(), Failure>;

struct Subcommand {
    name: &'static str,
    help: &'static str,
    run: fn(Vec<OsString>, &mut dyn Write) -> Outcome,
}

static SUBCOMMANDS: [Subcommand; 8] = [
    Subcommand { name: "read", help: read::HELP, run: read::run },
    Subcommand { name: "show", help: show::HELP, run: show::run },
    Subcommand { name: "why", help: why::HELP, run: why::run },
    Subcommand { name: "gaps", help: gaps::HELP, run: gaps::run },
    Subcommand { name: "mark", help: mark::HELP, run: mark::run },
    Subcommand { name: "search", help: search::HELP, run: search::run },
    Subcommand { name: "save", help: save::HELP, run: save::run },
    Subcommand { name: "merge", help: merge::HELP, run: merge::run },
];

const HELP: &str = "\
ed2k: packets and met files of the eDonkey protocol, by proved code

  ed2k read KIND FILE                        is it accepted? one line
  ed2k show KIND FILE                        every item, in words
  ed2k why LINK FILE                         where and why a packet is refused
  ed2k gaps FILE                             what is missing of a model
  ed2k mark FILE START END                   mark bytes of a model as arrived
  ed2k search --name TEXT KNOWN-MET          the models that are looked for
  ed2k save --opened OLD --new NEW STORED    save, merged with what others saved
  ed2k merge --opened OLD FIRST SECOND OUT   make one file of two saves

  ed2k help SUBCOMMAND                       more about one of them
  ed2k --version

KIND is a letter or a word, and LINK one of s, c and u:
  s server-link    k known.met     q query
  c client-link    v server.met    t tags
  u udp            p part.met

Exit status: 0 accepted, 1 refused, 2 wrong usage or a file that cannot be read
or written. A refusal has a number:
";

fn main() -> ExitCode {
    let mut output = Output::new(io::stdout().lock());
    let outcome = run(env::args_os().skip(1).collect(), &mut output);
    let flushed = output.flush().map_err(Failure::from);
    match outcome.and(flushed) {
        Ok(()) => ExitCode::SUCCESS,
        Err(failure) => {
            // Nobody is left to tell if standard error is gone too.
            let _ = write!(io::stderr(), "{}", text::message(&failure.to_string()));
            failure.status()
        }
    }
}

fn run(mut words: Vec<OsString>, output: &mut dyn Write) -> Outcome {
    if words.is_empty() {
        return Err(wrong("a subcommand is needed".into()));
    }
    let first = words.remove(0);
    match first.to_str() {
        Some("--help" | "-h") => help(output),
        Some("help") => help_about(&words, output),
        Some("--version" | "-V") => Ok(writeln!(output, "ed2k {}", env!("CARGO_PKG_VERSION"))?),
        _ => {
            let subcommand = subcommand(&first)?;
            if asks_for_help(&words) {
                return Ok(output.write_all(subcommand.help.as_bytes())?);
            }
            (subcommand.run)(words, output)
        }
    }
}

fn wrong(problem: String) -> Failure {
    Failure::Usage(problem, "ed2k --help")
}

fn subcommand(name: &OsStr) -> Result<&'static Subcommand, Failure> {
    let named = SUBCOMMANDS.iter().find(|subcommand| name == subcommand.name);
    named.ok_or_else(|| wrong(format!("there is no subcommand {}", text::file_name(name))))
}

fn asks_for_help(words: &[OsString]) -> bool {
    words.iter().take_while(|word| *word != "--").any(|word| word == "--help" || word == "-h")
}

/// `ed2k help`, with the name of a subcommand or without.
fn help_about(words: &[OsString], output: &mut dyn Write) -> Outcome {
    match words {
        [] => help(output),
        [name] if name == "--help" || name == "-h" => help(output),
        [name] => Ok(output.write_all(subcommand(name)?.help.as_bytes())?),
        _ => Err(wrong(format!("help is about one subcommand; {} given", words.len()))),
    }
}

fn help(output: &mut dyn Write) -> Outcome {
    output.write_all(HELP.as_bytes())?;
    for refusal in ed2k::Refusal::ALL {
        writeln!(output, "{}", text::wrapped(&format!("{:>4}  ", refusal.number()), refusal.meaning(), 6))?;
    }
    Ok(())
}
