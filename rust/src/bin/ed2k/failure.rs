//! Why the command ends with another status than 0, and what it says then.

use std::fmt;
use std::io;
use std::process::ExitCode;

use ed2k::Refusal;

/// Why a subcommand did not do its work.
pub enum Failure {
    /// The proved code refuses. What is refused, the number, what it means here, and more lines on what to do about it, if
    /// any.
    Refused { what: String, number: u8, meaning: &'static str, more: String },
    /// The proved code refuses, and all that there is to say of it has been printed.
    Explained,
    /// The words after the command are wrong. What is wrong, and where help is.
    Usage(String, &'static str),
    /// A file cannot be read or written. What was tried, what the system says, and more lines, if any.
    File(String, io::Error, String),
    /// A file is not what it must be. Why, and more lines, if any.
    Unfit(String),
    /// What the command prints cannot be written. What the system says, and more lines, if any.
    Output(io::Error, String),
}

impl Failure {
    /// The refusal of the thing named, with nothing to add.
    pub fn refused(what: impl Into<String>) -> impl FnOnce(Refusal) -> Failure {
        |refusal| Failure::refused_as(what, refusal, refusal.meaning())
    }

    /// The same, of a number that means this here.
    pub fn refused_as(what: impl Into<String>, refusal: Refusal, meaning: &'static str) -> Failure {
        Failure::Refused { what: what.into(), number: refusal.number(), meaning, more: String::new() }
    }

    /// The system's error at the thing tried.
    pub fn file(tried: impl Into<String>) -> impl FnOnce(io::Error) -> Failure {
        |error| Failure::File(tried.into(), error, String::new())
    }

    /// The same failure with a line more, on what has become of the files or on what to do.
    pub fn and_say(mut self, line: String) -> Failure {
        match &mut self {
            Failure::Refused { more, .. } | Failure::File(_, _, more) | Failure::Output(_, more) => {
                more.extend([&line, "\n"]);
            }
            Failure::Unfit(problem) => problem.extend(["\n", &line]),
            Failure::Usage(..) | Failure::Explained => (),
        }
        self
    }

    /// 1 for a refusal, 2 for all else.
    pub fn status(&self) -> ExitCode {
        match self {
            Failure::Refused { .. } | Failure::Explained => ExitCode::from(1),
            _ => ExitCode::from(2),
        }
    }
}

impl From<io::Error> for Failure {
    fn from(error: io::Error) -> Failure {
        Failure::Output(error, String::new())
    }
}

impl fmt::Display for Failure {
    fn fmt(&self, f: &mut fmt::Formatter<'_>) -> fmt::Result {
        match self {
            Failure::Refused { what, number, meaning, more } => {
                write!(f, "ed2k: {what} is refused {number}: {meaning}\n{more}")
            }
            Failure::Explained => Ok(()),
            Failure::Usage(problem, help) => writeln!(f, "ed2k: {problem}\nFor help: {help}"),
            Failure::File(tried, error, more) => write!(f, "ed2k: cannot {tried}: {error}\n{more}"),
            Failure::Unfit(problem) => writeln!(f, "ed2k: {problem}"),
            Failure::Output(error, more) => {
                write!(f, "ed2k: cannot write to standard output: {error}\n{more}")
            }
        }
    }
}
