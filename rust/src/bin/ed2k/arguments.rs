//! The words after a subcommand. File names are whatever the system allows.

use std::ffi::{OsStr, OsString};
use std::os::unix::ffi::OsStrExt;

use ed2k::Kind;

use crate::failure::Failure;
use crate::text;

/// The words of a subcommand, sorted.
pub struct Arguments {
    help: &'static str,
    operands: Vec<OsString>,
    values: Vec<(&'static str, OsString)>,
    flags: Vec<&'static str>,
}

impl Arguments {
    /// Sorts the words: options that take a value (`--new NEW` or `--new=NEW`), flags, and operands, which are all words
    /// after `--` too.
    pub fn sort(
        words: Vec<OsString>,
        with_value: &[&'static str],
        flags: &[&'static str],
        help: &'static str,
    ) -> Result<Arguments, Failure> {
        let mut sorted = Arguments { help, operands: vec![], values: vec![], flags: vec![] };
        let mut words = words.into_iter();
        while let Some(word) = words.next() {
            if word == "--" {
                sorted.operands.extend(words);
                break;
            }
            let (option, value) = split(&word);
            if let Some(name) = with_value.iter().find(|name| option == **name) {
                let missing = || sorted.wrong(format!("{name} needs a value after it"));
                let value = value.map(OsStr::to_os_string).or_else(|| words.next()).ok_or_else(missing)?;
                sorted.set(name, value)?;
            } else if let Some(name) = flags.iter().find(|name| option == **name) {
                if value.is_some() {
                    return Err(sorted.wrong(format!("{name} takes no value")));
                }
                sorted.flags.push(name);
            } else if word.as_encoded_bytes().starts_with(b"--") {
                return Err(sorted.wrong(format!("there is no option {}", text::file_name(option))));
            } else {
                sorted.operands.push(word);
            }
        }
        Ok(sorted)
    }

    fn set(&mut self, name: &'static str, value: OsString) -> Result<(), Failure> {
        if self.values.iter().any(|(given, _)| *given == name) {
            return Err(self.wrong(format!("{name} is given twice")));
        }
        self.values.push((name, value));
        Ok(())
    }

    /// The failure that the words are wrong.
    pub fn wrong(&self, problem: String) -> Failure {
        Failure::Usage(problem, self.help)
    }

    /// How many operands there are.
    pub fn operand_count(&self) -> usize {
        self.operands.len()
    }

    /// Exactly so many operands; `names` says what they are.
    pub fn operands<const N: usize>(&self, names: &str) -> Result<[OsString; N], Failure> {
        <[OsString; N]>::try_from(self.operands.clone())
            .map_err(|given| self.wrong(format!("needs {names}; {} given", given.len())))
    }

    /// The value of an option that may be there.
    pub fn value_if_any(&self, name: &str) -> Option<&OsStr> {
        self.values.iter().find(|(given, _)| *given == name).map(|(_, value)| value.as_os_str())
    }

    /// The value of an option that must be there.
    pub fn value(&self, name: &str) -> Result<&OsStr, Failure> {
        self.value_if_any(name).ok_or_else(|| self.wrong(format!("{name} is needed")))
    }

    /// Whether a flag is there.
    pub fn flag(&self, name: &str) -> bool {
        self.flags.contains(&name)
    }

    /// The kind with this letter or word.
    pub fn kind(&self, word: &OsStr) -> Result<Kind, Failure> {
        word.to_str().and_then(|word| word.parse().ok()).ok_or_else(|| {
            let kinds: Vec<String> =
                Kind::ALL.iter().map(|kind| format!("{} {kind}", kind.letter())).collect();
            self.wrong(format!(
                "there is no kind {}; the kinds are: {}",
                text::file_name(word),
                kinds.join(", ")
            ))
        })
    }

    /// A number of bytes, in decimal.
    pub fn number(&self, name: &str, word: &OsStr) -> Result<u64, Failure> {
        word.to_str().and_then(text::number).ok_or_else(|| {
            self.wrong(format!("{name} is a number of bytes in decimal, not {}", text::file_name(word)))
        })
    }

    /// The same, of a number that a DWORD has to hold.
    pub fn dword(&self, name: &str, word: &OsStr) -> Result<u32, Failure> {
        let number = self.number(name, word)?;
        let most = text::grouped(u32::MAX.into());
        u32::try_from(number)
            .map_err(|_| self.wrong(format!("{name} is at most {most}, not {}", text::grouped(number))))
    }
}

/// An option and the value that it is given with `=`. A word that is no option is left whole.
fn split(word: &OsStr) -> (&OsStr, Option<&OsStr>) {
    let bytes = word.as_bytes();
    match bytes.iter().position(|byte| *byte == b'=') {
        Some(sign) if bytes.starts_with(b"--") => {
            (OsStr::from_bytes(&bytes[..sign]), Some(OsStr::from_bytes(&bytes[sign + 1..])))
        }
        _ => (word, None),
    }
}
