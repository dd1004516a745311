//! The lines of `ed2k show`.

use std::fmt::Display;
use std::io::{self, Write};

use ed2k::{Address, Hash};

use crate::text;

/// How many columns an offset and the space after it have.
const OFFSET_COLUMNS: usize = 9;

/// How many columns an item's name has.
const NAME_COLUMNS: usize = 24;

/// Lines with offset, name and value. The offset of an item is the sum of the bytes of all items before it.
pub struct Sheet<'o> {
    output: &'o mut dyn Write,
    at: usize,
    /// How far to the right the next line begins, two columns to a level.
    pub level: usize,
}

impl<'o> Sheet<'o> {
    pub fn new(output: &'o mut dyn Write) -> io::Result<Sheet<'o>> {
        writeln!(output, "\n{:>7}  {:<NAME_COLUMNS$}  value", "offset", "item")?;
        Ok(Sheet { output, at: 0, level: 0 })
    }

    /// An item of so many bytes. A value that is too long for its line goes on below itself.
    pub fn item(&mut self, byte_count: usize, name: &str, value: impl Display) -> io::Result<()> {
        let columns = NAME_COLUMNS.saturating_sub(2 * self.level);
        self.line(byte_count, &format!("{name:<columns$}  {value}"), OFFSET_COLUMNS + NAME_COLUMNS + 2)
    }

    /// An item that is given in one phrase.
    pub fn phrase(&mut self, byte_count: usize, phrase: &str) -> io::Result<()> {
        self.line(byte_count, phrase, OFFSET_COLUMNS + 2 * self.level + 2)
    }

    fn line(&mut self, byte_count: usize, words: &str, below: usize) -> io::Result<()> {
        let line = format!("{:>7}  {:indent$}{words}", self.at, "", indent = 2 * self.level);
        self.at += byte_count;
        writeln!(self.output, "{}", text::folded(&line, below))
    }

    /// The head of items that follow: it has no bytes of its own.
    pub fn head(&mut self, phrase: &str) -> io::Result<()> {
        self.phrase(0, phrase)
    }

    /// Items that belong to the one before.
    pub fn within(&mut self, items: impl FnOnce(&mut Self) -> io::Result<()>) -> io::Result<()> {
        self.below(1, items)
    }

    /// Items that stand so many levels below.
    pub fn below(
        &mut self,
        levels: usize,
        items: impl FnOnce(&mut Self) -> io::Result<()>,
    ) -> io::Result<()> {
        self.level += levels;
        let shown = items(self);
        self.level -= levels;
        shown
    }

    /// The offset after the last item.
    pub fn end(self) -> io::Result<()> {
        writeln!(self.output, "{:>7}  end", self.at)
    }

    pub fn hash(&mut self, name: &str, hash: Hash) -> io::Result<()> {
        self.item(16, name, hash)
    }

    pub fn address(&mut self, name: &str, address: Address) -> io::Result<()> {
        self.item(6, name, address)
    }

    pub fn number(&mut self, name: &str, number: u32) -> io::Result<()> {
        self.item(4, name, text::grouped(number.into()))
    }

    pub fn date(&mut self, date: u32) -> io::Result<()> {
        self.item(4, "Date", text::date(date))
    }

    pub fn text(&mut self, name: &str, text: &[u8]) -> io::Result<()> {
        self.item(2 + text.len(), name, text::quoted(text))
    }

    /// A low ID is a number that the server gave; a high one is the client's IP.
    pub fn client_id(&mut self, name: &str, id: u32) -> io::Result<()> {
        let kind =
            if id < 1 << 24 { "low ID".to_string() } else { format!("high ID, IP {}", ed2k::dotted(id)) };
        self.item(4, name, format!("{} ({kind})", text::grouped(id.into())))
    }
}
