//! Bytes in hexadecimal, with an item marked below them.

use std::fmt::Write as _;
use std::io::{self, Write};
use std::ops::Range;

use crate::text;

/// How many bytes a line has.
const ROW: usize = 16;

/// How many lines of an item are shown.
const ITEM_ROWS: usize = 3;

/// An item in lent bytes. It may be cut by their end, or begin there.
pub struct Marked<'a> {
    bytes: &'a [u8],
    item: Range<usize>,
}

impl<'a> Marked<'a> {
    pub fn new(bytes: &'a [u8], offset: usize, size: usize) -> Marked<'a> {
        Marked { bytes, item: offset..offset + size }
    }

    /// Prints the lines of the item, one before and one after. Of a long item the first lines are printed, and how many bytes come
    /// after them. Bytes that the item lacks are printed as `--`.
    pub fn print(&self, output: &mut dyn Write) -> io::Result<()> {
        writeln!(output, "\n{:>7}  bytes", "offset")?;
        let first = self.item.start / ROW;
        let last = self.item.end.saturating_sub(1).max(self.item.start) / ROW;
        let shown = last.min(first + ITEM_ROWS - 1);
        for row in first.saturating_sub(1)..=shown {
            self.print_row(row, output)?;
        }
        if shown < last {
            let more = text::count(self.item.end - ROW * (shown + 1), "byte", "bytes");
            return writeln!(output, "{:9}and {more} more of the item", "");
        }
        if ROW * (last + 1) < self.bytes.len() {
            self.print_row(last + 1, output)?;
        }
        Ok(())
    }

    /// A line of bytes, and the marks of the item's below.
    fn print_row(&self, row: usize, output: &mut dyn Write) -> io::Result<()> {
        let (mut cells, mut marks) = (String::new(), String::new());
        for offset in ROW * row..ROW * (row + 1) {
            let cell = match self.bytes.get(offset) {
                Some(byte) => format!("{byte:02X}"),
                None if self.item.contains(&offset) => "--".into(),
                None => String::new(),
            };
            let _ = write!(cells, "{cell:<3}");
            let _ = write!(marks, "{:<3}", self.mark(offset));
        }
        writeln!(output, "{:>7}  {}", ROW * row, cells.trim_end())?;
        match marks.trim_end() {
            "" => Ok(()),
            marks => writeln!(output, "{:9}{marks}", ""),
        }
    }

    /// Two signs below each byte of the item, one at the place of an item without bytes.
    fn mark(&self, offset: usize) -> &'static str {
        if self.item.contains(&offset) {
            "^^"
        } else if self.item.is_empty() && self.item.start == offset {
            "^"
        } else {
            ""
        }
    }
}
