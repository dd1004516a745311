//! Met files in words.

use std::fmt::Display;
use std::io;

use ed2k::{BlockHashes, Entry, FileEntry, Hashes, KnownMet, List, PartMet, ServerMet};

use super::sheet::Sheet;
use super::{names, tags};
use crate::text;

fn opening(sheet: &mut Sheet<'_>, byte: u8, meaning: &str) -> io::Result<()> {
    sheet.item(1, "opening byte", format!("({byte:02X}) {meaning}"))
}

pub fn show_known(sheet: &mut Sheet<'_>, met: &KnownMet<'_>) -> io::Result<()> {
    opening(sheet, met.opening, "known.met")?;
    sheet.item(4, "File details list", text::count(met.entries.len(), "entry", "entries"))?;
    for (index, entry) in met.entries.clone().enumerate() {
        sheet.head(&format!("File details {}", index + 1))?;
        sheet.within(|sheet| file_entry(sheet, entry))?;
    }
    Ok(())
}

fn file_entry(sheet: &mut Sheet<'_>, entry: FileEntry<'_>) -> io::Result<()> {
    sheet.date(entry.date)?;
    sheet.hash(names::FILE_HASH, entry.hash)?;
    counted_hashes(sheet, entry.part_hashes)?;
    tags::show(sheet, entry.tags)
}

/// A WORD count and part hashes.
pub fn counted_hashes(sheet: &mut Sheet<'_>, hashes: Hashes<'_>) -> io::Result<()> {
    hash_count(sheet, hashes.len())?;
    numbered(sheet, PART, hashes)
}

/// The WORD before part hashes.
pub fn hash_count(sheet: &mut Sheet<'_>, count: usize) -> io::Result<()> {
    sheet.item(2, names::PART_HASH_LIST, text::count(count, "hash", "hashes"))
}

/// What hashes are of, and how many bytes such a hash has.
#[derive(Clone, Copy)]
pub struct Hashed {
    name: &'static str,
    byte_count: usize,
}

pub const PART: Hashed = Hashed { name: "part", byte_count: 16 };
const BLOCK: Hashed = Hashed { name: "block", byte_count: 8 };

impl Hashed {
    /// The name of such a hash. They are counted from 1.
    pub fn name(self, index: usize) -> String {
        format!("{} {}", self.name, index + 1)
    }

    /// The line of such a hash.
    pub fn one(self, sheet: &mut Sheet<'_>, index: usize, hash: impl Display) -> io::Result<()> {
        sheet.item(self.byte_count, &self.name(index), hash)
    }
}

fn numbered<'a, T: Entry<'a> + Display>(
    sheet: &mut Sheet<'_>,
    hashed: Hashed,
    hashes: List<'a, T>,
) -> io::Result<()> {
    sheet.within(|sheet| hashes.enumerate().try_for_each(|(index, hash)| hashed.one(sheet, index, hash)))
}

pub fn show_server(sheet: &mut Sheet<'_>, met: &ServerMet<'_>) -> io::Result<()> {
    opening(sheet, met.opening, "server.met")?;
    sheet.item(4, "Server desc list", text::count(met.entries.len(), "entry", "entries"))?;
    for (index, entry) in met.entries.clone().enumerate() {
        sheet.head(&format!("Server desc {}", index + 1))?;
        sheet.within(|sheet| {
            sheet.address("IP and Port", entry.address)?;
            tags::show(sheet, entry.tags)
        })?;
    }
    if !met.tail.is_empty() {
        let tail = format!("{}: {}", text::bytes(met.tail.len() as u64), text::quoted_beginning(met.tail));
        sheet.item(met.tail.len(), "Tail", tail)?;
    }
    Ok(())
}

/// The two forms have their items in different orders.
pub fn show_part(sheet: &mut Sheet<'_>, met: &PartMet<'_>) -> io::Result<()> {
    if met.opening == 0xE0 {
        opening(sheet, met.opening, "part.met, version 04")?;
        sheet.date(met.date)?;
        sheet.hash(names::FILE_HASH, met.hash)?;
        met.part_hashes.clone().map_or(Ok(()), |hashes| counted_hashes(sheet, hashes))?;
        return tags::show(sheet, met.tags.clone());
    }
    opening(sheet, met.opening, "part.met")?;
    sheet.item(1, names::FIXED_BYTE, "(02)")?;
    sheet.date(met.date)?;
    sheet.hash(names::FILE_HASH, met.hash)?;
    tags::show(sheet, met.tags.clone())?;
    blocks(sheet, met.part_hashes.clone(), met.block_hashes.clone())?;
    sheet.item(1, "closing byte", "(00)")
}

fn blocks(
    sheet: &mut Sheet<'_>,
    parts: Option<Hashes<'_>>,
    blocks: Option<BlockHashes<'_>>,
) -> io::Result<()> {
    if let Some(parts) = parts {
        sheet.item(1, "B part hashes", text::count(parts.len(), "hash", "hashes"))?;
        numbered(sheet, PART, parts)?;
    }
    if let Some(blocks) = blocks {
        sheet.item(1, "S part hashes", text::count(blocks.len(), "hash", "hashes"))?;
        numbered(sheet, BLOCK, blocks)?;
    }
    Ok(())
}
