//! Tags in words.

use std::io;

use ed2k::{Tag, TagValue, Tags};

use super::names;
use super::sheet::Sheet;
use crate::text;

/// A tag list: its count, and a line for each tag.
pub fn show(sheet: &mut Sheet<'_>, tags: Tags<'_>) -> io::Result<()> {
    count(sheet, tags.len())?;
    sheet.within(|sheet| {
        let mut before = None;
        for tag in tags {
            one(sheet, &tag, before)?;
            before = Some(tag);
        }
        Ok(())
    })
}

pub fn count(sheet: &mut Sheet<'_>, count: usize) -> io::Result<()> {
    sheet.item(4, names::TAG_LIST, text::count(count, "tag", "tags"))
}

/// The line of a tag. `before` is the tag before it, with which it may make a gap.
pub fn one(sheet: &mut Sheet<'_>, tag: &Tag<'_>, before: Option<Tag<'_>>) -> io::Result<()> {
    sheet.item(byte_count(tag), &name(tag.name), value(tag, before))
}

fn byte_count(tag: &Tag<'_>) -> usize {
    let value = match tag.value {
        TagValue::Hash(_) => 16,
        TagValue::Text(text) => 2 + text.len(),
        TagValue::Dword(_) | TagValue::Float(_) => 4,
    };
    1 + 2 + tag.name.len() + value
}

/// The number of a gap that a gap tag's name ends with.
fn gap_number(name: &[u8]) -> Option<&[u8]> {
    match name {
        [0x09 | 0x0A, digits @ ..] if !digits.is_empty() && digits.iter().all(u8::is_ascii_digit) => {
            Some(digits)
        }
        _ => None,
    }
}

/// A tag's name in words.
pub fn name(name: &[u8]) -> String {
    match (name, gap_number(name)) {
        ([special], _) => match ed2k::special_tag_name(*special) {
            Some(published) => format!("{published} ({special:02X})"),
            None => format!("special tag ({special:02X})"),
        },
        ([special, ..], Some(number)) => {
            let published = ed2k::special_tag_name(*special).unwrap_or("gap");
            format!("{published} {} ({special:02X})", text::plain(number))
        }
        _ => text::quoted(name),
    }
}

/// A tag's type and value in words. `before` is the tag before it, with which it may make a gap.
pub fn value(tag: &Tag<'_>, before: Option<Tag<'_>>) -> String {
    let value = typed_value(tag, before);
    match meaning(tag.name) {
        Some(meaning) => format!("{value}, {meaning}"),
        None => value,
    }
}

fn typed_value(tag: &Tag<'_>, before: Option<Tag<'_>>) -> String {
    match tag.value {
        TagValue::Hash(hash) => format!("HASH {hash}"),
        TagValue::Text(text) => format!("String {}", text::quoted(text)),
        TagValue::Float(bits) => format!("FLOAT {} (bits {bits:08X})", f32::from_bits(bits)),
        TagValue::Dword(number) => format!("DWORD {}{}", dword(tag.name, number), gap(tag, before)),
    }
}

/// What the names mean that 002 gives as four letters.
fn meaning(name: &[u8]) -> Option<&'static str> {
    match name {
        [0x19] => Some("priority of uploads"),
        [0x50] => Some("bytes uploaded, low DWORD"),
        [0x51] => Some("times requested"),
        [0x52] => Some("requests accepted"),
        [0x54] => Some("bytes uploaded, high DWORD"),
        _ => None,
    }
}

/// A DWORD as its tag's name asks: a number of bytes, an IP, a time, or a mere number.
pub fn dword(name: &[u8], number: u32) -> String {
    match name {
        [0x02 | 0x08] => text::bytes(number.into()),
        [0x0C] => format!("{} ms", text::grouped(number.into())),
        [0x0F] => number.to_string(),
        [0x10] => ed2k::dotted(number).to_string(),
        _ => text::grouped(number.into()),
    }
}

/// How large the gap is that this tag ends, if the tag before begins it.
fn gap(tag: &Tag<'_>, before: Option<Tag<'_>>) -> String {
    let Some(Tag { name: [0x09, started @ ..], value: TagValue::Dword(start) }) = before else {
        return String::new();
    };
    match (tag.name, tag.value) {
        ([0x0A, ended @ ..], TagValue::Dword(end)) if ended == started && start < end => {
            format!(", a gap of {} bytes", text::grouped((end - start).into()))
        }
        _ => String::new(),
    }
}
