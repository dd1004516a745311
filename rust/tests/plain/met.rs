//! known.met, server.met, part.met; the gaps of a part.met, and putting them.

use super::cursor::Cursor;
use super::gaps::{GAP_NUMBERS, Gap, GapNumbers, lawful};
use super::tags::{Tag, Tags, Value, tag, tag_list};
use super::{Answer, Fields, GAP_CEILING, List, MET_CEILING, Refusal, within};

const MET_OPENING: u8 = 0x0E;
pub(super) const PART_OPENING: u8 = 0xE0;
const BLOCKS_OPENING: u8 = 0xE1;
const PART_BYTES: u32 = 9_728_000;
const BLOCK_BYTES: u32 = 486_400;
const SIZE_NAME: &[u8] = &[2];

pub fn part_count(size: u32) -> u32 {
    size.div_ceil(PART_BYTES)
}

pub fn block_count(size: u32) -> u32 {
    size.div_ceil(BLOCK_BYTES)
}

pub struct FileEntry {
    date: u32,
    hash: u64,
    hashes: List,
    tags: List,
}

#[inline]
pub fn file_entry(cursor: &mut Cursor) -> Answer<FileEntry> {
    let (date, hash) = (cursor.dword()?, cursor.hash()?);
    let count = cursor.word()?;
    let hashes = cursor.even_list(count.into(), 16)?;
    let tags = tag_list(cursor)?;
    Ok(FileEntry { date, hash, hashes, tags })
}

pub fn put_file_entry(cursor: &mut Cursor, fields: &mut Fields) -> Answer<()> {
    let entry = file_entry(cursor)?;
    fields.put([entry.date.into(), entry.hash]);
    fields.put(entry.hashes.numbers());
    fields.put(entry.tags.numbers());
    Ok(())
}

#[inline]
pub(super) fn server_entry(cursor: &mut Cursor) -> Answer<(u32, u16, List)> {
    Ok((cursor.dword()?, cursor.word()?, tag_list(cursor)?))
}

pub fn put_server_entry(cursor: &mut Cursor, fields: &mut Fields) -> Answer<()> {
    let (ip, port, tags) = server_entry(cursor)?;
    fields.put([ip.into(), port.into()]);
    fields.put(tags.numbers());
    Ok(())
}

/// The opening byte and a list of entries.
#[inline]
fn entries<T>(cursor: &mut Cursor, entry: impl Fn(&mut Cursor) -> Answer<T>) -> Answer<Fields> {
    if cursor.byte()? != MET_OPENING {
        return Err(Refusal::Opening);
    }
    let count = cursor.dword()?;
    let mut fields = Fields::default();
    fields.put([MET_OPENING.into()]);
    fields.put(cursor.list(count, entry)?.numbers());
    Ok(fields)
}

pub fn known_met(cursor: &mut Cursor) -> Answer<Fields> {
    entries(cursor, file_entry)
}

pub fn server_met(cursor: &mut Cursor) -> Answer<Fields> {
    let mut fields = entries(cursor, server_entry)?;
    fields.put(cursor.run(cursor.left())?.numbers());
    Ok(fields)
}

/// Which hash lists stand in a part.met, and where.
struct Hashes {
    which: u64,
    parts: List,
    blocks: List,
}

const NO_LIST: List = List { at: 0, end: 0, count: 0 };

pub(super) struct Part {
    pub opening: u8,
    pub date: u32,
    pub hash: u64,
    pub tags: List,
    pub gaps: GapNumbers,
    hashes: Hashes,
}

pub(super) fn part(cursor: &mut Cursor) -> Answer<Part> {
    match cursor.byte()? {
        PART_OPENING => counted_part(cursor),
        BLOCKS_OPENING => blocks_part(cursor),
        _ => Err(Refusal::Opening),
    }
}

fn counted_part(cursor: &mut Cursor) -> Answer<Part> {
    let (date, hash) = (cursor.dword()?, cursor.hash()?);
    let count = cursor.word()?;
    let parts = cursor.even_list(count.into(), 16)?;
    let (tags, gaps) = part_tags(cursor)?;
    let hashes = Hashes { which: 4, parts, blocks: NO_LIST };
    Ok(Part { opening: PART_OPENING, date, hash, tags, gaps, hashes })
}

fn blocks_part(cursor: &mut Cursor) -> Answer<Part> {
    cursor.fixed(2)?;
    let (date, hash) = (cursor.dword()?, cursor.hash()?);
    let (tags, gaps) = part_tags(cursor)?;
    let hashes = hashes(cursor, gaps[0] as u32)?;
    Ok(Part { opening: BLOCKS_OPENING, date, hash, tags, gaps, hashes })
}

/// Up to two blocks and the closing byte. A lone block is the first.
fn hashes(cursor: &mut Cursor, size: u32) -> Answer<Hashes> {
    let mut hashes = Hashes { which: 0, parts: NO_LIST, blocks: NO_LIST };
    if !block_follows(cursor)? {
        return Ok(hashes);
    }
    hashes.which = 1;
    hashes.parts = cursor.even_list(part_count(size), 16)?;
    if !block_follows(cursor)? {
        return Ok(hashes);
    }
    hashes.which = 3;
    hashes.blocks = cursor.even_list(block_count(size), 8)?;
    cursor.fixed(0)?;
    Ok(hashes)
}

fn block_follows(cursor: &mut Cursor) -> Answer<bool> {
    match cursor.byte()? {
        0 => Ok(false),
        1 => Ok(true),
        _ => Err(Refusal::Choice),
    }
}

/// The tag list, then its size, then its gaps.
fn part_tags(cursor: &mut Cursor) -> Answer<(List, GapNumbers)> {
    let count = cursor.dword()?;
    let tags = Tags::from_cursor(*cursor, count);
    let list = cursor.list(count, tag)?;
    let size = size(tags)?;
    Ok((list, gaps(tags, size)?))
}

/// The one DWORD tag named 02.
fn size(tags: Tags) -> Answer<u32> {
    let mut sizes = tags.filter_map(|tag| match tag.value {
        Value::Dword(size) if tag.name.bytes == SIZE_NAME => Some(size),
        _ => None,
    });
    match (sizes.next(), sizes.next()) {
        (Some(size), None) => Ok(size),
        _ => Err(Refusal::Size),
    }
}

pub(super) fn is_gap_tag(tag: &Tag) -> bool {
    matches!(tag.name.bytes[0], START | END)
}

pub(super) const START: u8 = 0x09;
pub(super) const END: u8 = 0x0A;

fn gaps(mut tags: Tags, size: u32) -> Answer<GapNumbers> {
    let mut record = [0; GAP_NUMBERS];
    record[0] = size.into();
    let mut numbers: [&[u8]; GAP_CEILING] = [&[]; GAP_CEILING];
    let mut count = 0;
    let mut previous_end = None;
    while let Some(start) = tags.find(is_gap_tag) {
        if count == GAP_CEILING {
            return Err(Refusal::Limit);
        }
        let gap = tags.next().and_then(|end| gap(start, end));
        let (number, [start, end]) = gap.ok_or(Refusal::Range)?;
        let in_order = start < end && end <= size && previous_end < Some(start);
        if !in_order || numbers[..count].contains(&number) {
            return Err(Refusal::Range);
        }
        numbers[count] = number;
        record[2 + 2 * count] = start.into();
        record[3 + 2 * count] = end.into();
        count += 1;
        previous_end = Some(end);
    }
    record[1] = count as u64;
    Ok(record)
}

/// The number and the range of a start tag and its end tag.
fn gap<'a>(start: Tag<'a>, end: Tag<'a>) -> Option<(&'a [u8], [u32; 2])> {
    let (Value::Dword(from), Value::Dword(to)) = (start.value, end.value) else {
        return None;
    };
    let number = start.name.bytes.strip_prefix(&[START])?;
    let same = end.name.bytes.strip_prefix(&[END])? == number;
    let digits = matches!(number.len(), 1..=10) && number.iter().all(u8::is_ascii_digit);
    (same && digits).then_some((number, [from, to]))
}

pub fn part_met(cursor: &mut Cursor) -> Answer<Fields> {
    let part = part(cursor)?;
    let mut fields = Fields::default();
    fields.put([part.opening.into(), part.gaps[0], part.date.into(), part.hash]);
    fields.put(part.tags.numbers());
    fields.put([part.hashes.which]);
    fields.put(part.hashes.parts.numbers());
    fields.put(part.hashes.blocks.numbers());
    Ok(fields)
}

/// The gap record of a part.met.
pub fn read_gaps(file: &[u8], record: &mut [u64]) -> Answer<()> {
    let part = within(file, MET_CEILING, part)?;
    let record = record.first_chunk_mut().ok_or(Refusal::Room)?;
    *record = part.gaps;
    Ok(())
}

/// The file with the gaps of the record: all but the gap tags stays, and the gaps end the tag list.
pub fn put_gaps(file: &[u8], record: &[u64], output: &mut [u8]) -> Answer<usize> {
    let part = within(file, MET_CEILING, part)?;
    let (size, gaps) = lawful(record)?;
    if size != part.gaps[0] {
        return Err(Refusal::Range);
    }
    let gone = Tags::of(file, part.tags).filter(is_gap_tag);
    let gone_bytes: usize = gone.map(|tag| gap_tag_bytes(tag.name.bytes.len() - 1)).sum();
    let new_bytes: usize = (0..gaps.len()).map(|number| 2 * gap_tag_bytes(digits(number))).sum();
    let length = file.len() - gone_bytes + new_bytes;
    if length > MET_CEILING {
        return Err(Refusal::Limit);
    }
    let output = output.get_mut(..length).ok_or(Refusal::Room)?;
    write_part(file, &part, gaps, output);
    Ok(length)
}

fn digits(number: usize) -> usize {
    if number < 10 { 1 } else { 2 }
}

/// Type, name length, name of a byte and as many digits, DWORD.
fn gap_tag_bytes(digits: usize) -> usize {
    8 + digits
}

fn write_part(file: &[u8], part: &Part, gaps: &[Gap], output: &mut [u8]) {
    let mut at = 0;
    let mut write = |bytes: &[u8]| {
        output[at..at + bytes.len()].copy_from_slice(bytes);
        at += bytes.len();
    };
    let count = part.tags.count - 2 * part.gaps[1] as u32 + 2 * gaps.len() as u32;
    write(&file[..part.tags.at - 4]);
    write(&count.to_le_bytes());
    let mut tags = Tags::of(file, part.tags);
    let mut from = tags.at();
    while let Some(tag) = tags.next() {
        if !is_gap_tag(&tag) {
            write(&file[from..tags.at()]);
        }
        from = tags.at();
    }
    for (number, [start, end]) in gaps.iter().enumerate() {
        write_gap_tag(&mut write, START, number, *start as u32);
        write_gap_tag(&mut write, END, number, *end as u32);
    }
    write(&file[part.tags.end..]);
}

pub(super) fn write_gap_tag(write: &mut impl FnMut(&[u8]), kind: u8, number: usize, value: u32) {
    let (tens, ones) = (b'0' + (number / 10) as u8, b'0' + (number % 10) as u8);
    match digits(number) {
        1 => write(&[3, 2, 0, kind, ones]),
        _ => write(&[3, 3, 0, kind, tens, ones]),
    }
    write(&value.to_le_bytes());
}
