//! part.met: its tags in one pass, its gaps, and putting them.

use super::cursor::{Cursor, List};
use super::gaps::{Lawful, lawful};
use super::tags::{after_tag, fault};
use super::{Answer, Fields, GAP_CEILING, GAP_NUMBERS, MET_CEILING, Refusal, within};

pub(super) const COUNTED_OPENING: u8 = 0xE0;
const BLOCKS_OPENING: u8 = 0xE1;
const PART_BYTES: u32 = 9_728_000;
const BLOCK_BYTES: u32 = 486_400;
/// How the size tag begins: a DWORD, a name of one byte, the byte 02.
const SIZE_TAG: [u8; 4] = [3, 1, 0, 2];
const START: u8 = 0x09;
const END: u8 = 0x0A;

pub(super) struct Part {
    pub opening: u8,
    pub date: u32,
    pub hash: u64,
    pub size: u32,
    pub tags: List,
    /// Which hash lists it has, by the numbers of `ed2k.h`.
    which: u64,
    parts: List,
    blocks: List,
}

/// A gap, and the byte range of its two tags.
#[derive(Clone, Copy, Default)]
pub(super) struct Pair {
    pub start: u32,
    pub end: u32,
    pub at: usize,
    pub next: usize,
}

/// Reads the whole file; `keep` is given each gap as it is met, also where a later rule is broken.
#[inline]
pub(super) fn read(file: &[u8], keep: impl FnMut(usize, Pair)) -> Answer<Part> {
    within(file, MET_CEILING)?;
    let mut cursor = Cursor::new(file);
    let part = match cursor.byte()? {
        COUNTED_OPENING => counted(&mut cursor, keep),
        BLOCKS_OPENING => blocked(&mut cursor, keep),
        _ => Err(Refusal::Opening),
    }?;
    cursor.finish()?;
    Ok(part)
}

#[inline]
fn counted(cursor: &mut Cursor, keep: impl FnMut(usize, Pair)) -> Answer<Part> {
    let (date, hash) = (cursor.dword()?, cursor.hash()?);
    let count = cursor.word()?;
    let parts = cursor.even_list(count.into(), 16)?;
    let (size, tags) = part_tags(cursor, keep)?;
    let blocks = List::default();
    Ok(Part { opening: COUNTED_OPENING, date, hash, size, tags, which: 4, parts, blocks })
}

/// The tags, then up to two blocks and the closing byte. A lone block is the first.
#[inline]
fn blocked(cursor: &mut Cursor, keep: impl FnMut(usize, Pair)) -> Answer<Part> {
    cursor.fixed(2)?;
    let (date, hash) = (cursor.dword()?, cursor.hash()?);
    let (size, tags) = part_tags(cursor, keep)?;
    let (mut which, mut parts, mut blocks) = (0, List::default(), List::default());
    if block_follows(cursor)? {
        which = 1;
        parts = cursor.even_list(size.div_ceil(PART_BYTES), 16)?;
        if block_follows(cursor)? {
            which = 3;
            blocks = cursor.even_list(size.div_ceil(BLOCK_BYTES), 8)?;
            cursor.fixed(0)?;
        }
    }
    Ok(Part { opening: BLOCKS_OPENING, date, hash, size, tags, which, parts, blocks })
}

fn block_follows(cursor: &mut Cursor) -> Answer<bool> {
    match cursor.byte()? {
        0 => Ok(false),
        1 => Ok(true),
        _ => Err(Refusal::Choice),
    }
}

/// The size and the byte range of the tags. All are there before one is checked; the size is
/// checked before the gaps.
#[inline]
fn part_tags(cursor: &mut Cursor, mut keep: impl FnMut(usize, Pair)) -> Answer<(u32, List)> {
    let count = cursor.dword()?;
    let at = cursor.at();
    let (mut sizes, mut size) = (0, 0);
    let mut gaps = GapTags::new();
    for _ in 0..count {
        let (tag, at) = (cursor.rest(), cursor.at());
        cursor.go_to(after_tag(tag).ok_or_else(|| fault(tag))?);
        let head = tag.first_chunk().unwrap_or(&[0; 4]);
        if *head == SIZE_TAG {
            sizes += 1;
            size = tag[4..].first_chunk().copied().map_or(0, u32::from_le_bytes);
        }
        if matches!(head[3], START | END) | gaps.pending.is_some() {
            gaps.step(tag, at, &mut keep);
        }
    }
    if sizes != 1 {
        return Err(Refusal::Size);
    }
    gaps.finish(size)?;
    Ok((size, List { at, end: cursor.at(), count }))
}

/// A start tag whose end tag comes next.
struct Pending {
    key: u64,
    start: u32,
    at: usize,
}

/// How far the gap tags are.
struct GapTags {
    count: usize,
    keys: [u64; GAP_CEILING],
    highest_key: Option<u64>,
    last_end: Option<u32>,
    pending: Option<Pending>,
    refusal: Option<Refusal>,
}

impl GapTags {
    fn new() -> Self {
        GapTags {
            count: 0,
            keys: [0; GAP_CEILING],
            highest_key: None,
            last_end: None,
            pending: None,
            refusal: None,
        }
    }

    /// A gap tag, or the tag after a start tag.
    #[inline]
    fn step(&mut self, tag: &[u8], at: usize, keep: &mut impl FnMut(usize, Pair)) {
        if self.refusal.is_some() {
            return;
        }
        let passes = match self.pending.take() {
            None if self.count == GAP_CEILING => {
                self.refusal = Some(Refusal::Limit);
                return;
            }
            None => self.take_start(tag, at),
            Some(pending) => self.take_end(tag, at, pending, keep),
        };
        if passes.is_none() {
            self.refusal = Some(Refusal::Range);
        }
    }

    #[inline]
    fn take_start(&mut self, tag: &[u8], at: usize) -> Option<()> {
        let (key, start) = gap_tag(START, tag)?;
        let used = self.highest_key >= Some(key) && self.keys[..self.count].contains(&key);
        if used || self.last_end >= Some(start) {
            return None;
        }
        self.pending = Some(Pending { key, start, at });
        Some(())
    }

    /// Both tags of a pair have the same length.
    #[inline]
    fn take_end(
        &mut self,
        tag: &[u8],
        at: usize,
        Pending { key, start, at: first }: Pending,
        keep: &mut impl FnMut(usize, Pair),
    ) -> Option<()> {
        let (own, end) = gap_tag(END, tag)?;
        if own != key || end <= start {
            return None;
        }
        keep(self.count, Pair { start, end, at: first, next: at + (at - first) });
        *self.keys.get_mut(self.count)? = key;
        self.highest_key = self.highest_key.max(Some(key));
        self.last_end = Some(end);
        self.count += 1;
        Some(())
    }

    /// Ends ascend, so the last one is the highest. A pair that ends after the size comes before the
    /// rule that was found broken.
    fn finish(&self, size: u32) -> Answer<()> {
        if self.last_end > Some(size) {
            return Err(Refusal::Range);
        }
        match self.refusal {
            Some(refusal) => Err(refusal),
            None if self.pending.is_some() => Err(Refusal::Range),
            None => Ok(()),
        }
    }
}

/// The key of the digits and the number of a DWORD tag whose name is this byte and 1 to 10 digits.
/// Keys are the same for the same digits, and ascend with the numbers.
#[inline]
fn gap_tag(first: u8, tag: &[u8]) -> Option<(u64, u32)> {
    let (&[kind, length, 0, name], rest) = tag.split_first_chunk()? else {
        return None;
    };
    if kind != 3 || name != first || !matches!(length, 2..=11) {
        return None;
    }
    let (digits, value) = rest.split_at_checked(usize::from(length) - 1)?;
    let mut key = 0;
    for &digit in digits {
        if !digit.is_ascii_digit() {
            return None;
        }
        key = 10 * key + u64::from(digit - b'0');
    }
    Some((16 * key + u64::from(length), u32::from_le_bytes(*value.first_chunk()?)))
}

pub fn part_met(bytes: &[u8], fields: &mut Fields) -> Answer<()> {
    let part = read(bytes, |_, _| ())?;
    fields[..4].copy_from_slice(&[
        part.opening.into(),
        part.size.into(),
        part.date.into(),
        part.hash,
    ]);
    fields[4..7].copy_from_slice(&part.tags.numbers());
    fields[7] = part.which;
    fields[8..11].copy_from_slice(&part.parts.numbers());
    fields[11..14].copy_from_slice(&part.blocks.numbers());
    Ok(())
}

/// The gap record of a part.met.
pub fn read_gaps(file: &[u8], lent: &mut [u64]) -> Answer<()> {
    let mut record = [0; GAP_NUMBERS];
    let part = read(file, |index, pair| {
        record[1] = index as u64 + 1;
        if let Some(slot) = record[2..].as_chunks_mut().0.get_mut(index) {
            *slot = [pair.start.into(), pair.end.into()];
        }
    })?;
    record[0] = part.size.into();
    *lent.first_chunk_mut().ok_or(Refusal::Room)? = record;
    Ok(())
}

/// The file with the gaps of the record: all but the gap tags stays, and the gaps end the tag list.
pub fn put_gaps(file: &[u8], record: &[u64], output: &mut [u8]) -> Answer<usize> {
    let mut pairs = [(0, 0); GAP_CEILING];
    let mut count = 0;
    let part = read(file, |index, pair| {
        count = index + 1;
        if let Some(slot) = pairs.get_mut(index) {
            *slot = (pair.at, pair.next);
        }
    })?;
    let gone = &pairs[..count];
    let Lawful { size, gaps, .. } = lawful(record)?;
    if size != part.size.into() {
        return Err(Refusal::Range);
    }
    let gone_bytes: usize = gone.iter().map(|(at, next)| next - at).sum();
    let length = file.len() - gone_bytes + pairs_bytes(gaps.len());
    if length > MET_CEILING {
        return Err(Refusal::Limit);
    }
    let mut output = Output { rest: output.get_mut(..length).ok_or(Refusal::Room)? };
    let tags = part.tags.count - 2 * gone.len() as u32 + 2 * gaps.len() as u32;
    output.put(&file[..part.tags.at - 4]);
    output.put(&tags.to_le_bytes());
    let mut from = part.tags.at;
    for &(at, next) in gone {
        output.put(&file[from..at]);
        from = next;
    }
    output.put(&file[from..part.tags.end]);
    for (number, &[start, end]) in gaps.iter().enumerate() {
        output.put_pair(number, start as u32, end as u32);
    }
    output.put(&file[part.tags.end..]);
    Ok(length)
}

/// Two tags of type, name length, name of a byte and one or two digits, and DWORD.
pub(super) fn pairs_bytes(count: usize) -> usize {
    18 * count + 2 * count.saturating_sub(10)
}

/// What is left of the output.
pub(super) struct Output<'a> {
    pub rest: &'a mut [u8],
}

impl Output<'_> {
    #[inline]
    pub fn put(&mut self, bytes: &[u8]) {
        let (front, rest) = std::mem::take(&mut self.rest).split_at_mut(bytes.len());
        front.copy_from_slice(bytes);
        self.rest = rest;
    }

    /// The tags of the gap with this number.
    #[inline]
    pub fn put_pair(&mut self, number: usize, start: u32, end: u32) {
        self.put_gap_tag(START, number as u8, start);
        self.put_gap_tag(END, number as u8, end);
    }

    #[inline]
    fn put_gap_tag(&mut self, first: u8, number: u8, value: u32) {
        match number {
            0..10 => self.put(&[3, 2, 0, first, b'0' + number]),
            _ => self.put(&[3, 3, 0, first, b'0' + number / 10, b'0' + number % 10]),
        }
        self.put(&value.to_le_bytes());
    }
}
