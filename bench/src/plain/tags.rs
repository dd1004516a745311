//! Tag lists, skipped without a jump by type or name: in a list of any order such jumps would be
//! guessed wrong.

use super::cursor::Cursor;
use super::{Answer, Fields, PACKET_CEILING, Refusal, within};

/// By type: the bytes that a value always has, and which bits of the number in its first two count
/// more.
const VALUES: [(usize, usize); 8] =
    [(0, 0), (16, 0), (2, 0xFFFF), (4, 0), (4, 0), (0, 0), (0, 0), (0, 0)];

/// What comes after the tag at the front; none if no whole and valid tag is there.
#[inline(always)]
pub fn after_tag(bytes: &[u8]) -> Option<&[u8]> {
    let (&[kind, low, high], named) = bytes.split_first_chunk()?;
    let name = usize::from(u16::from_le_bytes([low, high]));
    let value = named.get(name..)?;
    let first = usize::from(u16::from_le_bytes(*value.first_chunk()?));
    let (fixed, counted) = VALUES[usize::from(kind % 8)];
    let valid = (kind.wrapping_sub(1) < 4) & (name.wrapping_sub(1) < 255);
    if valid { value.get(fixed + (first & counted)..) } else { None }
}

/// What comes after as many tags.
#[inline]
pub fn skip_tags(bytes: &[u8], count: u32) -> Answer<&[u8]> {
    let mut rest = bytes;
    for _ in 0..count {
        rest = after_tag(rest).ok_or_else(|| fault(rest))?;
    }
    Ok(rest)
}

/// Why no tag is at the front. The type is checked before the name is read.
#[cold]
pub fn fault(bytes: &[u8]) -> Refusal {
    let mut cursor = Cursor::new(bytes);
    let mut read = || {
        if !matches!(cursor.byte()?, 1..=4) {
            return Err(Refusal::Choice);
        }
        cursor.name()
    };
    read().err().unwrap_or(Refusal::Short)
}

pub fn lone_tags(bytes: &[u8], fields: &mut Fields) -> Answer<()> {
    within(bytes, PACKET_CEILING)?;
    let mut cursor = Cursor::new(bytes);
    let tags = cursor.tags()?;
    fields[..3].copy_from_slice(&tags.numbers());
    cursor.finish()
}
