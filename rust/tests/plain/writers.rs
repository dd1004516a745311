//! Writers of lone queries, single tags and lone tag lists.

use super::cursor::Cursor;
use super::query::query;
use super::tags::tag;
use super::{Answer, NAME_CEILING, PACKET_CEILING, QUERY_DEPTH, Refusal, within};

/// The pieces one after the other at the front of the output.
pub(super) fn write(pieces: &[&[u8]], output: &mut [u8]) -> Answer<usize> {
    let length = pieces.iter().map(|piece| piece.len()).sum();
    let mut rest = output.get_mut(..length).ok_or(Refusal::Room)?;
    for piece in pieces {
        let (front, after) = rest.split_at_mut(piece.len());
        front.copy_from_slice(piece);
        rest = after;
    }
    Ok(length)
}

/// What a WORD can count.
fn counted(bytes: &[u8]) -> Answer<[u8; 2]> {
    let length = u16::try_from(bytes.len()).map_err(|_| Refusal::Limit)?;
    Ok(length.to_le_bytes())
}

fn check_name(name: &[u8]) -> Answer<()> {
    match name.len() {
        0 => Err(Refusal::Choice),
        1..=NAME_CEILING => Ok(()),
        _ => Err(Refusal::Limit),
    }
}

fn check_length(length: usize) -> Answer<()> {
    if length > PACKET_CEILING { Err(Refusal::Limit) } else { Ok(()) }
}

pub fn write_keyword(text: &[u8], output: &mut [u8]) -> Answer<usize> {
    let count = counted(text)?;
    check_length(3 + text.len())?;
    write(&[&[1], &count, text], output)
}

pub fn write_field(text: &[u8], name: &[u8], output: &mut [u8]) -> Answer<usize> {
    let (text_count, name_count) = (counted(text)?, counted(name)?);
    check_length(5 + text.len() + name.len())?;
    check_name(name)?;
    write(&[&[2], &text_count, text, &name_count, name], output)
}

/// A bound that is none is checked first, as an operation that is none.
pub fn write_limit(number: u32, bound: u8, name: &[u8], output: &mut [u8]) -> Answer<usize> {
    if !matches!(bound, 1 | 2) {
        return Err(Refusal::Choice);
    }
    let count = counted(name)?;
    check_length(8 + name.len())?;
    check_name(name)?;
    write(&[&[3], &number.to_le_bytes(), &[bound], &count, name], output)
}

pub fn write_join(operation: u8, left: &[u8], right: &[u8], output: &mut [u8]) -> Answer<usize> {
    if operation > 2 {
        return Err(Refusal::Choice);
    }
    let depth = depth_of(left)?.max(depth_of(right)?);
    check_length(2 + left.len() + right.len())?;
    if depth == QUERY_DEPTH {
        return Err(Refusal::Limit);
    }
    write(&[&[0, operation], left, right], output)
}

fn depth_of(lone: &[u8]) -> Answer<u64> {
    within(lone, PACKET_CEILING, |cursor| query(cursor, QUERY_DEPTH))
}

pub fn write_text_tag(name: &[u8], text: &[u8], output: &mut [u8]) -> Answer<usize> {
    let (name_count, text_count) = (counted(name)?, counted(text)?);
    check_name(name)?;
    write(&[&[2], &name_count, name, &text_count, text], output)
}

pub fn write_dword_tag(name: &[u8], number: u32, output: &mut [u8]) -> Answer<usize> {
    write_tag(3, name, &number.to_le_bytes(), output)
}

pub fn write_float_tag(name: &[u8], bits: u32, output: &mut [u8]) -> Answer<usize> {
    write_tag(4, name, &bits.to_le_bytes(), output)
}

pub fn write_hash_tag(name: &[u8], hash: &[u8], output: &mut [u8]) -> Answer<usize> {
    let hash = hash.first_chunk::<16>().ok_or(Refusal::Short)?;
    write_tag(1, name, hash, output)
}

fn write_tag(kind: u8, name: &[u8], value: &[u8], output: &mut [u8]) -> Answer<usize> {
    let count = counted(name)?;
    check_name(name)?;
    write(&[&[kind], &count, name, value], output)
}

/// The lone list of as many tags, which are encoded at the offset.
pub fn write_tag_list(bytes: &[u8], at: usize, count: u32, output: &mut [u8]) -> Answer<usize> {
    let mut cursor = Cursor::at_offset(bytes, at);
    let list = cursor.list(count, tag)?;
    let tags = &bytes[list.at..list.end];
    check_length(4 + tags.len())?;
    write(&[&count.to_le_bytes(), tags], output)
}

/// The lone query that is encoded at the offset.
pub fn write_query(bytes: &[u8], at: usize, output: &mut [u8]) -> Answer<usize> {
    let mut cursor = Cursor::at_offset(bytes, at);
    query(&mut cursor, QUERY_DEPTH)?;
    let query = &bytes[at..cursor.at()];
    check_length(query.len())?;
    write(&[query], output)
}
