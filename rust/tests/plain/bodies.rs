//! The bodies of packets.

use super::cursor::Cursor;
use super::packets::Shape;
use super::query::put_query;
use super::tags::tag_list;
use super::{Answer, Fields, List, Refusal};

/// The body of the shape, to the packet's end.
#[inline]
pub fn body(shape: Shape, cursor: &mut Cursor, fields: &mut Fields) -> Answer<()> {
    match shape {
        Shape::Nothing => Ok(()),
        Shape::Query => put_query(cursor, fields),
        Shape::Hash => hash(cursor, fields),
        Shape::Dword => dwords::<1>(cursor, fields),
        Shape::TwoDwords => dwords::<2>(cursor, fields),
        Shape::Text => text(cursor, fields),
        Shape::TwoTexts => {
            text(cursor, fields)?;
            text(cursor, fields)
        }
        Shape::Address => address(cursor, fields),
        Shape::Addresses => addresses(cursor, fields),
        Shape::HashAddresses => {
            hash(cursor, fields)?;
            addresses(cursor, fields)
        }
        Shape::AddressDword => {
            address(cursor, fields)?;
            dwords::<1>(cursor, fields)
        }
        Shape::HashAddressTags | Shape::Record => record(cursor, fields),
        Shape::Records => records(cursor, fields),
        Shape::RecordsFlag => {
            records(cursor, fields)?;
            flag(cursor, fields)
        }
        Shape::RecordAddress => record_address(cursor, fields),
        Shape::Hello => {
            cursor.fixed(0x10)?;
            record_address(cursor, fields)
        }
        Shape::HashText => {
            hash(cursor, fields)?;
            text(cursor, fields)
        }
        Shape::Hashset => hashset(cursor, fields),
        Shape::SendingPart => sending_part(cursor, fields),
        Shape::RequestParts => request_parts(cursor, fields),
        Shape::FileStatus => file_status(cursor, fields),
        Shape::StatusRequest => status_request(cursor, fields),
        Shape::Status => status(cursor, fields),
    }
}

#[inline]
fn hash(cursor: &mut Cursor, fields: &mut Fields) -> Answer<()> {
    fields.put([cursor.hash()?]);
    Ok(())
}

#[inline]
fn dwords<const N: usize>(cursor: &mut Cursor, fields: &mut Fields) -> Answer<()> {
    for _ in 0..N {
        fields.put([cursor.dword()?.into()]);
    }
    Ok(())
}

#[inline]
fn text(cursor: &mut Cursor, fields: &mut Fields) -> Answer<()> {
    fields.put(cursor.string()?.numbers());
    Ok(())
}

#[inline]
pub fn address(cursor: &mut Cursor, fields: &mut Fields) -> Answer<()> {
    fields.put([cursor.dword()?.into(), cursor.word()?.into()]);
    Ok(())
}

#[inline]
fn addresses(cursor: &mut Cursor, fields: &mut Fields) -> Answer<()> {
    let count = cursor.byte()?;
    fields.put(cursor.even_list(count.into(), 6)?.numbers());
    Ok(())
}

/// A HASH, a DWORD, a WORD and a tag list.
#[inline]
pub fn record(cursor: &mut Cursor, fields: &mut Fields) -> Answer<()> {
    hash(cursor, fields)?;
    address(cursor, fields)?;
    fields.put(tag_list(cursor)?.numbers());
    Ok(())
}

#[inline]
fn record_address(cursor: &mut Cursor, fields: &mut Fields) -> Answer<()> {
    record(cursor, fields)?;
    address(cursor, fields)
}

#[inline]
fn pass_record(cursor: &mut Cursor) -> Answer<List> {
    cursor.run(16)?;
    cursor.dword()?;
    cursor.word()?;
    tag_list(cursor)
}

#[inline]
fn records(cursor: &mut Cursor, fields: &mut Fields) -> Answer<()> {
    let count = cursor.dword()?;
    fields.put(cursor.list(count, pass_record)?.numbers());
    Ok(())
}

#[inline]
fn flag(cursor: &mut Cursor, fields: &mut Fields) -> Answer<()> {
    let byte = cursor.byte()?;
    if byte > 1 {
        return Err(Refusal::Choice);
    }
    fields.put([byte.into()]);
    Ok(())
}

#[inline]
fn hashset(cursor: &mut Cursor, fields: &mut Fields) -> Answer<()> {
    hash(cursor, fields)?;
    let count = cursor.word()?;
    fields.put(cursor.even_list(count.into(), 16)?.numbers());
    Ok(())
}

/// Order is checked before the data, of which there are neither fewer nor more bytes than the range has.
#[inline]
fn sending_part(cursor: &mut Cursor, fields: &mut Fields) -> Answer<()> {
    hash(cursor, fields)?;
    let (start, end) = (cursor.dword()?, cursor.dword()?);
    if end.checked_sub(start).map(|length| length as usize) != Some(cursor.left()) {
        return Err(Refusal::Range);
    }
    fields.put([start.into(), end.into()]);
    fields.put(cursor.run(cursor.left())?.numbers());
    Ok(())
}

#[inline]
fn request_parts(cursor: &mut Cursor, fields: &mut Fields) -> Answer<()> {
    hash(cursor, fields)?;
    let mut numbers = [0; 6];
    for number in &mut numbers {
        *number = cursor.dword()?.into();
    }
    let (starts, ends) = numbers.split_at(3);
    if starts.iter().zip(ends).any(|(start, end)| start > end) {
        return Err(Refusal::Range);
    }
    fields.put(numbers);
    Ok(())
}

/// All status bytes are there before a bit is checked.
#[inline]
fn file_status(cursor: &mut Cursor, fields: &mut Fields) -> Answer<()> {
    hash(cursor, fields)?;
    let parts = cursor.word()?;
    let status = cursor.run(usize::from(parts).div_ceil(8))?;
    let used = parts % 8;
    if used > 0 && status.bytes.last().is_some_and(|last| last >> used != 0) {
        return Err(Refusal::Choice);
    }
    fields.put([parts.into(), status.at as u64]);
    Ok(())
}

#[inline]
fn status_request(cursor: &mut Cursor, fields: &mut Fields) -> Answer<()> {
    let number = cursor.dword()?;
    let extended = number >> 16 == 0x5AAA;
    fields.put([extended.into(), number.into()]);
    Ok(())
}

/// A body of 12 bytes is always the plain one. The shape that is returned says which it is.
#[inline]
fn status(cursor: &mut Cursor, fields: &mut Fields) -> Answer<()> {
    if cursor.left() != 12 {
        fields.numbers[2] = EXTENDED_STATUS;
        fields.put([cursor.byte()?.into(), cursor.byte()?.into()]);
        cursor.fixed(0xAA)?;
        cursor.fixed(0x5A)?;
    }
    dwords::<3>(cursor, fields)
}

const EXTENDED_STATUS: u64 = 24;
