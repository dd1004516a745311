//! The packets of the three links.

use super::cursor::Cursor;
use super::query::query;
use super::{Answer, FIELDS, Fields, PACKET_CEILING, Refusal, within};

const OPENING: u8 = 0xE3;

/// The shapes of bodies, by their numbers in `ed2k.h`. The extended 97 is distinguished from
/// the plain one by its body.
#[derive(Clone, Copy)]
enum Shape {
    Nothing = 0,
    Query = 1,
    Hash = 2,
    Dword = 3,
    TwoDwords = 4,
    Text = 5,
    TwoTexts = 6,
    Address = 7,
    Addresses = 8,
    HashAddresses = 9,
    AddressDword = 10,
    HashAddressTags = 11,
    Record = 12,
    Records = 13,
    RecordsFlag = 14,
    RecordAddress = 15,
    Hello = 16,
    HashText = 17,
    Hashset = 18,
    SendingPart = 19,
    RequestParts = 20,
    FileStatus = 21,
    StatusRequest = 22,
    Status = 23,
}

const EXTENDED_STATUS: u64 = 24;

#[inline]
fn server_shape(opcode: u8) -> Option<Shape> {
    Some(match opcode {
        0x05 | 0x14 | 0x18 | 0x21 => Shape::Nothing,
        0x16 | 0x1A => Shape::Query,
        0x19 => Shape::Hash,
        0x1C | 0x36 | 0x40 => Shape::Dword,
        0x34 => Shape::TwoDwords,
        0x38 => Shape::Text,
        0x35 => Shape::Address,
        0x32 => Shape::Addresses,
        0x42 => Shape::HashAddresses,
        0x01 => Shape::Record,
        0x15 | 0x43 => Shape::Records,
        0x33 => Shape::RecordsFlag,
        0x41 => Shape::HashAddressTags,
        _ => return None,
    })
}

#[inline]
fn client_shape(opcode: u8) -> Option<Shape> {
    Some(match opcode {
        0x4A | 0x55 | 0x56 | 0x57 => Shape::Nothing,
        0x48 | 0x49 | 0x4F | 0x51 | 0x54 | 0x58 => Shape::Hash,
        0x01 => Shape::Hello,
        0x4C => Shape::RecordAddress,
        0x5C => Shape::Dword,
        0x4D => Shape::TwoDwords,
        0x4E => Shape::Text,
        0x59 => Shape::HashText,
        0x4B => Shape::Records,
        0x52 => Shape::Hashset,
        0x46 => Shape::SendingPart,
        0x47 => Shape::RequestParts,
        0x50 => Shape::FileStatus,
        _ => return None,
    })
}

#[inline]
fn udp_shape(opcode: u8) -> Option<Shape> {
    Some(match opcode {
        0xA2 | 0xA4 => Shape::Nothing,
        0x9A => Shape::Hash,
        0x98 => Shape::Query,
        0x99 => Shape::Record,
        0x9B => Shape::HashAddresses,
        0x9C => Shape::AddressDword,
        0x9E => Shape::Dword,
        0xA1 => Shape::Addresses,
        0xA3 => Shape::TwoTexts,
        0x96 => Shape::StatusRequest,
        0x97 => Shape::Status,
        _ => return None,
    })
}

pub fn server_link(bytes: &[u8], fields: &mut Fields) -> Answer<()> {
    framed(bytes, fields, server_shape)
}

pub fn client_link(bytes: &[u8], fields: &mut Fields) -> Answer<()> {
    framed(bytes, fields, client_shape)
}

pub fn udp_link(bytes: &[u8], fields: &mut Fields) -> Answer<()> {
    packet(opened(bytes)?, fields, udp_shape)?.finish()
}

/// Where the last item of a UDP packet ends.
pub fn udp_end(bytes: &[u8]) -> Answer<usize> {
    packet(opened(bytes)?, &mut [0; FIELDS], udp_shape).map(|cursor| cursor.at())
}

#[inline]
fn opened(bytes: &[u8]) -> Answer<Cursor<'_>> {
    within(bytes, PACKET_CEILING)?;
    let mut cursor = Cursor::new(bytes);
    if cursor.byte()? == OPENING { Ok(cursor) } else { Err(Refusal::Opening) }
}

/// The length is that of opcode and body.
#[inline]
fn framed(bytes: &[u8], fields: &mut Fields, shape: impl Fn(u8) -> Option<Shape>) -> Answer<()> {
    let mut cursor = opened(bytes)?;
    let length = cursor.dword()? as usize;
    if length == 0 || length != cursor.rest().len() {
        return Err(Refusal::Length);
    }
    packet(cursor, fields, shape)?.finish()
}

/// The cursor after the last item.
#[inline]
fn packet<'a>(
    mut cursor: Cursor<'a>,
    fields: &mut Fields,
    shape: impl Fn(u8) -> Option<Shape>,
) -> Answer<Cursor<'a>> {
    let opcode = cursor.byte()?;
    let shape = shape(opcode).ok_or(Refusal::Kind)?;
    fields[..3].copy_from_slice(&[OPENING.into(), opcode.into(), shape as u64]);
    body(shape, &mut cursor, fields)?;
    Ok(cursor)
}

/// The body of the shape. The numbers after a function's name are where its fields begin.
#[inline]
fn body(shape: Shape, cursor: &mut Cursor, fields: &mut Fields) -> Answer<()> {
    match shape {
        Shape::Nothing => Ok(()),
        Shape::Query => {
            fields[3] = cursor.at() as u64;
            fields[5] = query(cursor)?.into();
            fields[4] = cursor.at() as u64;
            Ok(())
        }
        Shape::Hash => hash(cursor, fields),
        Shape::Dword => dwords::<3, 1>(cursor, fields),
        Shape::TwoDwords => dwords::<3, 2>(cursor, fields),
        Shape::Text => text::<3>(cursor, fields),
        Shape::TwoTexts => {
            text::<3>(cursor, fields)?;
            text::<5>(cursor, fields)
        }
        Shape::Address => address::<3>(cursor, fields),
        Shape::Addresses => addresses::<3>(cursor, fields),
        Shape::HashAddresses => {
            hash(cursor, fields)?;
            addresses::<4>(cursor, fields)
        }
        Shape::AddressDword => {
            address::<3>(cursor, fields)?;
            dwords::<5, 1>(cursor, fields)
        }
        Shape::HashAddressTags | Shape::Record => record(cursor, fields),
        Shape::Records => records(cursor, fields),
        Shape::RecordsFlag => {
            records(cursor, fields)?;
            flag::<6>(cursor, fields)
        }
        Shape::RecordAddress => {
            record(cursor, fields)?;
            address::<9>(cursor, fields)
        }
        Shape::Hello => {
            cursor.fixed(0x10)?;
            record(cursor, fields)?;
            address::<9>(cursor, fields)
        }
        Shape::HashText => {
            hash(cursor, fields)?;
            text::<4>(cursor, fields)
        }
        Shape::Hashset => {
            hash(cursor, fields)?;
            let count = cursor.word()?;
            fields[4..7].copy_from_slice(&cursor.even_list(count.into(), 16)?.numbers());
            Ok(())
        }
        Shape::SendingPart => sending_part(cursor, fields),
        Shape::RequestParts => request_parts(cursor, fields),
        Shape::FileStatus => file_status(cursor, fields),
        Shape::StatusRequest => {
            let number = cursor.dword()?;
            fields[3..5].copy_from_slice(&[(number >> 16 == 0x5AAA).into(), number.into()]);
            Ok(())
        }
        Shape::Status => status(cursor, fields),
    }
}

#[inline]
fn hash(cursor: &mut Cursor, fields: &mut Fields) -> Answer<()> {
    fields[3] = cursor.hash()?;
    Ok(())
}

#[inline]
fn dwords<const AT: usize, const N: usize>(cursor: &mut Cursor, fields: &mut Fields) -> Answer<()> {
    for field in &mut fields[AT..AT + N] {
        *field = cursor.dword()?.into();
    }
    Ok(())
}

#[inline]
fn text<const AT: usize>(cursor: &mut Cursor, fields: &mut Fields) -> Answer<()> {
    let length = cursor.word()?.into();
    fields[AT] = cursor.at() as u64;
    fields[AT + 1] = length as u64;
    cursor.run(length)?;
    Ok(())
}

#[inline]
fn address<const AT: usize>(cursor: &mut Cursor, fields: &mut Fields) -> Answer<()> {
    fields[AT] = cursor.dword()?.into();
    fields[AT + 1] = cursor.word()?.into();
    Ok(())
}

#[inline]
fn addresses<const AT: usize>(cursor: &mut Cursor, fields: &mut Fields) -> Answer<()> {
    let count = cursor.byte()?;
    fields[AT..AT + 3].copy_from_slice(&cursor.even_list(count.into(), 6)?.numbers());
    Ok(())
}

/// A HASH, a DWORD, a WORD and a tag list.
#[inline]
fn record(cursor: &mut Cursor, fields: &mut Fields) -> Answer<()> {
    hash(cursor, fields)?;
    address::<4>(cursor, fields)?;
    fields[6..9].copy_from_slice(&cursor.tags()?.numbers());
    Ok(())
}

#[inline]
fn records(cursor: &mut Cursor, fields: &mut Fields) -> Answer<()> {
    let count = cursor.dword()?;
    let records = cursor.list(count, |cursor| {
        cursor.chunk::<22>()?;
        cursor.tags()?;
        Ok(())
    })?;
    fields[3..6].copy_from_slice(&records.numbers());
    Ok(())
}

#[inline]
fn flag<const AT: usize>(cursor: &mut Cursor, fields: &mut Fields) -> Answer<()> {
    let byte = cursor.byte()?;
    fields[AT] = byte.into();
    if byte <= 1 { Ok(()) } else { Err(Refusal::Choice) }
}

/// Order is checked before the data, of which there are neither fewer nor more bytes than the range
/// has.
#[inline]
fn sending_part(cursor: &mut Cursor, fields: &mut Fields) -> Answer<()> {
    hash(cursor, fields)?;
    let (start, end) = (cursor.dword()?, cursor.dword()?);
    let left = cursor.rest().len();
    if end.checked_sub(start).map(|length| length as usize) != Some(left) {
        return Err(Refusal::Range);
    }
    fields[4..8].copy_from_slice(&[start.into(), end.into(), cursor.at() as u64, left as u64]);
    cursor.run(left)?;
    Ok(())
}

#[inline]
fn request_parts(cursor: &mut Cursor, fields: &mut Fields) -> Answer<()> {
    hash(cursor, fields)?;
    dwords::<4, 6>(cursor, fields)?;
    let (starts, ends) = fields[4..10].split_at(3);
    let in_order = starts.iter().zip(ends).all(|(start, end)| start <= end);
    if in_order { Ok(()) } else { Err(Refusal::Range) }
}

/// All status bytes are there before a bit is checked.
#[inline]
fn file_status(cursor: &mut Cursor, fields: &mut Fields) -> Answer<()> {
    hash(cursor, fields)?;
    let parts = cursor.word()?;
    fields[4..6].copy_from_slice(&[parts.into(), cursor.at() as u64]);
    let status = cursor.run(usize::from(parts).div_ceil(8))?;
    let used = parts % 8;
    let unused_are_clear = used == 0 || status.last().is_none_or(|last| last >> used == 0);
    if unused_are_clear { Ok(()) } else { Err(Refusal::Choice) }
}

/// A body of 12 bytes is always the plain one. The shape that is returned says which it is.
#[inline]
fn status(cursor: &mut Cursor, fields: &mut Fields) -> Answer<()> {
    if cursor.rest().len() == 12 {
        return dwords::<3, 3>(cursor, fields);
    }
    fields[2] = EXTENDED_STATUS;
    fields[3] = cursor.byte()?.into();
    fields[4] = cursor.byte()?.into();
    cursor.fixed(0xAA)?;
    cursor.fixed(0x5A)?;
    dwords::<5, 3>(cursor, fields)
}
