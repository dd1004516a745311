//! The three links.

use super::bodies::body;
use super::cursor::Cursor;
use super::{Answer, CLIENT_LINK, Fields, Refusal, SERVER_LINK};

const OPENING: u8 = 0xE3;

/// The shapes of bodies, by their numbers in `ed2k.h`. The extended 97 is distinguished from the plain one by its body.
#[derive(Clone, Copy, Debug, PartialEq, Eq)]
pub enum Shape {
    Nothing = 0,
    Query = 1,
    Hash = 2,
    Dword = 3,
    TwoDwords = 4,
    Text = 5,
    TwoTexts = 6,
    Address = 7,
    Addresses = 8,
    HashAddresses = 9,
    AddressDword = 10,
    HashAddressTags = 11,
    Record = 12,
    Records = 13,
    RecordsFlag = 14,
    RecordAddress = 15,
    Hello = 16,
    HashText = 17,
    Hashset = 18,
    SendingPart = 19,
    RequestParts = 20,
    FileStatus = 21,
    StatusRequest = 22,
    Status = 23,
}

#[inline]
fn server_shape(opcode: u8) -> Option<Shape> {
    Some(match opcode {
        0x05 | 0x14 | 0x18 | 0x21 => Shape::Nothing,
        0x16 | 0x1A => Shape::Query,
        0x19 => Shape::Hash,
        0x1C | 0x36 | 0x40 => Shape::Dword,
        0x34 => Shape::TwoDwords,
        0x38 => Shape::Text,
        0x35 => Shape::Address,
        0x32 => Shape::Addresses,
        0x42 => Shape::HashAddresses,
        0x01 => Shape::Record,
        0x15 | 0x43 => Shape::Records,
        0x33 => Shape::RecordsFlag,
        0x41 => Shape::HashAddressTags,
        _ => return None,
    })
}

#[inline]
fn client_shape(opcode: u8) -> Option<Shape> {
    Some(match opcode {
        0x4A | 0x55 | 0x56 | 0x57 => Shape::Nothing,
        0x48 | 0x49 | 0x4F | 0x51 | 0x54 | 0x58 => Shape::Hash,
        0x01 => Shape::Hello,
        0x4C => Shape::RecordAddress,
        0x5C => Shape::Dword,
        0x4D => Shape::TwoDwords,
        0x4E => Shape::Text,
        0x59 => Shape::HashText,
        0x4B => Shape::Records,
        0x52 => Shape::Hashset,
        0x46 => Shape::SendingPart,
        0x47 => Shape::RequestParts,
        0x50 => Shape::FileStatus,
        _ => return None,
    })
}

#[inline]
fn udp_shape(opcode: u8) -> Option<Shape> {
    Some(match opcode {
        0xA2 | 0xA4 => Shape::Nothing,
        0x9A => Shape::Hash,
        0x98 => Shape::Query,
        0x99 => Shape::Record,
        0x9B => Shape::HashAddresses,
        0x9C => Shape::AddressDword,
        0x9E => Shape::Dword,
        0xA1 => Shape::Addresses,
        0xA3 => Shape::TwoTexts,
        0x96 => Shape::StatusRequest,
        0x97 => Shape::Status,
        _ => return None,
    })
}

/// The shape that a link lists for an opcode.
pub fn listed_shape(link: u8, opcode: u8) -> Option<Shape> {
    match link {
        SERVER_LINK => server_shape(opcode),
        CLIENT_LINK => client_shape(opcode),
        _ => udp_shape(opcode),
    }
}

pub fn server_link(cursor: &mut Cursor) -> Answer<Fields> {
    opening(cursor)?;
    length(cursor)?;
    packet(cursor, server_shape)
}

pub fn client_link(cursor: &mut Cursor) -> Answer<Fields> {
    opening(cursor)?;
    length(cursor)?;
    packet(cursor, client_shape)
}

pub fn udp_link(cursor: &mut Cursor) -> Answer<Fields> {
    opening(cursor)?;
    packet(cursor, udp_shape)
}

#[inline]
fn opening(cursor: &mut Cursor) -> Answer<()> {
    if cursor.byte()? == OPENING { Ok(()) } else { Err(Refusal::Opening) }
}

/// The length of opcode and body.
#[inline]
fn length(cursor: &mut Cursor) -> Answer<()> {
    let length = cursor.dword()? as usize;
    if length == 0 || length != cursor.left() { Err(Refusal::Length) } else { Ok(()) }
}

#[inline]
fn packet(cursor: &mut Cursor, table: impl Fn(u8) -> Option<Shape>) -> Answer<Fields> {
    let opcode = cursor.byte()?;
    let shape = table(opcode).ok_or(Refusal::Kind)?;
    let mut fields = Fields::default();
    fields.put([OPENING.into(), opcode.into(), shape as u64]);
    body(shape, cursor, &mut fields)?;
    Ok(fields)
}
