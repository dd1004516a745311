//! The items of each packet's body, in their order, by document 01.

use ed2k::Link;

use crate::show::names::{
    ADDRESS, CLIENT_ADDRESS, CLIENT_ID, FILE_HASH, FILE_NAME, NEW_CLIENT_ID, OLD_CLIENT_ID, RANK,
    SERVER_ADDRESS, SERVER_DESCRIPTION, SERVER_HASH, SERVER_NAME, STRING,
};

/// A piece of a body: an item with its name, or items that belong together.
#[derive(Clone, Copy)]
pub enum Piece {
    Hash(&'static str),
    ClientId(&'static str),
    Number(&'static str),
    Text(&'static str),
    Address(&'static str),
    /// How many users a server has.
    Users,
    /// How many files a server has.
    Files,
    /// A BYTE count and addresses.
    Addresses,
    /// A DWORD count and tags.
    Tags,
    Record,
    /// A DWORD count and records.
    Records,
    /// Whether there are more records.
    More,
    /// The byte 10.
    HelloByte,
    /// A WORD count and hashes.
    PartHashes,
    /// Start, end and data to the packet's end.
    SentRange,
    /// Three starts and three ends.
    AskedRanges,
    /// A WORD count of parts and a bit for each.
    PartStatus,
    StatusRequest,
    /// The plain status or the extended one, by its length.
    Status,
    Query,
}

/// The pieces of the body that the link has for the opcode. `None` for an opcode that it did not list when this was written.
pub fn pieces(link: Link, opcode: u8) -> Option<&'static [Piece]> {
    match link {
        Link::Server => server(opcode),
        Link::Client => client(opcode),
        Link::Udp => udp(opcode),
    }
}

fn server(opcode: u8) -> Option<&'static [Piece]> {
    Some(match opcode {
        0x05 | 0x14 | 0x18 | 0x21 => &[],
        0x16 | 0x1A => &[Piece::Query],
        0x19 => &[Piece::Hash(FILE_HASH)],
        0x1C | 0x36 | 0x40 => &[Piece::ClientId(CLIENT_ID)],
        0x34 => &[Piece::Users, Piece::Files],
        0x38 => &[Piece::Text(STRING)],
        0x35 => &[Piece::Address(CLIENT_ADDRESS)],
        0x32 => &[Piece::Addresses],
        0x42 => &[Piece::Hash(FILE_HASH), Piece::Addresses],
        0x01 => &[Piece::Record],
        0x15 | 0x43 => &[Piece::Records],
        0x33 => &[Piece::Records, Piece::More],
        0x41 => &[Piece::Hash(SERVER_HASH), Piece::Address(SERVER_ADDRESS), Piece::Tags],
        _ => return None,
    })
}

fn client(opcode: u8) -> Option<&'static [Piece]> {
    Some(match opcode {
        0x4A | 0x55 | 0x56 | 0x57 => &[],
        0x48 | 0x49 | 0x4F | 0x51 | 0x54 | 0x58 => &[Piece::Hash(FILE_HASH)],
        0x01 => &[Piece::HelloByte, Piece::Record, Piece::Address(SERVER_ADDRESS)],
        0x4C => &[Piece::Record, Piece::Address(SERVER_ADDRESS)],
        0x5C => &[Piece::Number(RANK)],
        0x4D => &[Piece::ClientId(OLD_CLIENT_ID), Piece::ClientId(NEW_CLIENT_ID)],
        0x4E => &[Piece::Text(STRING)],
        0x59 => &[Piece::Hash(FILE_HASH), Piece::Text(FILE_NAME)],
        0x4B => &[Piece::Records],
        0x52 => &[Piece::Hash(FILE_HASH), Piece::PartHashes],
        0x46 => &[Piece::Hash(FILE_HASH), Piece::SentRange],
        0x47 => &[Piece::Hash(FILE_HASH), Piece::AskedRanges],
        0x50 => &[Piece::Hash(FILE_HASH), Piece::PartStatus],
        _ => return None,
    })
}

fn udp(opcode: u8) -> Option<&'static [Piece]> {
    Some(match opcode {
        0xA2 | 0xA4 => &[],
        0x9A => &[Piece::Hash(FILE_HASH)],
        0x98 => &[Piece::Query],
        0x99 => &[Piece::Record],
        0x9B => &[Piece::Hash(FILE_HASH), Piece::Addresses],
        0x9C => &[Piece::Address(ADDRESS), Piece::ClientId(CLIENT_ID)],
        0x9E => &[Piece::ClientId(CLIENT_ID)],
        0xA1 => &[Piece::Addresses],
        0xA3 => &[Piece::Text(SERVER_NAME), Piece::Text(SERVER_DESCRIPTION)],
        0x96 => &[Piece::StatusRequest],
        0x97 => &[Piece::Status],
        _ => return None,
    })
}
