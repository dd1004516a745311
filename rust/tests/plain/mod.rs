//! A second reading of documents 01 and 02 (Nos. 3, 7 and 8) in plain Rust, written from them alone and kept apart from the proved code.
//! The tests hold the archive to it. Answers have the form that `ed2k.h` gives them.
#![allow(dead_code, unused_imports)]

mod bodies;
mod calls;
mod cursor;
mod gaps;
mod merging;
mod messages;
mod met;
mod packets;
mod query;
mod reasons;
mod saving;
mod tags;
mod writers;

pub use calls::{Calls, OfThree, PLAIN};
pub use gaps::{GAP_NUMBERS, GapNumbers, all_missing, count_missing, mark};
pub use merging::merge;
pub use messages::{write_address, write_file_entry, write_message, write_record, write_server_entry};
pub use met::{block_count, part_count, put_gaps, read_gaps};
pub use query::truth;
pub use reasons::{Reason, Rule, WHY_NUMBERS, why};
pub use saving::{save, save_strict};
pub use writers::*;

use cursor::Cursor;

pub const PACKET_CEILING: usize = 65_536;
pub const MET_CEILING: usize = 1_048_576;
pub const QUERY_DEPTH: u64 = 24;
pub const NAME_CEILING: usize = 255;
pub const GAP_CEILING: usize = 64;

pub const SERVER_LINK: u8 = 0;
pub const CLIENT_LINK: u8 = 1;
pub const UDP_LINK: u8 = 2;
pub const KNOWN_MET: u8 = 3;
pub const SERVER_MET: u8 = 4;
pub const PART_MET: u8 = 5;
pub const LONE_QUERY: u8 = 6;
pub const LONE_TAGS: u8 = 7;

/// The numbers of 01 and 02 other than 0.
#[derive(Clone, Copy, Debug, PartialEq, Eq)]
#[repr(u8)]
pub enum Refusal {
    Short = 1,
    Opening,
    Length,
    Kind,
    Choice,
    Limit,
    Rest,
    Range,
    Size,
    Room,
    Conflict,
    Strangers,
}

pub type Answer<T> = Result<T, Refusal>;

pub const FIELDS: usize = 16;

/// The numbers that a reading returns, in order; those after the last are 0.
#[derive(Clone, Debug, Default, PartialEq, Eq)]
pub struct Fields {
    numbers: [u64; FIELDS],
    used: usize,
}

impl Fields {
    #[inline]
    fn put<const N: usize>(&mut self, numbers: [u64; N]) {
        self.numbers[self.used..self.used + N].copy_from_slice(&numbers);
        self.used += N;
    }

    pub fn numbers(&self) -> &[u64; FIELDS] {
        &self.numbers
    }
}

/// Entries that are encoded from `at` up to `end`.
#[derive(Clone, Copy, Debug)]
struct List {
    at: usize,
    end: usize,
    count: u32,
}

impl List {
    #[inline]
    fn numbers(self) -> [u64; 3] {
        [self.at as u64, self.end as u64, self.count.into()]
    }
}

/// Reads a whole packet, file, query or tag list of the kind that `ed2k.h` gives this number.
pub fn read(kind: u8, bytes: &[u8]) -> Answer<Fields> {
    match kind {
        SERVER_LINK => within(bytes, PACKET_CEILING, packets::server_link),
        CLIENT_LINK => within(bytes, PACKET_CEILING, packets::client_link),
        UDP_LINK => within(bytes, PACKET_CEILING, packets::udp_link),
        KNOWN_MET => within(bytes, MET_CEILING, met::known_met),
        SERVER_MET => within(bytes, MET_CEILING, met::server_met),
        PART_MET => within(bytes, MET_CEILING, met::part_met),
        LONE_QUERY => within(bytes, PACKET_CEILING, query::lone_query),
        LONE_TAGS => within(bytes, PACKET_CEILING, tags::lone_tags),
        _ => Err(Refusal::Kind),
    }
}

/// The byte ceiling comes first, and bytes left over come last.
#[inline]
fn within<'a, T>(
    bytes: &'a [u8],
    ceiling: usize,
    item: impl FnOnce(&mut Cursor<'a>) -> Answer<T>,
) -> Answer<T> {
    if bytes.len() > ceiling {
        return Err(Refusal::Limit);
    }
    let mut cursor = Cursor::new(bytes);
    let value = item(&mut cursor)?;
    cursor.finish()?;
    Ok(value)
}

/// The items that are encoded at an offset; the first number is the offset after them.
#[derive(Clone, Copy, Debug, PartialEq, Eq)]
pub enum Item {
    Tag,
    Address,
    Record,
    FileEntry,
    ServerEntry,
    QueryNode,
}

pub fn read_item(item: Item, bytes: &[u8], at: usize) -> Answer<Fields> {
    let mut cursor = Cursor::at_offset(bytes, at);
    let mut fields = Fields { used: 1, ..Fields::default() };
    match item {
        Item::Tag => tags::put_tag(&mut cursor, &mut fields)?,
        Item::Address => bodies::address(&mut cursor, &mut fields)?,
        Item::Record => bodies::record(&mut cursor, &mut fields)?,
        Item::FileEntry => met::put_file_entry(&mut cursor, &mut fields)?,
        Item::ServerEntry => met::put_server_entry(&mut cursor, &mut fields)?,
        Item::QueryNode => query::put_node(&mut cursor, &mut fields)?,
    }
    fields.numbers[0] = cursor.at() as u64;
    Ok(fields)
}
