//! Writers of packets, met files, queries and tag lists, and of what these are composed of. Each has a form that gives the
//! bytes, and one (`.._into`) that writes them at the front of a lent output and says how many; that one refuses as
//! [`Refusal::Room`] last of all.
//!
//! ```
//! use ed2k::write::{self, TagList};
//! use ed2k::{Bound, Operator};
//!
//! // Lasts of at least 100 bytes.
//! let query = write::join(
//!     Operator::And,
//!     &write::keyword(b"last")?,
//!     &write::limit(100, Bound::Min, &[0x02])?,
//! )?;
//! let tags = TagList::new().text(&[0x01], b"left last.stl")?.dword(&[0x02], 5000)?.finish()?;
//! assert!(ed2k::truth(&query, &tags)?);
//! # Ok::<(), ed2k::Refusal>(())
//! ```
//!
//! Lists that no reader gave are made of their entries, one after the other, by [`List::new`](crate::List::new):
//!
//! ```
//! use ed2k::write::{self, TagList};
//! use ed2k::{Body, Hash, Link, Packet, Record, Records, Refusal};
//!
//! // An offer of two files.
//! let file = |name: &[u8], hash| -> Result<Vec<u8>, Refusal> {
//!     let tags = TagList::new().text(&[0x01], name)?.dword(&[0x02], 5000)?.finish()?;
//!     write::record(&Record { hash, client: 0, port: 4662, tags: ed2k::read_tags(&tags)? })
//! };
//! let files = [file(b"left last.stl", Hash([7; 16]))?, file(b"right last.stl", Hash([8; 16]))?].concat();
//! let offer = Packet::new(0x15, Body::Records(Records::new(&files, 2)?));
//! let bytes = write::packet(Link::Server, &offer)?;
//!
//! let Body::Records(mut read) = ed2k::read_packet(Link::Server, &bytes)?.body else { panic!() };
//! assert_eq!(read.next().unwrap().tags.file_name(), Some(&b"left last.stl"[..]));
//! assert_eq!(read.next().unwrap().hash, Hash([8; 16]));
//! # Ok::<(), Refusal>(())
//! ```

mod entries;
mod messages;

pub use entries::{
    address, address_into, file_entry, file_entry_into, record, record_into, server_entry, server_entry_into,
};
pub use messages::{
    known_met, known_met_into, message, packet, packet_into, part_met, part_met_into, server_met,
    server_met_into,
};

use crate::items::Hash;
use crate::kind::PACKET_CEILING;
use crate::owned::owned;
use crate::query::{Bound, Operator};
use crate::raw;
use crate::refusal::Refusal;

/// The longest tag: its type, its name with a WORD, a text with a WORD.
const TAG_BYTES: usize = 1 + 2 + 255 + 2 + 65_535;

/// A query 01: the text occurs in the file's name. [`Refusal::Limit`] for a text that is too long.
pub fn keyword(text: &[u8]) -> Result<Vec<u8>, Refusal> {
    owned(PACKET_CEILING.min(3 + text.len()), |output| keyword_into(text, output))
}

/// [`keyword`] into a lent output.
pub fn keyword_into(text: &[u8], output: &mut [u8]) -> Result<usize, Refusal> {
    raw::write_keyword(text, output)
}

/// A query 02: a String tag of this name equals the text. [`Refusal::Limit`] for a text or name that is too long,
/// [`Refusal::Choice`] for an empty name.
pub fn field(text: &[u8], name: &[u8]) -> Result<Vec<u8>, Refusal> {
    owned(PACKET_CEILING.min(5 + text.len() + name.len()), |output| field_into(text, name, output))
}

/// [`field`] into a lent output.
pub fn field_into(text: &[u8], name: &[u8], output: &mut [u8]) -> Result<usize, Refusal> {
    raw::write_field(text, name, output)
}

/// A query 03: a DWORD tag of this name is at least or at most the number. [`Refusal::Limit`] for a name that is too long,
/// [`Refusal::Choice`] for an empty one.
pub fn limit(number: u32, bound: Bound, name: &[u8]) -> Result<Vec<u8>, Refusal> {
    owned(PACKET_CEILING.min(8 + name.len()), |output| limit_into(number, bound, name, output))
}

/// [`limit`] into a lent output.
pub fn limit_into(number: u32, bound: Bound, name: &[u8], output: &mut [u8]) -> Result<usize, Refusal> {
    raw::write_limit(number, bound as u8, name, output)
}

/// A query 00: two lone queries, joined. Refused as the left one is, then as the right one is, then as [`Refusal::Limit`]
/// above depth 24 or the byte ceiling.
pub fn join(operator: Operator, left: &[u8], right: &[u8]) -> Result<Vec<u8>, Refusal> {
    let room = PACKET_CEILING.min(2 + left.len() + right.len());
    owned(room, |output| join_into(operator, left, right, output))
}

/// [`join`] into a lent output.
pub fn join_into(operator: Operator, left: &[u8], right: &[u8], output: &mut [u8]) -> Result<usize, Refusal> {
    raw::write_join(operator as u8, left, right, output)
}

/// The lone query that is encoded at this offset of the bytes, as in a packet; refused as its own reading is.
pub fn query(bytes: &[u8], at: usize) -> Result<Vec<u8>, Refusal> {
    owned(PACKET_CEILING.min(bytes.len().saturating_sub(at)), |output| query_into(bytes, at, output))
}

/// [`query`] into a lent output.
pub fn query_into(bytes: &[u8], at: usize, output: &mut [u8]) -> Result<usize, Refusal> {
    raw::write_query(bytes, at, output)
}

/// A String tag. [`Refusal::Limit`] for a text or name that is too long, [`Refusal::Choice`] for an empty name.
pub fn text_tag(name: &[u8], text: &[u8]) -> Result<Vec<u8>, Refusal> {
    owned(TAG_BYTES.min(5 + name.len() + text.len()), |output| text_tag_into(name, text, output))
}

/// [`text_tag`] into a lent output.
pub fn text_tag_into(name: &[u8], text: &[u8], output: &mut [u8]) -> Result<usize, Refusal> {
    raw::write_text_tag(name, text, output)
}

/// A DWORD tag. [`Refusal::Limit`] for a name that is too long, [`Refusal::Choice`] for an empty one.
pub fn dword_tag(name: &[u8], number: u32) -> Result<Vec<u8>, Refusal> {
    owned(TAG_BYTES.min(7 + name.len()), |output| dword_tag_into(name, number, output))
}

/// [`dword_tag`] into a lent output.
pub fn dword_tag_into(name: &[u8], number: u32, output: &mut [u8]) -> Result<usize, Refusal> {
    raw::write_dword_tag(name, number, output)
}

/// A FLOAT tag of these bits; `f32::to_bits` gives those of a number. Refused as [`dword_tag`] is.
pub fn float_tag(name: &[u8], bits: u32) -> Result<Vec<u8>, Refusal> {
    owned(TAG_BYTES.min(7 + name.len()), |output| float_tag_into(name, bits, output))
}

/// [`float_tag`] into a lent output.
pub fn float_tag_into(name: &[u8], bits: u32, output: &mut [u8]) -> Result<usize, Refusal> {
    raw::write_float_tag(name, bits, output)
}

/// A HASH tag. Refused as [`dword_tag`] is.
pub fn hash_tag(name: &[u8], hash: Hash) -> Result<Vec<u8>, Refusal> {
    owned(TAG_BYTES.min(19 + name.len()), |output| hash_tag_into(name, hash, output))
}

/// [`hash_tag`] into a lent output.
pub fn hash_tag_into(name: &[u8], hash: Hash, output: &mut [u8]) -> Result<usize, Refusal> {
    raw::write_hash_tag(name, &hash.0, output)
}

/// The lone tag list of the `count` tags that are encoded at this offset of the bytes; refused as their own reading is, and as
/// [`Refusal::Limit`] above the byte ceiling.
pub fn tag_list(bytes: &[u8], at: usize, count: u32) -> Result<Vec<u8>, Refusal> {
    let room = PACKET_CEILING.min(4 + bytes.len().saturating_sub(at));
    owned(room, |output| tag_list_into(bytes, at, count, output))
}

/// [`tag_list`] into a lent output.
pub fn tag_list_into(bytes: &[u8], at: usize, count: u32, output: &mut [u8]) -> Result<usize, Refusal> {
    raw::write_tag_list(bytes, at, count, output)
}

/// A tag list in the making: tags are added one by one, and [`TagList::finish`] gives the lone tag list.
#[derive(Clone, Debug, Default)]
pub struct TagList {
    tags: Vec<u8>,
    count: u32,
}

impl TagList {
    /// A list with no tags.
    pub fn new() -> TagList {
        TagList::default()
    }

    fn with(mut self, tag: Vec<u8>) -> TagList {
        self.tags.extend(tag);
        self.count += 1;
        self
    }

    /// Adds a String tag; refused as [`text_tag`] is.
    pub fn text(self, name: &[u8], text: &[u8]) -> Result<TagList, Refusal> {
        text_tag(name, text).map(|tag| self.with(tag))
    }

    /// Adds a DWORD tag; refused as [`dword_tag`] is.
    pub fn dword(self, name: &[u8], number: u32) -> Result<TagList, Refusal> {
        dword_tag(name, number).map(|tag| self.with(tag))
    }

    /// Adds a FLOAT tag; refused as [`float_tag`] is.
    pub fn float(self, name: &[u8], bits: u32) -> Result<TagList, Refusal> {
        float_tag(name, bits).map(|tag| self.with(tag))
    }

    /// Adds a HASH tag; refused as [`hash_tag`] is.
    pub fn hash(self, name: &[u8], hash: Hash) -> Result<TagList, Refusal> {
        hash_tag(name, hash).map(|tag| self.with(tag))
    }

    /// The lone tag list. [`Refusal::Limit`] above the byte ceiling.
    pub fn finish(self) -> Result<Vec<u8>, Refusal> {
        tag_list(&self.tags, 0, self.count)
    }
}
