//! What packets and files are made of: hashes, addresses, tags, records, entries, and lists of them.

use std::fmt;
use std::net::Ipv4Addr;

use crate::list::{Entry, List, Sealed};
use crate::raw::Item;
use crate::refusal::Refusal;
use crate::values::{Values, array_at};

/// A HASH: 16 bytes, an MD4 digest. It prints as 32 hexadecimal digits.
#[derive(Clone, Copy, Debug, PartialEq, Eq, Hash, PartialOrd, Ord)]
pub struct Hash(pub [u8; 16]);

/// The first 8 bytes of a hash, as a part.met keeps one for each block. It prints as 16 hexadecimal digits.
#[derive(Clone, Copy, Debug, PartialEq, Eq, Hash, PartialOrd, Ord)]
pub struct BlockHash(pub [u8; 8]);

fn write_hex(f: &mut fmt::Formatter<'_>, bytes: &[u8]) -> fmt::Result {
    bytes.iter().try_for_each(|byte| write!(f, "{byte:02X}"))
}

impl fmt::Display for Hash {
    fn fmt(&self, f: &mut fmt::Formatter<'_>) -> fmt::Result {
        write_hex(f, &self.0)
    }
}

impl fmt::Display for BlockHash {
    fn fmt(&self, f: &mut fmt::Formatter<'_>) -> fmt::Result {
        write_hex(f, &self.0)
    }
}

/// The dotted form of a DWORD that stands for an IP or a high client ID: its low byte comes first.
pub fn dotted(number: u32) -> Ipv4Addr {
    Ipv4Addr::from(number.to_le_bytes())
}

/// An address: IP and port.
#[derive(Clone, Copy, Debug, PartialEq, Eq, Hash)]
pub struct Address {
    /// The IP, as the DWORD that it is.
    pub ip: u32,
    /// The port.
    pub port: u16,
}

impl fmt::Display for Address {
    fn fmt(&self, f: &mut fmt::Formatter<'_>) -> fmt::Result {
        write!(f, "{}:{}", dotted(self.ip), self.port)
    }
}

/// A tag: a name and a value. A name of one byte is a published special tag ([`special_tag_name`](crate::special_tag_name)).
#[derive(Clone, Copy, Debug, PartialEq, Eq)]
pub struct Tag<'a> {
    /// The name, 1 to 255 bytes.
    pub name: &'a [u8],
    /// The value, of one of four types.
    pub value: TagValue<'a>,
}

/// The value of a tag.
#[derive(Clone, Copy, Debug, PartialEq, Eq)]
pub enum TagValue<'a> {
    /// Type 01: a HASH.
    Hash(Hash),
    /// Type 02: a String. Its bytes may be any.
    Text(&'a [u8]),
    /// Type 03: a DWORD.
    Dword(u32),
    /// Type 04: a FLOAT, kept as its bits; `f32::from_bits` gives the number.
    Float(u32),
}

/// A record: what 000 calls File info, and Client info where it describes a client.
#[derive(Clone, Debug)]
pub struct Record<'a> {
    /// The file's or the client's hash.
    pub hash: Hash,
    /// The client ID: the IP of a client with a high ID, else a number below 16,777,216.
    pub client: u32,
    /// The client's port.
    pub port: u16,
    /// What is said of the file or client.
    pub tags: Tags<'a>,
}

/// An entry of a known.met.
#[derive(Clone, Debug)]
pub struct FileEntry<'a> {
    /// Seconds since the beginning of 1970.
    pub date: u32,
    /// The file's hash.
    pub hash: Hash,
    /// The hashes of its parts.
    pub part_hashes: Hashes<'a>,
    /// What is said of the file.
    pub tags: Tags<'a>,
}

/// An entry of a server.met.
#[derive(Clone, Debug)]
pub struct ServerEntry<'a> {
    /// Where the server is.
    pub address: Address,
    /// What is said of the server.
    pub tags: Tags<'a>,
}

/// The tags of a list, one after the other.
pub type Tags<'a> = List<'a, Tag<'a>>;
/// The records of a list, one after the other.
pub type Records<'a> = List<'a, Record<'a>>;
/// The addresses of a list, one after the other.
pub type Addresses<'a> = List<'a, Address>;
/// The hashes of a list, one after the other.
pub type Hashes<'a> = List<'a, Hash>;
/// The block hashes of a part.met, one after the other.
pub type BlockHashes<'a> = List<'a, BlockHash>;
/// The entries of a known.met, one after the other.
pub type FileEntries<'a> = List<'a, FileEntry<'a>>;
/// The entries of a server.met, one after the other.
pub type ServerEntries<'a> = List<'a, ServerEntry<'a>>;

impl Sealed for Hash {}

impl<'a> Entry<'a> for Hash {
    fn read_at(bytes: &'a [u8], at: usize) -> Result<(Hash, usize), Refusal> {
        array_at(bytes, at).map(|(hash, next)| (Hash(hash), next))
    }
}

impl Sealed for BlockHash {}

impl<'a> Entry<'a> for BlockHash {
    fn read_at(bytes: &'a [u8], at: usize) -> Result<(BlockHash, usize), Refusal> {
        array_at(bytes, at).map(|(hash, next)| (BlockHash(hash), next))
    }
}

impl Sealed for Address {}

impl<'a> Entry<'a> for Address {
    fn read_at(bytes: &'a [u8], at: usize) -> Result<(Address, usize), Refusal> {
        let (mut values, next) = Values::of(Item::Address, bytes, at)?;
        Ok((values.address(), next))
    }
}

impl Sealed for Tag<'_> {}

impl<'a> Entry<'a> for Tag<'a> {
    fn read_at(bytes: &'a [u8], at: usize) -> Result<(Tag<'a>, usize), Refusal> {
        let (mut values, next) = Values::of(Item::Tag, bytes, at)?;
        let code = values.byte();
        let name = values.text();
        let value = match code {
            1 => TagValue::Hash(values.hash()),
            2 => TagValue::Text(values.text()),
            3 => TagValue::Dword(values.dword()),
            _ => TagValue::Float(values.dword()),
        };
        Ok((Tag { name, value }, next))
    }
}

impl Sealed for Record<'_> {}

impl<'a> Entry<'a> for Record<'a> {
    fn read_at(bytes: &'a [u8], at: usize) -> Result<(Record<'a>, usize), Refusal> {
        let (mut values, next) = Values::of(Item::Record, bytes, at)?;
        Ok((values.record(), next))
    }
}

impl Sealed for FileEntry<'_> {}

impl<'a> Entry<'a> for FileEntry<'a> {
    fn read_at(bytes: &'a [u8], at: usize) -> Result<(FileEntry<'a>, usize), Refusal> {
        let (mut values, next) = Values::of(Item::FileEntry, bytes, at)?;
        let entry = FileEntry {
            date: values.dword(),
            hash: values.hash(),
            part_hashes: values.list(),
            tags: values.list(),
        };
        Ok((entry, next))
    }
}

impl Sealed for ServerEntry<'_> {}

impl<'a> Entry<'a> for ServerEntry<'a> {
    fn read_at(bytes: &'a [u8], at: usize) -> Result<(ServerEntry<'a>, usize), Refusal> {
        let (mut values, next) = Values::of(Item::ServerEntry, bytes, at)?;
        let entry = ServerEntry { address: values.address(), tags: values.list() };
        Ok((entry, next))
    }
}
