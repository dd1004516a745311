//! The numbers that the reading calls return.

use crate::items::{Address, Hash, Record};
use crate::kind::Kind;
use crate::list::List;
use crate::raw::{self, Fields, Item};
use crate::refusal::Refusal;

/// The numbers that a reading call returned, taken in the order in which ed2k.h lists them, and the bytes that their
/// offsets are in.
pub(crate) struct Values<'a> {
    bytes: &'a [u8],
    fields: Fields,
    taken: usize,
}

impl<'a> Values<'a> {
    fn new(bytes: &'a [u8], fields: Fields) -> Values<'a> {
        let taken = 0;
        Values { bytes, fields, taken }
    }

    pub(crate) fn read(kind: Kind, bytes: &'a [u8]) -> Result<Values<'a>, Refusal> {
        raw::read(kind as u8, bytes).map(|fields| Values::new(bytes, fields))
    }

    /// The values of the item at this offset, and the offset after it; or its refusal.
    pub(crate) fn of(item: Item, bytes: &'a [u8], at: usize) -> Result<(Values<'a>, usize), Refusal> {
        let mut values = Values::new(bytes, raw::read_item(item, bytes, at)?);
        let next = values.offset();
        Ok((values, next))
    }

    /// The bytes that the offsets are in.
    pub(crate) fn bytes(&self) -> &'a [u8] {
        self.bytes
    }

    fn number(&mut self) -> u64 {
        let number = self.fields[self.taken];
        self.taken += 1;
        number
    }

    pub(crate) fn offset(&mut self) -> usize {
        self.number() as usize
    }

    /// A length, a count or a depth.
    pub(crate) fn count(&mut self) -> usize {
        self.number() as usize
    }

    pub(crate) fn byte(&mut self) -> u8 {
        self.number() as u8
    }

    pub(crate) fn word(&mut self) -> u16 {
        self.number() as u16
    }

    pub(crate) fn dword(&mut self) -> u32 {
        self.number() as u32
    }

    pub(crate) fn dwords<const N: usize>(&mut self) -> [u32; N] {
        std::array::from_fn(|_| self.dword())
    }

    /// A text, by its offset and length.
    pub(crate) fn text(&mut self) -> &'a [u8] {
        let at = self.offset();
        let length = self.count();
        &self.bytes[at..at + length]
    }

    /// So many bytes from an offset on.
    pub(crate) fn run(&mut self, length: usize) -> &'a [u8] {
        let at = self.offset();
        &self.bytes[at..at + length]
    }

    pub(crate) fn hash(&mut self) -> Hash {
        let (hash, _) = array_at(self.bytes, self.offset()).expect("a hash that was read is there");
        Hash(hash)
    }

    pub(crate) fn address(&mut self) -> Address {
        Address { ip: self.dword(), port: self.word() }
    }

    pub(crate) fn list<T>(&mut self) -> List<'a, T> {
        List::from_values(self)
    }

    pub(crate) fn record(&mut self) -> Record<'a> {
        Record { hash: self.hash(), client: self.dword(), port: self.word(), tags: self.list() }
    }
}

/// So many bytes from an offset on, and the offset after them.
pub(crate) fn array_at<const N: usize>(bytes: &[u8], at: usize) -> Result<([u8; N], usize), Refusal> {
    let array = bytes.get(at..).and_then(|rest| rest.first_chunk()).ok_or(Refusal::Short)?;
    Ok((*array, at + N))
}
