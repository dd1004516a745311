//! What the writing calls take: numbers, and bytes that their offsets are in.

use crate::items::{Address, Hash, Record};
use crate::kind::Kind;
use crate::list::List;
use crate::owned::owned;
use crate::query::Query;
use crate::raw::{self, Fields, Listed};
use crate::refusal::Refusal;

/// More bytes than a message has beside the texts, hashes, lists and data in it.
const FRAME_BYTES: usize = 64;

/// Bytes of different buffers, gathered into one run.
#[derive(Default)]
pub(crate) struct Gathered {
    bytes: Vec<u8>,
}

impl Gathered {
    /// Appends the bytes; their offset.
    pub(crate) fn run(&mut self, bytes: &[u8]) -> usize {
        let at = self.bytes.len();
        self.bytes.extend_from_slice(bytes);
        at
    }

    /// Appends the entries of a list, without their count.
    pub(crate) fn list<T>(&mut self, list: &List<'_, T>) -> Listed {
        let (entries, count) = list.whole();
        Listed { at: self.run(entries), count: count as u32 }
    }

    pub(crate) fn bytes(&self) -> &[u8] {
        &self.bytes
    }
}

/// The numbers of a message, given in the order in which ed2k.h lists them. It is the other way round of `Values`.
#[derive(Default)]
pub(crate) struct Source {
    gathered: Gathered,
    fields: Fields,
    given: usize,
}

impl Source {
    pub(crate) fn number(&mut self, number: impl Into<u64>) {
        self.fields[self.given] = number.into();
        self.given += 1;
    }

    pub(crate) fn numbers<T: Into<u64>>(&mut self, numbers: impl IntoIterator<Item = T>) {
        numbers.into_iter().for_each(|number| self.number(number));
    }

    /// So many bytes, by their offset alone.
    pub(crate) fn run(&mut self, bytes: &[u8]) {
        let at = self.gathered.run(bytes);
        self.number(at as u64);
    }

    /// A text, by its offset and length.
    pub(crate) fn text(&mut self, text: &[u8]) {
        self.run(text);
        self.number(text.len() as u64);
    }

    pub(crate) fn hash(&mut self, hash: Hash) {
        self.run(&hash.0);
    }

    pub(crate) fn address(&mut self, address: Address) {
        self.number(address.ip);
        self.number(address.port);
    }

    /// A list, by its offset, its end and its count.
    pub(crate) fn list<T>(&mut self, list: &List<'_, T>) {
        let Listed { at, count } = self.gathered.list(list);
        self.numbers([at as u64, self.gathered.bytes.len() as u64, count.into()]);
    }

    /// A list that may not be there.
    pub(crate) fn list_if_any<T>(&mut self, list: Option<&List<'_, T>>) {
        match list {
            Some(list) => self.list(list),
            None => self.numbers([0u64; 3]),
        }
    }

    pub(crate) fn query(&mut self, query: &Query<'_>) {
        self.run(query.encoded());
        self.numbers([self.gathered.bytes.len() as u64, query.depth() as u64]);
    }

    pub(crate) fn record(&mut self, record: &Record<'_>) {
        self.hash(record.hash);
        self.number(record.client);
        self.number(record.port);
        self.list(&record.tags);
    }

    pub(crate) fn write_into(&self, kind: Kind, output: &mut [u8]) -> Result<usize, Refusal> {
        raw::write(kind as u8, self.gathered.bytes(), &self.fields, output)
    }

    pub(crate) fn write(&self, kind: Kind) -> Result<Vec<u8>, Refusal> {
        let room = kind.ceiling().min(self.gathered.bytes.len() + FRAME_BYTES);
        owned(room, |output| self.write_into(kind, output))
    }
}
