//! Lists in lent bytes.

use std::borrow::Cow;
use std::fmt;
use std::marker::PhantomData;

use crate::items::{TagValue, Tags};
use crate::refusal::Refusal;
use crate::values::Values;

/// Kept to this crate, so that no list is read by other means than its own.
pub trait Sealed {}

/// What a [`List`] is a list of: the types of this crate that say so.
pub trait Entry<'a>: Sized + Sealed {
    /// The entry at this offset of the bytes, and the offset after it.
    #[doc(hidden)]
    fn read_at(bytes: &'a [u8], at: usize) -> Result<(Self, usize), Refusal>;
}

/// A list in lent bytes that were read and accepted. It is an iterator over the entries; cloning it is cheap, and
/// `len()` says how many are still to come. The writers write it whole, the entries already passed included.
///
/// ```
/// let list = [1, 0, 0, 0, 0x02, 1, 0, 0x01, 3, 0, b'a', b'b', b'c'];
/// let tags = ed2k::read_tags(&list)?;
/// assert_eq!(tags.len(), 1);
/// for tag in tags {
///     assert_eq!(tag.name, [0x01]);
///     assert_eq!(tag.value, ed2k::TagValue::Text(b"abc"));
/// }
/// # Ok::<(), ed2k::Refusal>(())
/// ```
pub struct List<'a, T> {
    bytes: &'a [u8],
    start: usize,
    at: usize,
    end: usize,
    count: usize,
    left: usize,
    entries: PhantomData<fn() -> T>,
}

impl<'a, T> List<'a, T> {
    /// The list whose offset, end and count are the next of the values.
    pub(crate) fn from_values(values: &mut Values<'a>) -> List<'a, T> {
        let bytes = values.bytes();
        let (start, end, count) = (values.offset(), values.offset(), values.count());
        List { bytes, start, at: start, end, count, left: count, entries: PhantomData }
    }

    /// How many bytes all its entries have, those already passed included; the count before them is no part of it.
    pub fn byte_count(&self) -> usize {
        self.end - self.start
    }

    /// The bytes of all its entries, without the count before them, and how many they are.
    pub(crate) fn whole(&self) -> (&'a [u8], usize) {
        (&self.bytes[self.start..self.end], self.count)
    }
}

impl<'a, T: Entry<'a>> List<'a, T> {
    /// The list of so many entries that are encoded one after the other in the bytes, for messages that are composed; the
    /// writers of entries in [`write`](mod@crate::write) make such bytes. Refused as the first entry that is not encoded
    /// there is, and as [`Refusal::Rest`] if bytes are left.
    ///
    /// ```
    /// use ed2k::{Address, Addresses, Refusal, write};
    ///
    /// let servers = [Address { ip: 0x0B0A_0A50, port: 4661 }, Address { ip: 0x010A_0A50, port: 4661 }];
    /// let bytes = servers.map(write::address).concat();
    /// assert!(Addresses::new(&bytes, 2)?.eq(servers));
    /// assert_eq!(Addresses::new(&bytes, 3).unwrap_err(), Refusal::Short);
    /// assert_eq!(Addresses::new(&bytes, 1).unwrap_err(), Refusal::Rest);
    /// # Ok::<(), Refusal>(())
    /// ```
    pub fn new(bytes: &'a [u8], count: u32) -> Result<List<'a, T>, Refusal> {
        let end = (0..count).try_fold(0, |at, _| T::read_at(bytes, at).map(|(_, next)| next))?;
        if end < bytes.len() {
            return Err(Refusal::Rest);
        }
        let count = count as usize;
        Ok(List { bytes, start: 0, at: 0, end, count, left: count, entries: PhantomData })
    }
}

impl<'a> Tags<'a> {
    /// The bytes of the whole list, its count before them: what [`read_tags`](crate::read_tags) and
    /// [`truth`](crate::truth) take. They are copied only if the list is one of [`List::new`], which has no count there.
    pub fn encoded(&self) -> Cow<'a, [u8]> {
        match self.start.checked_sub(4) {
            Some(counted) => Cow::Borrowed(&self.bytes[counted..self.end]),
            None => Cow::Owned([&(self.count as u32).to_le_bytes(), self.whole().0].concat()),
        }
    }

    /// The text of the first String tag named 01 that is still to come: the file's name, if there is one.
    pub fn file_name(&self) -> Option<&'a [u8]> {
        self.clone().find_map(|tag| match (tag.name, tag.value) {
            ([0x01], TagValue::Text(name)) => Some(name),
            _ => None,
        })
    }
}

impl<T> Clone for List<'_, T> {
    fn clone(&self) -> Self {
        List { ..*self }
    }
}

impl<T> fmt::Debug for List<'_, T> {
    fn fmt(&self, f: &mut fmt::Formatter<'_>) -> fmt::Result {
        write!(f, "List({} entries at {} to {})", self.left, self.at, self.end)
    }
}

impl<'a, T: Entry<'a>> Iterator for List<'a, T> {
    type Item = T;

    /// Bytes that were accepted have every entry that their counts say, and they cannot change while they are lent.
    fn next(&mut self) -> Option<T> {
        self.left = self.left.checked_sub(1)?;
        let (entry, next) = T::read_at(self.bytes, self.at).expect("an entry of accepted bytes is accepted");
        self.at = next;
        Some(entry)
    }

    fn size_hint(&self) -> (usize, Option<usize>) {
        (self.left, Some(self.left))
    }
}

impl<'a, T: Entry<'a>> ExactSizeIterator for List<'a, T> {}
