//! Why a call refuses.

use std::error::Error;
use std::fmt;

/// Why bytes, a range, a record, a save or a merge are refused. Each has its number in documents 01 and 02 and in the reading
/// program.
///
/// More may come with later requests, each with a number above those here, so a `match` outside of this crate needs an arm
/// `_`. What it gets is a refusal like the others: nothing was done, [`Refusal::number`] says which it is, and it prints
/// what it means. Of a packet, [`why`](crate::why) also says which rule it breaks, and where.
///
/// ```
/// use ed2k::{Link, Refusal, read_packet};
///
/// let refusal = read_packet(Link::Server, &[0xE3, 0, 0, 0, 0]).unwrap_err();
/// assert_eq!(refusal, Refusal::Length);
/// assert_eq!(refusal.number(), 3);
/// assert_eq!(
///     refusal.to_string(),
///     "refused 3: the header's length is 0 or is not the number of bytes after the header"
/// );
/// ```
#[derive(Clone, Copy, Debug, PartialEq, Eq, Hash, PartialOrd, Ord)]
#[non_exhaustive]
#[repr(u8)]
pub enum Refusal {
    /// 1: the bytes end before the item being read ends.
    Short = 1,
    /// 2: the first byte is not one of this link's or file's.
    Opening = 2,
    /// 3: the header's length is 0 or is not the number of bytes after the header.
    Length = 3,
    /// 4: the opcode is not listed for the link.
    Kind = 4,
    /// 5: a byte is outside its list, an unused status bit is set, or a tag name has length 0.
    Choice = 5,
    /// 6: a ceiling is exceeded.
    Limit = 6,
    /// 7: bytes are left after the last item.
    Rest = 7,
    /// 8: a start, end or gap breaks its rule.
    Range = 8,
    /// 9: a part.met has not exactly one size tag.
    Size = 9,
    /// 10: the lent output is too small.
    Room = 10,
    /// 11: the stored file differs from the one opened, or two saves changed something in different ways.
    Conflict = 11,
    /// 12: the files are not of one model.
    Strangers = 12,
}

impl Refusal {
    /// All refusals, by their numbers, which run from 1 without a gap.
    pub const ALL: &'static [Refusal] = &[
        Refusal::Short,
        Refusal::Opening,
        Refusal::Length,
        Refusal::Kind,
        Refusal::Choice,
        Refusal::Limit,
        Refusal::Rest,
        Refusal::Range,
        Refusal::Size,
        Refusal::Room,
        Refusal::Conflict,
        Refusal::Strangers,
    ];

    /// The number that the documents give it.
    pub fn number(self) -> u8 {
        self as u8
    }

    /// The refusal with this number. `None` for 0, which is no refusal, and for every number that none has.
    pub fn from_number(number: u8) -> Option<Refusal> {
        Refusal::ALL.iter().copied().find(|refusal| refusal.number() == number)
    }

    /// What it means, in words.
    pub fn meaning(self) -> &'static str {
        match self {
            Refusal::Short => "the bytes end before the item being read ends",
            Refusal::Opening => "the first byte is not one of this link's or file's",
            Refusal::Length => "the header's length is 0 or is not the number of bytes after the header",
            Refusal::Kind => "the opcode is not listed for the link",
            Refusal::Choice => {
                "a byte is outside its list, an unused status bit is set, or a tag name has length 0"
            }
            Refusal::Limit => "a ceiling is exceeded",
            Refusal::Rest => "bytes are left after the last item",
            Refusal::Range => "a start, end or gap breaks its rule",
            Refusal::Size => "a part.met has not exactly one size tag",
            Refusal::Room => "the lent output is too small",
            Refusal::Conflict => {
                "the stored file differs from the one opened, or two saves changed something in different ways"
            }
            Refusal::Strangers => "the files are not of one model",
        }
    }
}

impl fmt::Display for Refusal {
    fn fmt(&self, f: &mut fmt::Formatter<'_>) -> fmt::Result {
        write!(f, "refused {}: {}", self.number(), self.meaning())
    }
}

impl Error for Refusal {}
