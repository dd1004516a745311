//! Why a packet is refused: which rule it breaks, and where.

use std::error::Error;
use std::fmt;

use crate::kind::{Kind, Link};
use crate::raw;
use crate::refusal::Refusal;

/// The rule that refused bytes break. Several rules share the numbers 5, 6 and 8; each of the others has a number to itself.
///
/// More may come with later requests, each with a number above those here, so a `match` outside of this crate needs an arm
/// `_`.
///
/// ```
/// use ed2k::{Refusal, Rule};
///
/// assert_eq!(Rule::NameCeiling.refusal(), Refusal::Limit);
/// assert_eq!(Rule::NameCeiling.meaning(), "a name has more than 255 bytes");
/// assert_eq!(Rule::from_number(9), Some(Rule::NameCeiling));
/// ```
#[derive(Clone, Copy, Debug, PartialEq, Eq, Hash, PartialOrd, Ord)]
#[non_exhaustive]
#[repr(u8)]
pub enum Rule {
    /// [`Refusal::Short`]: the bytes end before the item ends.
    Short = 1,
    /// [`Refusal::Opening`]: the first byte is not the link's.
    Opening = 2,
    /// [`Refusal::Length`]: the header's length is 0 or is not the number of bytes after the header.
    Length = 3,
    /// [`Refusal::Kind`]: the opcode is not listed for the link.
    Kind = 4,
    /// [`Refusal::Choice`]: a byte is outside its list, or a name has length 0.
    Choice = 5,
    /// [`Refusal::Choice`]: an unused status bit is set.
    StatusBit = 6,
    /// [`Refusal::Limit`]: the packet has more than [`PACKET_CEILING`](crate::PACKET_CEILING) bytes.
    ByteCeiling = 7,
    /// [`Refusal::Limit`]: the query is deeper than [`QUERY_DEPTH`](crate::QUERY_DEPTH).
    DepthCeiling = 8,
    /// [`Refusal::Limit`]: a name has more than 255 bytes.
    NameCeiling = 9,
    /// [`Refusal::Limit`]: a part.met has more than [`GAP_CEILING`](crate::GAP_CEILING) gaps. No packet breaks it.
    GapCeiling = 10,
    /// [`Refusal::Rest`]: bytes are left after the last item.
    Rest = 11,
    /// [`Refusal::Range`]: a start is above its end.
    Order = 12,
    /// [`Refusal::Range`]: the data is not as long as its start and end say.
    Data = 13,
    /// [`Refusal::Size`]: a part.met has not exactly one size tag. No packet breaks it.
    SizeTag = 14,
}

impl Rule {
    /// All rules, by their numbers, which run from 1 without a gap.
    pub const ALL: &'static [Rule] = &[
        Rule::Short,
        Rule::Opening,
        Rule::Length,
        Rule::Kind,
        Rule::Choice,
        Rule::StatusBit,
        Rule::ByteCeiling,
        Rule::DepthCeiling,
        Rule::NameCeiling,
        Rule::GapCeiling,
        Rule::Rest,
        Rule::Order,
        Rule::Data,
        Rule::SizeTag,
    ];

    /// The number that include/ed2k.h gives it. It is not the number that the bytes are refused with: that is
    /// [`refusal`](Rule::refusal)'s.
    pub fn number(self) -> u8 {
        self as u8
    }

    /// The rule with this number. `None` for 0, which is no rule, and for every number that none has.
    pub fn from_number(number: u8) -> Option<Rule> {
        Rule::ALL.iter().copied().find(|rule| rule.number() == number)
    }

    /// What bytes that break it are refused as.
    pub fn refusal(self) -> Refusal {
        match self {
            Rule::Short => Refusal::Short,
            Rule::Opening => Refusal::Opening,
            Rule::Length => Refusal::Length,
            Rule::Kind => Refusal::Kind,
            Rule::Choice | Rule::StatusBit => Refusal::Choice,
            Rule::ByteCeiling | Rule::DepthCeiling | Rule::NameCeiling | Rule::GapCeiling => Refusal::Limit,
            Rule::Rest => Refusal::Rest,
            Rule::Order | Rule::Data => Refusal::Range,
            Rule::SizeTag => Refusal::Size,
        }
    }

    /// What breaking it means, in words. Those of a rule that has a number to itself are [`Refusal::meaning`]'s.
    pub fn meaning(self) -> &'static str {
        match self {
            Rule::Choice => "a byte is outside its list, or a name has length 0",
            Rule::StatusBit => "an unused status bit is set",
            Rule::ByteCeiling => "the packet has more than 65,536 bytes",
            Rule::DepthCeiling => "the query is deeper than 24",
            Rule::NameCeiling => "a name has more than 255 bytes",
            Rule::GapCeiling => "the file has more than 64 gaps",
            Rule::Order => "a start is above its end",
            Rule::Data => "the data is not as long as its start and end say",
            Rule::Short | Rule::Opening | Rule::Length | Rule::Kind | Rule::Rest | Rule::SizeTag => {
                self.refusal().meaning()
            }
        }
    }
}

/// Why a packet is refused: which rule it breaks, and the item that breaks it.
///
/// ```
/// use ed2k::{Link, why};
///
/// // A HASH, and a byte too many.
/// let packet = [&[0xE3, 18, 0, 0, 0, 0x19][..], &[7; 16], &[0]].concat();
/// let reason = why(Link::Server, &packet).unwrap();
/// assert_eq!(reason.to_string(), "refused 7 at offset 22: bytes are left after the last item");
/// ```
#[derive(Clone, Copy, Debug, PartialEq, Eq, Hash)]
#[non_exhaustive]
pub struct Reason {
    /// What the packet is refused as.
    pub refusal: Refusal,
    /// The rule that it breaks.
    pub rule: Rule,
    /// Where the faulty item begins.
    pub offset: usize,
    /// How many bytes the faulty item has. If the packet ends before the item does, how many it needs.
    pub size: usize,
}

impl fmt::Display for Reason {
    fn fmt(&self, f: &mut fmt::Formatter<'_>) -> fmt::Result {
        write!(f, "refused {} at offset {}: {}", self.refusal.number(), self.offset, self.rule.meaning())
    }
}

impl Error for Reason {}

/// Why a packet of this link is refused: the number that [`read_packet`](crate::read_packet) refuses it with, the rule that it
/// breaks, and where the item is that breaks it. `None` exactly for the packets that `read_packet` accepts.
///
/// This law is proved of the archive: every other packet of the same length that is equal up to the end of the item, or up to the
/// end of the packet if that comes first, is refused for the same reason. If the packet ends before the item does, not even the
/// bytes of the item that are there count. So nothing after the item has a part in the refusal, and a change that is to make the
/// packet acceptable is one in the item, before it, or of the length.
///
/// Which item it is, by rule:
///
/// - [`Rule::Short`]: the number, hash or run of bytes that does not end; a run begins after its count.
/// - [`Rule::Opening`], [`Rule::Length`], [`Rule::Kind`]: the opening byte, the length, the opcode.
/// - [`Rule::Choice`]: the byte, or the WORD that is the length of an empty name. [`Rule::NameCeiling`]: that WORD too.
/// - [`Rule::StatusBit`]: all status bytes.
/// - [`Rule::ByteCeiling`]: the whole packet.
/// - [`Rule::DepthCeiling`]: nothing, at the place where the query at depth 25 would begin, which may be the end of the packet.
/// - [`Rule::Order`], [`Rule::Data`]: all starts and ends of the packet, which are judged together.
/// - [`Rule::Rest`]: the first byte that is left.
///
/// It costs what reading the packet costs, so that a program may ask only once a packet was refused. Met files, lone queries and
/// lone tag lists have only their number for now.
///
/// ```
/// use ed2k::{Link, Refusal, Rule, read_packet, why};
///
/// let accepted = [0xE3, 1, 0, 0, 0, 0x05];
/// assert_eq!(why(Link::Server, &accepted), None);
///
/// let refused = [0xE3, 2, 0, 0, 0, 0x05, 0];
/// let reason = why(Link::Server, &refused).unwrap();
/// assert_eq!(reason.refusal, Refusal::Rest);
/// assert_eq!(reason.refusal, read_packet(Link::Server, &refused).unwrap_err());
/// assert_eq!((reason.rule, reason.offset, reason.size), (Rule::Rest, 6, 1));
/// ```
pub fn why(link: Link, bytes: &[u8]) -> Option<Reason> {
    let [number, rule, offset, size] = raw::why(Kind::from(link) as u8, bytes);
    let refusal = refusal_with(number)?;
    let rule = u8::try_from(rule).ok().and_then(Rule::from_number);
    let rule = rule.expect("the archive names a rule that ed2k.h has");
    Some(Reason { refusal, rule, offset: offset as usize, size: size as usize })
}

/// The refusal with the number that the archive gives, or `None` if it accepts.
fn refusal_with(number: u64) -> Option<Refusal> {
    let refusal = u8::try_from(number).ok().and_then(Refusal::from_number);
    assert_eq!(refusal.is_none(), number == 0, "the archive gives a number that ed2k.h has");
    refusal
}
