//! Why a packet is refused (02, No. 7): the layouts of 01 as lists of items, and a walk over them up to the first item at fault. It
//! shares no step with the reader beside it.

use super::{CLIENT_LINK, NAME_CEILING, PACKET_CEILING, QUERY_DEPTH, Refusal, SERVER_LINK, UDP_LINK};

/// How many numbers say why: the number, the rule, and the offset and size of the item.
pub const WHY_NUMBERS: usize = 4;

/// The rules, by their numbers in `ed2k.h`. No packet breaks the one on gaps and the one on the size tag.
#[derive(Clone, Copy, Debug, PartialEq, Eq, PartialOrd, Ord)]
#[repr(u8)]
pub enum Rule {
    Short = 1,
    Opening,
    Length,
    Kind,
    Choice,
    StatusBit,
    Bytes,
    Depth,
    Name,
    Gaps,
    Rest,
    Order,
    Data,
    Size,
}

impl Rule {
    pub const ALL: [Rule; 14] = [
        Rule::Short,
        Rule::Opening,
        Rule::Length,
        Rule::Kind,
        Rule::Choice,
        Rule::StatusBit,
        Rule::Bytes,
        Rule::Depth,
        Rule::Name,
        Rule::Gaps,
        Rule::Rest,
        Rule::Order,
        Rule::Data,
        Rule::Size,
    ];

    /// Its row of 01's table.
    pub fn refusal(self) -> Refusal {
        match self {
            Rule::Short => Refusal::Short,
            Rule::Opening => Refusal::Opening,
            Rule::Length => Refusal::Length,
            Rule::Kind => Refusal::Kind,
            Rule::Choice | Rule::StatusBit => Refusal::Choice,
            Rule::Bytes | Rule::Depth | Rule::Name | Rule::Gaps => Refusal::Limit,
            Rule::Rest => Refusal::Rest,
            Rule::Order | Rule::Data => Refusal::Range,
            Rule::Size => Refusal::Size,
        }
    }
}

/// The item at fault: the rule that it breaks, where it begins and how many bytes it has or needs.
#[derive(Clone, Copy, Debug, PartialEq, Eq)]
pub struct Reason {
    pub rule: Rule,
    pub offset: usize,
    pub size: usize,
}

impl Reason {
    pub fn numbers(self) -> [u64; WHY_NUMBERS] {
        [self.rule.refusal() as u64, self.rule as u64, self.offset as u64, self.size as u64]
    }
}

/// Why a packet of the link is refused, if it is.
pub fn why(link: u8, bytes: &[u8]) -> Option<Reason> {
    let mut walk = Walk { bytes, at: 0 };
    walk.packet(link).err()
}

/// What layouts are made of.
#[derive(Clone, Copy)]
enum Item {
    /// A number or a HASH of so many bytes, which may be any.
    Any(usize),
    /// A byte that is one of these.
    OneOf(&'static [u8]),
    /// A WORD, and as many bytes.
    Text,
    /// A WORD that is not 0 and not above the ceiling, and as many bytes.
    Name,
    /// A count of so many bytes, and as many entries.
    List(usize, Layout),
    /// A type, a name and the type's value.
    Tag,
    Query,
    /// A start, an end, and all bytes that are left as data.
    Part,
    /// Three starts and three ends.
    ThreeRanges,
    /// A WORD, and as many bits in whole bytes.
    Bits,
    /// Three DWORDs if they are all that is left, or the extended form.
    Status,
}

type Layout = &'static [Item];

const BYTE: Item = Item::Any(1);
const WORD: Item = Item::Any(2);
const DWORD: Item = Item::Any(4);
const HASH: Item = Item::Any(16);
const TAGS: Item = Item::List(4, &[Item::Tag]);
const RECORDS: Item = Item::List(4, &[HASH, DWORD, WORD, TAGS]);
const ADDRESSES: Item = Item::List(1, &[DWORD, WORD]);
const HASHES: Item = Item::List(2, &[HASH]);

const PLAIN_STATUS_SIZE: usize = 12;
const PLAIN_STATUS: Layout = &[DWORD, DWORD, DWORD];
const EXTENDED_STATUS: Layout =
    &[BYTE, BYTE, Item::OneOf(&[0xAA]), Item::OneOf(&[0x5A]), DWORD, DWORD, DWORD];

fn body_layout(link: u8, opcode: u8) -> Option<Layout> {
    match link {
        SERVER_LINK => server_layout(opcode),
        CLIENT_LINK => client_layout(opcode),
        _ => udp_layout(opcode),
    }
}

fn server_layout(opcode: u8) -> Option<Layout> {
    Some(match opcode {
        0x05 | 0x14 | 0x18 | 0x21 => &[],
        0x16 | 0x1A => &[Item::Query],
        0x19 => &[HASH],
        0x1C | 0x36 | 0x40 => &[DWORD],
        0x34 => &[DWORD, DWORD],
        0x38 => &[Item::Text],
        0x35 => &[DWORD, WORD],
        0x32 => &[ADDRESSES],
        0x42 => &[HASH, ADDRESSES],
        0x01 => &[HASH, DWORD, WORD, TAGS],
        0x15 | 0x43 => &[RECORDS],
        0x33 => &[RECORDS, Item::OneOf(&[0, 1])],
        0x41 => &[HASH, DWORD, WORD, TAGS],
        _ => return None,
    })
}

fn client_layout(opcode: u8) -> Option<Layout> {
    Some(match opcode {
        0x4A | 0x55 | 0x56 | 0x57 => &[],
        0x48 | 0x49 | 0x4F | 0x51 | 0x54 | 0x58 => &[HASH],
        0x01 => &[Item::OneOf(&[0x10]), HASH, DWORD, WORD, TAGS, DWORD, WORD],
        0x4C => &[HASH, DWORD, WORD, TAGS, DWORD, WORD],
        0x5C => &[DWORD],
        0x4D => &[DWORD, DWORD],
        0x4E => &[Item::Text],
        0x59 => &[HASH, Item::Text],
        0x4B => &[RECORDS],
        0x52 => &[HASH, HASHES],
        0x46 => &[HASH, Item::Part],
        0x47 => &[HASH, Item::ThreeRanges],
        0x50 => &[HASH, Item::Bits],
        _ => return None,
    })
}

fn udp_layout(opcode: u8) -> Option<Layout> {
    Some(match opcode {
        0xA2 | 0xA4 => &[],
        0x9A => &[HASH],
        0x98 => &[Item::Query],
        0x99 => &[HASH, DWORD, WORD, TAGS],
        0x9B => &[HASH, ADDRESSES],
        0x9C => &[DWORD, WORD, DWORD],
        0x9E => &[DWORD],
        0xA1 => &[ADDRESSES],
        0xA3 => &[Item::Text, Item::Text],
        0x96 => &[DWORD],
        0x97 => &[Item::Status],
        _ => return None,
    })
}

/// What was found so far, or the first item at fault.
type Found<T> = Result<T, Reason>;

/// The bytes, and the place up to which no item is at fault.
struct Walk<'a> {
    bytes: &'a [u8],
    at: usize,
}

impl<'a> Walk<'a> {
    fn left(&self) -> usize {
        self.bytes.len() - self.at
    }

    /// So many bytes, which must be there.
    fn take(&mut self, size: usize) -> Found<&'a [u8]> {
        let offset = self.at;
        let taken = self.bytes.get(offset..offset + size);
        let taken = taken.ok_or(Reason { rule: Rule::Short, offset, size })?;
        self.at += size;
        Ok(taken)
    }

    /// A number of so many bytes, low byte first.
    fn number(&mut self, size: usize) -> Found<usize> {
        let low_first = self.take(size)?;
        Ok(low_first.iter().rev().fold(0, |number, byte| number << 8 | usize::from(*byte)))
    }

    /// Judges the item that begins at the offset and ends where the walk is.
    fn judge(&self, offset: usize, rule: Rule, is_kept: bool) -> Found<()> {
        let size = self.at - offset;
        if is_kept { Ok(()) } else { Err(Reason { rule, offset, size }) }
    }

    fn packet(&mut self, link: u8) -> Found<()> {
        let size = self.bytes.len();
        if size > PACKET_CEILING {
            return Err(Reason { rule: Rule::Bytes, offset: 0, size });
        }
        let opening = self.number(1)?;
        self.judge(0, Rule::Opening, opening == 0xE3)?;
        if link != UDP_LINK {
            self.header_length()?;
        }
        let at = self.at;
        let layout = body_layout(link, self.number(1)? as u8);
        self.judge(at, Rule::Kind, layout.is_some())?;
        self.items(layout.unwrap_or_default())?;
        match self.left() {
            0 => Ok(()),
            _ => Err(Reason { rule: Rule::Rest, offset: self.at, size: 1 }),
        }
    }

    fn header_length(&mut self) -> Found<()> {
        let at = self.at;
        let length = self.number(4)?;
        self.judge(at, Rule::Length, length > 0 && length == self.left())
    }

    fn items(&mut self, layout: Layout) -> Found<()> {
        layout.iter().try_for_each(|item| self.item(*item))
    }

    fn item(&mut self, item: Item) -> Found<()> {
        match item {
            Item::Any(size) => self.take(size).map(drop),
            Item::OneOf(choices) => self.one_of(choices).map(drop),
            Item::Text => {
                let length = self.number(2)?;
                self.take(length).map(drop)
            }
            Item::Name => self.name(),
            Item::List(width, entry) => {
                let count = self.number(width)?;
                (0..count).try_for_each(|_| self.items(entry))
            }
            Item::Tag => self.tag(),
            Item::Query => self.query(1),
            Item::Part => self.part(),
            Item::ThreeRanges => self.three_ranges(),
            Item::Bits => self.bits(),
            Item::Status if self.left() == PLAIN_STATUS_SIZE => self.items(PLAIN_STATUS),
            Item::Status => self.items(EXTENDED_STATUS),
        }
    }

    fn one_of(&mut self, choices: &[u8]) -> Found<u8> {
        let at = self.at;
        let byte = self.number(1)? as u8;
        self.judge(at, Rule::Choice, choices.contains(&byte))?;
        Ok(byte)
    }

    fn name(&mut self) -> Found<()> {
        let at = self.at;
        let length = self.number(2)?;
        self.judge(at, Rule::Choice, length > 0)?;
        self.judge(at, Rule::Name, length <= NAME_CEILING)?;
        self.take(length).map(drop)
    }

    fn tag(&mut self) -> Found<()> {
        let value = match self.one_of(&[1, 2, 3, 4])? {
            1 => HASH,
            2 => Item::Text,
            _ => DWORD,
        };
        self.name()?;
        self.item(value)
    }

    /// A query at this depth; the outermost one is at depth 1.
    fn query(&mut self, depth: u64) -> Found<()> {
        self.judge(self.at, Rule::Depth, depth <= QUERY_DEPTH)?;
        match self.one_of(&[0, 1, 2, 3])? {
            0 => {
                self.one_of(&[0, 1, 2])?;
                self.query(depth + 1)?;
                self.query(depth + 1)
            }
            1 => self.items(&[Item::Text]),
            2 => self.items(&[Item::Text, Item::Name]),
            _ => self.items(&[DWORD, Item::OneOf(&[1, 2]), Item::Name]),
        }
    }

    /// Start and end are judged together: their order first, then against the data.
    fn part(&mut self) -> Found<()> {
        let at = self.at;
        let (start, end) = (self.number(4)?, self.number(4)?);
        self.judge(at, Rule::Order, start <= end)?;
        self.judge(at, Rule::Data, end - start == self.left())?;
        self.take(self.left()).map(drop)
    }

    /// The six numbers are judged together.
    fn three_ranges(&mut self) -> Found<()> {
        let at = self.at;
        let mut numbers = [0; 6];
        for number in &mut numbers {
            *number = self.number(4)?;
        }
        let [starts @ .., _, _, _] = numbers;
        let [_, _, _, ends @ ..] = numbers;
        let in_order = starts.iter().zip(ends).all(|(start, end)| *start <= end);
        self.judge(at, Rule::Order, in_order)
    }

    /// All status bytes are one item.
    fn bits(&mut self) -> Found<()> {
        let parts = self.number(2)?;
        let at = self.at;
        let status = self.take(parts.div_ceil(8))?;
        let is_set = |part: usize| status[part / 8] >> (part % 8) & 1 == 1;
        let unused = parts..8 * status.len();
        self.judge(at, Rule::StatusBit, !unused.into_iter().any(is_set))
    }
}
