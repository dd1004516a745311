//! A walk through a packet up to its faulty item. It prints each item before that one as `ed2k show` does, and says what should
//! stand at the fault. Where that is, the proved code has said: nothing is judged here.

use std::fmt::Display;
use std::io::{self, Write};

use ed2k::{Address, Bound, Hash, Link, Node, Operator, PartStatus, Tag, TagValue};

use super::layout::{self, Piece};
use crate::show::packet::Subject;
use crate::show::sheet::Sheet;
use crate::show::{met, names, packet, query, tags};
use crate::text;

/// The bytes that may stand where there is a choice.
const TAG_TYPES: &[u8] = &[1, 2, 3, 4];
const QUERY_CASES: &[u8] = &[0, 1, 2, 3];
const OPERATORS: &[u8] = &[0, 1, 2];
const BOUNDS: &[u8] = &[1, 2];
const FLAGS: &[u8] = &[0, 1];
const HELLO: &[u8] = &[0x10];
const EXTENSION: [&[u8]; 2] = [&[0xAA], &[0x5A]];

/// What the last two bytes of an extended request make, as the upper WORD of its DWORD.
const EXTENDED: u32 = 0x5AAA;

/// How many bytes the body of a plain status has.
const PLAIN_STATUS: usize = 12;

/// The names of items that `show` prints only together with others.
const TAG_TYPE: &str = "type";
const NAME: &str = "name";
const CASE: &str = "case";
const TEXT: &str = "text";
const LIMIT: &str = "limit";

/// What should stand at a place.
pub struct Wanted {
    /// The name of the item.
    pub name: String,
    /// The entries of lists that it is in, the innermost first.
    pub entries: Vec<String>,
    /// The bytes that it may be, if it is a choice.
    pub choices: &'static [u8],
}

/// Why a walk ends before the packet does.
enum Stop {
    /// The faulty item begins here.
    Fault(Wanted),
    Output(io::Error),
}

impl From<io::Error> for Stop {
    fn from(error: io::Error) -> Stop {
        Stop::Output(error)
    }
}

type Walked<T = ()> = Result<T, Stop>;

/// Prints the items of a packet: all, or those before the faulty one, which begins at the offset `fault`. The answer is what should
/// stand there. It is `None` if all items were printed; and if the walk does not come to the fault, as in a packet of a layout that
/// came later than this.
pub fn walk(
    link: Link,
    bytes: &[u8],
    fault: Option<usize>,
    output: &mut dyn Write,
) -> io::Result<Option<Wanted>> {
    let end = fault.unwrap_or(bytes.len()).min(bytes.len());
    let sheet = Sheet::new(output)?;
    let mut walk = Walk { bytes, at: 0, end, is_faulty: fault.is_some(), sheet, kept: vec![] };
    match walk.packet(link) {
        Ok(()) => Ok(None),
        Err(Stop::Fault(wanted)) => Ok((walk.at == end).then_some(wanted)),
        Err(Stop::Output(error)) => Err(error),
    }
}

struct Walk<'a, 'o> {
    bytes: &'a [u8],
    at: usize,
    /// Where the faulty item begins, else where the packet ends.
    end: usize,
    is_faulty: bool,
    sheet: Sheet<'o>,
    /// The items of a line that is not whole yet. If the walk ends before it is, each has a line of its own.
    kept: Vec<Kept>,
}

struct Kept {
    byte_count: usize,
    name: String,
    value: String,
}

/// Single items.
impl<'a, 'o> Walk<'a, 'o> {
    /// The bytes of the next item; or the end of the walk, if that is the faulty one.
    fn take(&mut self, byte_count: usize, name: &str) -> Walked<&'a [u8]> {
        self.take_choice(byte_count, name, &[])
    }

    fn take_choice(&mut self, byte_count: usize, name: &str, choices: &'static [u8]) -> Walked<&'a [u8]> {
        if byte_count > self.end - self.at {
            for kept in self.kept.drain(..) {
                self.sheet.item(kept.byte_count, &kept.name, kept.value)?;
            }
            return Err(Stop::Fault(Wanted { name: name.into(), entries: vec![], choices }));
        }
        let item = &self.bytes[self.at..self.at + byte_count];
        self.at += byte_count;
        Ok(item)
    }

    fn array<const N: usize>(&mut self, name: &str) -> Walked<[u8; N]> {
        Ok(self.take(N, name)?.try_into().expect("so many bytes were taken"))
    }

    fn byte(&mut self, name: &str) -> Walked<u8> {
        self.array(name).map(u8::from_le_bytes)
    }

    fn word(&mut self, name: &str) -> Walked<u16> {
        self.array(name).map(u16::from_le_bytes)
    }

    fn dword(&mut self, name: &str) -> Walked<u32> {
        self.array(name).map(u32::from_le_bytes)
    }

    fn hash(&mut self, name: &str) -> Walked<Hash> {
        self.array(name).map(Hash)
    }

    fn choice(&mut self, name: &str, choices: &'static [u8]) -> Walked<u8> {
        Ok(self.take_choice(1, name, choices)?[0])
    }

    /// Keeps an item of a line that is not whole yet. One without bytes needs no line: its length has said so.
    fn keep(&mut self, byte_count: usize, name: &str, value: impl Display) {
        if byte_count > 0 {
            self.kept.push(Kept { byte_count, name: name.into(), value: value.to_string() });
        }
    }

    /// The sheet for a line that is whole.
    fn whole(&mut self) -> &mut Sheet<'o> {
        self.kept.clear();
        &mut self.sheet
    }

    /// Whether a line may stand here that has no bytes: not if the faulty item begins here.
    fn is_before_fault(&self) -> bool {
        !self.is_faulty || self.at < self.end
    }

    /// Items that stand so many levels below.
    fn below<T>(&mut self, levels: usize, items: impl FnOnce(&mut Self) -> Walked<T>) -> Walked<T> {
        self.sheet.level += levels;
        let walked = items(self);
        self.sheet.level -= levels;
        walked
    }

    /// The items of an entry of a list, by what it is called and its number, counted from 1.
    fn entry<T>(
        &mut self,
        name: &str,
        number: usize,
        items: impl FnOnce(&mut Self) -> Walked<T>,
    ) -> Walked<T> {
        items(self).map_err(|stop| match stop {
            Stop::Fault(mut wanted) => {
                wanted.entries.push(format!("{name} {number}"));
                Stop::Fault(wanted)
            }
            Stop::Output(_) => stop,
        })
    }

    /// A WORD and as many bytes, which are the next items of a line.
    fn counted(&mut self, name: &str, value: impl FnOnce(&[u8]) -> String) -> Walked<&'a [u8]> {
        let length_name = format!("{name}, length");
        let length = usize::from(self.word(&length_name)?);
        self.keep(2, &length_name, text::bytes(length as u64));
        let run = self.take(length, name)?;
        self.keep(length, name, value(run));
        Ok(run)
    }

    fn address(&mut self, name: &str) -> Walked<Address> {
        let ip_name = format!("{name}, IP");
        let ip = self.dword(&ip_name)?;
        self.keep(4, &ip_name, ed2k::dotted(ip));
        let port = self.word(&format!("{name}, port"))?;
        Ok(Address { ip, port })
    }
}

/// Packets and the pieces of their bodies.
impl Walk<'_, '_> {
    fn packet(&mut self, link: Link) -> Walked {
        let opening = self.byte(names::PROTOCOL)?;
        packet::opening(&mut self.sheet, opening)?;
        if link != Link::Udp {
            let length = self.dword(names::DATA_LENGTH)?;
            packet::data_length(&mut self.sheet, length.into())?;
        }
        let opcode = self.byte(names::OPCODE)?;
        packet::opcode(&mut self.sheet, link, opcode)?;
        match layout::pieces(link, opcode) {
            Some(pieces) => pieces.iter().try_for_each(|piece| self.piece(*piece, Subject::of(link, opcode))),
            None if self.is_before_fault() => Ok(packet::unworded_body(&mut self.sheet)?),
            None => Ok(()),
        }
    }

    fn piece(&mut self, piece: Piece, subject: Subject) -> Walked {
        match piece {
            Piece::Hash(name) => {
                let hash = self.hash(name)?;
                self.sheet.hash(name, hash)?;
            }
            Piece::ClientId(name) => {
                let id = self.dword(name)?;
                self.sheet.client_id(name, id)?;
            }
            Piece::Number(name) => {
                let number = self.dword(name)?;
                self.sheet.number(name, number)?;
            }
            Piece::Text(name) => {
                let text = self.counted(name, text::quoted)?;
                self.whole().text(name, text)?;
            }
            Piece::Address(name) => self.one_address(name)?,
            Piece::Users => self.users()?,
            Piece::Files => self.files()?,
            Piece::Addresses => self.addresses()?,
            Piece::Tags => self.tags()?,
            Piece::Record => self.record(subject)?,
            Piece::Records => self.records(subject)?,
            Piece::More => {
                let flag = self.choice(names::MORE, FLAGS)?;
                packet::more(&mut self.sheet, flag)?;
            }
            Piece::HelloByte => {
                self.choice(names::FIXED_BYTE, HELLO)?;
                packet::hello_byte(&mut self.sheet)?;
            }
            Piece::PartHashes => self.part_hashes()?,
            Piece::SentRange => self.sent_range()?,
            Piece::AskedRanges => self.asked_ranges()?,
            Piece::PartStatus => self.part_status()?,
            Piece::StatusRequest => {
                let number = self.dword(names::DWORD)?;
                packet::status_request(&mut self.sheet, number >> 16 == EXTENDED, number)?;
            }
            Piece::Status => self.status()?,
            Piece::Query => self.query()?,
        }
        Ok(())
    }

    fn one_address(&mut self, name: &str) -> Walked {
        let address = self.address(name)?;
        Ok(self.whole().address(name, address)?)
    }

    fn users(&mut self) -> Walked {
        let users = self.dword(names::USERS)?;
        Ok(packet::users(&mut self.sheet, users)?)
    }

    fn files(&mut self) -> Walked {
        let files = self.dword(names::FILES)?;
        Ok(packet::files(&mut self.sheet, files)?)
    }

    fn addresses(&mut self) -> Walked {
        let count = usize::from(self.byte(names::ADDRESS_LIST)?);
        packet::address_count(&mut self.sheet, count)?;
        let one = |walk: &mut Self| walk.one_address(names::ADDRESS);
        self.below(1, |walk| (1..=count).try_for_each(|number| walk.entry("address", number, one)))
    }

    fn records(&mut self, subject: Subject) -> Walked {
        let count = self.dword(subject.list())? as usize;
        packet::record_count(&mut self.sheet, count, subject)?;
        (1..=count).try_for_each(|number| {
            if self.is_before_fault() {
                self.sheet.head(&format!("{} {number}", subject.info()))?;
            }
            self.entry(subject.info(), number, |walk| walk.below(1, |walk| walk.record(subject)))
        })
    }

    fn record(&mut self, subject: Subject) -> Walked {
        let hash = self.hash(subject.hash())?;
        self.sheet.hash(subject.hash(), hash)?;
        let client = self.dword(names::CLIENT_ID)?;
        self.sheet.client_id(names::CLIENT_ID, client)?;
        let port = self.word(names::PORT)?;
        packet::port(&mut self.sheet, port)?;
        self.tags()
    }

    fn part_hashes(&mut self) -> Walked {
        let count = usize::from(self.word(names::PART_HASH_LIST)?);
        met::hash_count(&mut self.sheet, count)?;
        self.below(1, |walk| {
            (0..count).try_for_each(|index| {
                let hash = walk.hash(&met::PART.name(index))?;
                Ok(met::PART.one(&mut walk.sheet, index, hash)?)
            })
        })
    }

    fn sent_range(&mut self) -> Walked {
        for name in [names::START, names::END] {
            let number = self.dword(name)?;
            self.sheet.number(name, number)?;
        }
        let data = self.take(self.bytes.len() - self.at, names::DATA)?;
        Ok(packet::data(&mut self.sheet, data)?)
    }

    /// The order of starts and ends is judged once all are there: an end below its start may stand before the fault.
    fn asked_ranges(&mut self) -> Walked {
        let mut starts = [0; 3];
        for (index, start) in starts.iter_mut().enumerate() {
            let name = packet::of_range(names::START, index);
            *start = self.dword(&name)?;
            self.sheet.number(&name, *start)?;
        }
        for (index, start) in starts.into_iter().enumerate() {
            let end = self.dword(&packet::of_range(names::END, index))?;
            packet::asked_end(&mut self.sheet, index, start, end)?;
        }
        Ok(())
    }

    fn part_status(&mut self) -> Walked {
        let parts = self.word(names::PART_STATUS_LIST)?;
        packet::part_count(&mut self.sheet, parts)?;
        let bits = self.take(usize::from(parts).div_ceil(8), names::PARTS_HELD)?;
        if bits.is_empty() && !self.is_before_fault() {
            return Ok(());
        }
        Ok(self.sheet.within(|sheet| packet::parts_held(sheet, &PartStatus { parts, bits }))?)
    }

    fn status(&mut self) -> Walked {
        let is_plain = self.bytes.len() - self.at == PLAIN_STATUS;
        if is_plain {
            let request = self.dword(names::DWORD)?;
            packet::repeated_request(&mut self.sheet, request)?;
        } else {
            self.extension()?;
        }
        self.users()?;
        self.files()?;
        if !is_plain {
            let most = self.dword(names::USERS_MAX)?;
            packet::users_max(&mut self.sheet, most)?;
        }
        Ok(())
    }

    /// The first four bytes of an extended status.
    fn extension(&mut self) -> Walked {
        for _ in 0..2 {
            let byte = self.byte(names::BYTE)?;
            packet::extension_byte(&mut self.sheet, byte)?;
        }
        for fixed in EXTENSION {
            let byte = self.choice(names::FIXED_BYTE, fixed)?;
            self.keep(1, names::FIXED_BYTE, format!("({byte:02X})"));
        }
        Ok(packet::extension_mark(self.whole())?)
    }
}

/// Tags and queries.
impl<'a> Walk<'a, '_> {
    fn tags(&mut self) -> Walked {
        let count = self.dword(names::TAG_LIST)? as usize;
        tags::count(&mut self.sheet, count)?;
        self.below(1, |walk| {
            let mut before = None;
            for number in 1..=count {
                let tag = walk.entry("tag", number, Walk::tag)?;
                tags::one(walk.whole(), &tag, before)?;
                before = Some(tag);
            }
            Ok(())
        })
    }

    fn tag(&mut self) -> Walked<Tag<'a>> {
        let code = self.choice(TAG_TYPE, TAG_TYPES)?;
        let type_name = match code {
            1 => "HASH",
            2 => names::STRING,
            3 => names::DWORD,
            _ => "FLOAT",
        };
        self.keep(1, TAG_TYPE, format!("({code:02X}) {type_name}"));
        let name = self.counted(NAME, tags::name)?;
        let value = match code {
            1 => TagValue::Hash(self.hash(type_name)?),
            2 => TagValue::Text(self.counted(type_name, text::quoted)?),
            3 => TagValue::Dword(self.dword(type_name)?),
            _ => TagValue::Float(self.dword(type_name)?),
        };
        Ok(Tag { name, value })
    }

    /// No packet has an item after its query.
    fn query(&mut self) -> Walked {
        let whole = ed2k::read_query(&self.bytes[self.at..self.end]);
        if self.is_before_fault() {
            query::head(&mut self.sheet, whole.ok().map(|query| query.depth()))?;
        }
        // The levels of the queries that are still to come, the next one last.
        let mut levels = vec![1];
        while let Some(level) = levels.pop() {
            if let Node::Operator(_) = self.below(level, Walk::node)? {
                levels.extend([level + 1, level + 1]);
            }
        }
        Ok(())
    }

    fn node(&mut self) -> Walked<Node<'a>> {
        let start = self.at;
        let case = self.choice(CASE, QUERY_CASES)?;
        let meaning = match case {
            0 => "two queries, joined",
            1 => "a text in the name",
            2 => "a text in a tag",
            _ => "a limit of a tag",
        };
        self.keep(1, CASE, format!("({case:02X}) {meaning}"));
        let node = match case {
            0 => Node::Operator(self.operator()?),
            1 => Node::Keyword(self.counted(TEXT, text::quoted)?),
            2 => {
                let text = self.counted(TEXT, text::quoted)?;
                Node::Field { text, name: self.counted(NAME, tags::name)? }
            }
            _ => self.limit()?,
        };
        let byte_count = self.at - start;
        query::node(self.whole(), byte_count, &node)?;
        Ok(node)
    }

    fn operator(&mut self) -> Walked<Operator> {
        Ok(match self.choice("operator", OPERATORS)? {
            0 => Operator::And,
            1 => Operator::Or,
            _ => Operator::AndNot,
        })
    }

    fn limit(&mut self) -> Walked<Node<'a>> {
        let number = self.dword(LIMIT)?;
        self.keep(4, LIMIT, text::grouped(number.into()));
        let byte = self.choice("bound", BOUNDS)?;
        let bound = if byte == 1 { Bound::Min } else { Bound::Max };
        self.keep(1, "bound", format!("({byte:02X}) {}", query::bound_words(bound)));
        Ok(Node::Limit { number, bound, name: self.counted(NAME, tags::name)? })
    }
}
