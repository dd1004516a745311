//! Packets of the three links.

use crate::items::{Address, Addresses, Hash, Hashes, Record, Records, Tags};
use crate::kind::Link;
use crate::query::Query;
use crate::refusal::Refusal;
use crate::shape;
use crate::source::Source;
use crate::values::Values;

/// A packet. [`opcode_name`](crate::opcode_name) has the published names of opcodes.
#[derive(Clone, Debug)]
pub struct Packet<'a> {
    /// The opening byte, E3.
    pub opening: u8,
    /// The opcode.
    pub opcode: u8,
    /// What it carries.
    pub body: Body<'a>,
}

impl<'a> Packet<'a> {
    /// A packet that opens with E3, as all do that the links have so far.
    pub fn new(opcode: u8, body: Body<'a>) -> Packet<'a> {
        Packet { opening: 0xE3, opcode, body }
    }

    /// What the writing call takes. Bits that belong to no part would not be written: they are left over.
    pub(crate) fn source(&self) -> Result<Source, Refusal> {
        let mut source = Source::default();
        source.numbers([self.opening, self.opcode]);
        if let Body::FileStatus { status, .. } = &self.body
            && status.bits.len() > status.byte_count()
        {
            return Err(Refusal::Rest);
        }
        give(&self.body, &mut source);
        Ok(source)
    }
}

/// What a packet carries. Which case it is follows from link and opcode, and for two of the UDP opcodes from the bytes.
///
/// More cases may come with later requests, for opcodes that are refused today, so a `match` outside of this crate needs an
/// arm `_`. A packet that lands there was accepted: a program that has no use for it drops it and reads on.
#[derive(Clone, Debug)]
#[non_exhaustive]
pub enum Body<'a> {
    /// Nothing.
    Nothing,
    /// A search query.
    Query(Query<'a>),
    /// A file's hash.
    Hash(Hash),
    /// A number: a client ID or a rank.
    Dword(u32),
    /// Two numbers: how many users and files, or an old and a new client ID.
    TwoDwords(u32, u32),
    /// A text.
    Text(&'a [u8]),
    /// Two texts: a server's name and description.
    TwoTexts(&'a [u8], &'a [u8]),
    /// An address.
    Address(Address),
    /// A list of addresses.
    Addresses(Addresses<'a>),
    /// A file's hash and the addresses of its sources.
    HashAddresses {
        /// The file's hash.
        hash: Hash,
        /// The sources.
        addresses: Addresses<'a>,
    },
    /// An address and a client ID.
    AddressDword {
        /// The address.
        address: Address,
        /// The client ID.
        number: u32,
    },
    /// What a server says of itself.
    HashAddressTags {
        /// The server's hash.
        hash: Hash,
        /// Where it is.
        address: Address,
        /// What is said of it.
        tags: Tags<'a>,
    },
    /// A file or a client.
    Record(Record<'a>),
    /// A list of files or clients.
    Records(Records<'a>),
    /// A list of files, and whether there are more.
    RecordsFlag {
        /// The files.
        records: Records<'a>,
        /// 00 or 01.
        flag: u8,
    },
    /// A client and its server.
    RecordAddress {
        /// The client.
        record: Record<'a>,
        /// Its server.
        address: Address,
    },
    /// A client and its server, after the fixed byte 10.
    Hello {
        /// The client.
        record: Record<'a>,
        /// Its server.
        address: Address,
    },
    /// A file's hash and name.
    HashText {
        /// The file's hash.
        hash: Hash,
        /// Its name.
        text: &'a [u8],
    },
    /// The hashes of a file's parts.
    Hashset {
        /// The file's hash.
        hash: Hash,
        /// The hashes of its parts.
        hashes: Hashes<'a>,
    },
    /// Bytes of a file.
    SendingPart {
        /// The file's hash.
        hash: Hash,
        /// Where they begin in the file.
        start: u32,
        /// Where they end in the file: the first offset after them.
        end: u32,
        /// The bytes, `end - start` of them.
        data: &'a [u8],
    },
    /// Three ranges of a file that are asked for.
    RequestParts {
        /// The file's hash.
        hash: Hash,
        /// Where they begin.
        starts: [u32; 3],
        /// Where they end.
        ends: [u32; 3],
    },
    /// Which parts of a file a client has.
    FileStatus {
        /// The file's hash.
        hash: Hash,
        /// The parts.
        status: PartStatus<'a>,
    },
    /// A request for a server's status.
    StatusRequest {
        /// Whether it is the extended request, whose last two bytes are AA and 5A.
        extended: bool,
        /// The number, which the answer repeats.
        number: u32,
    },
    /// A server's status: the request's number, users, files.
    Status([u32; 3]),
    /// The status that answers an extended request.
    ExtendedStatus {
        /// The request's first two bytes.
        bytes: [u8; 2],
        /// Users, files, and how many users there may be.
        numbers: [u32; 3],
    },
}

/// Which parts of a file a client has: a bit for each.
#[derive(Clone, Copy, Debug, PartialEq, Eq)]
pub struct PartStatus<'a> {
    /// How many parts the file has.
    pub parts: u16,
    /// Part p is bit p mod 8 of byte p / 8; unused bits are 0.
    pub bits: &'a [u8],
}

impl PartStatus<'_> {
    /// How many bytes its parts have bits in.
    fn byte_count(&self) -> usize {
        usize::from(self.parts).div_ceil(8)
    }

    /// Whether the client has this part, counted from 0. Not for a part that the file does not have.
    pub fn has(&self, part: u16) -> bool {
        part < self.parts && self.bits[usize::from(part / 8)] >> (part % 8) & 1 == 1
    }
}

/// Reads a packet of the link. [`why`](crate::why) says which rule a refused packet breaks, and where.
///
/// ```
/// use ed2k::{Body, Link};
///
/// let bytes = [0xE3, 9, 0, 0, 0, 0x34, 3, 0, 0, 0, 5, 0, 0, 0];
/// let packet = ed2k::read_packet(Link::Server, &bytes)?;
/// assert_eq!(ed2k::opcode_name(Link::Server, packet.opcode), Some("Server status"));
/// let Body::TwoDwords(users, files) = packet.body else { panic!() };
/// assert_eq!((users, files), (3, 5));
/// # Ok::<(), ed2k::Refusal>(())
/// ```
pub fn read_packet(link: Link, bytes: &[u8]) -> Result<Packet<'_>, Refusal> {
    let mut values = Values::read(link.into(), bytes)?;
    Ok(Packet { opening: values.byte(), opcode: values.byte(), body: body(values) })
}

/// The body of a shape: the cases and their values are those of ED2K_BODY_.. in ed2k.h.
fn body(mut values: Values<'_>) -> Body<'_> {
    match values.byte() {
        shape::NOTHING => Body::Nothing,
        shape::QUERY => Body::Query(Query::from_values(&mut values)),
        shape::HASH => Body::Hash(values.hash()),
        shape::DWORD => Body::Dword(values.dword()),
        shape::TWO_DWORDS => Body::TwoDwords(values.dword(), values.dword()),
        shape::TEXT => Body::Text(values.text()),
        shape::TWO_TEXTS => Body::TwoTexts(values.text(), values.text()),
        shape::ADDRESS => Body::Address(values.address()),
        shape::ADDRESSES => Body::Addresses(values.list()),
        shape::HASH_ADDRESSES => Body::HashAddresses { hash: values.hash(), addresses: values.list() },
        shape::ADDRESS_DWORD => Body::AddressDword { address: values.address(), number: values.dword() },
        shape::HASH_ADDRESS_TAGS => {
            Body::HashAddressTags { hash: values.hash(), address: values.address(), tags: values.list() }
        }
        shape::RECORD => Body::Record(values.record()),
        shape::RECORDS => Body::Records(values.list()),
        shape::RECORDS_FLAG => Body::RecordsFlag { records: values.list(), flag: values.byte() },
        shape::RECORD_ADDRESS => Body::RecordAddress { record: values.record(), address: values.address() },
        shape::HELLO => Body::Hello { record: values.record(), address: values.address() },
        shape::HASH_TEXT => Body::HashText { hash: values.hash(), text: values.text() },
        shape::HASHSET => Body::Hashset { hash: values.hash(), hashes: values.list() },
        shape::SENDING_PART => Body::SendingPart {
            hash: values.hash(),
            start: values.dword(),
            end: values.dword(),
            data: values.text(),
        },
        shape::REQUEST_PARTS => {
            Body::RequestParts { hash: values.hash(), starts: values.dwords(), ends: values.dwords() }
        }
        shape::FILE_STATUS => Body::FileStatus { hash: values.hash(), status: part_status(values) },
        shape::STATUS_REQUEST => Body::StatusRequest { extended: values.byte() == 1, number: values.dword() },
        shape::STATUS => Body::Status(values.dwords()),
        shape::EXTENDED_STATUS => {
            Body::ExtendedStatus { bytes: [values.byte(), values.byte()], numbers: values.dwords() }
        }
        shape => panic!("the archive names a shape that ed2k.h does not have: {shape}"),
    }
}

fn part_status(mut values: Values<'_>) -> PartStatus<'_> {
    let mut status = PartStatus { parts: values.word(), bits: &[] };
    status.bits = values.run(status.byte_count());
    status
}

/// The other way round: the number of the shape, and the values.
fn give(body: &Body<'_>, source: &mut Source) {
    match body {
        Body::Nothing => source.number(shape::NOTHING),
        Body::Query(query) => {
            source.number(shape::QUERY);
            source.query(query);
        }
        Body::Hash(hash) => {
            source.number(shape::HASH);
            source.hash(*hash);
        }
        Body::Dword(number) => source.numbers([shape::DWORD.into(), *number]),
        Body::TwoDwords(one, two) => source.numbers([shape::TWO_DWORDS.into(), *one, *two]),
        Body::Text(text) => {
            source.number(shape::TEXT);
            source.text(text);
        }
        Body::TwoTexts(one, two) => {
            source.number(shape::TWO_TEXTS);
            source.text(one);
            source.text(two);
        }
        Body::Address(address) => {
            source.number(shape::ADDRESS);
            source.address(*address);
        }
        Body::Addresses(addresses) => {
            source.number(shape::ADDRESSES);
            source.list(addresses);
        }
        Body::HashAddresses { hash, addresses } => {
            source.number(shape::HASH_ADDRESSES);
            source.hash(*hash);
            source.list(addresses);
        }
        Body::AddressDword { address, number } => {
            source.number(shape::ADDRESS_DWORD);
            source.address(*address);
            source.number(*number);
        }
        Body::HashAddressTags { hash, address, tags } => {
            source.number(shape::HASH_ADDRESS_TAGS);
            source.hash(*hash);
            source.address(*address);
            source.list(tags);
        }
        Body::Record(record) => {
            source.number(shape::RECORD);
            source.record(record);
        }
        Body::Records(records) => {
            source.number(shape::RECORDS);
            source.list(records);
        }
        Body::RecordsFlag { records, flag } => {
            source.number(shape::RECORDS_FLAG);
            source.list(records);
            source.number(*flag);
        }
        Body::RecordAddress { record, address } => {
            source.number(shape::RECORD_ADDRESS);
            source.record(record);
            source.address(*address);
        }
        Body::Hello { record, address } => {
            source.number(shape::HELLO);
            source.record(record);
            source.address(*address);
        }
        Body::HashText { hash, text } => {
            source.number(shape::HASH_TEXT);
            source.hash(*hash);
            source.text(text);
        }
        Body::Hashset { hash, hashes } => {
            source.number(shape::HASHSET);
            source.hash(*hash);
            source.list(hashes);
        }
        Body::SendingPart { hash, start, end, data } => {
            source.number(shape::SENDING_PART);
            source.hash(*hash);
            source.numbers([*start, *end]);
            source.text(data);
        }
        Body::RequestParts { hash, starts, ends } => {
            source.number(shape::REQUEST_PARTS);
            source.hash(*hash);
            source.numbers(starts.iter().chain(ends).copied());
        }
        Body::FileStatus { hash, status } => {
            source.number(shape::FILE_STATUS);
            source.hash(*hash);
            source.number(status.parts);
            source.run(status.bits);
        }
        Body::StatusRequest { extended, number } => {
            source.numbers([shape::STATUS_REQUEST.into(), u32::from(*extended), *number])
        }
        Body::Status([one, two, three]) => source.numbers([shape::STATUS.into(), *one, *two, *three]),
        Body::ExtendedStatus { bytes, numbers } => {
            source.number(shape::EXTENDED_STATUS);
            source.numbers(*bytes);
            source.numbers(*numbers);
        }
    }
}
