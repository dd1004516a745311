//! Writers of whole messages from their numbers, and of single entries. The bytes are put together first; what the reader says of
//! them, and which alternatives it finds in them, decides.

use super::bodies::record;
use super::cursor::Cursor;
use super::met::{file_entry, server_entry};
use super::packets::{Shape, listed_shape};
use super::query::query;
use super::tags::tag;
use super::writers::write;
use super::{
    Answer, FIELDS, Fields, KNOWN_MET, LONE_QUERY, LONE_TAGS, PART_MET, QUERY_DEPTH, Refusal, SERVER_MET,
    UDP_LINK, read,
};

/// What the numbers of a message stand for.
#[derive(Clone, Copy)]
enum Field {
    /// A byte that the layout fixes; it has no number.
    Fixed(u8),
    Byte,
    Word,
    Dword,
    /// A number that says which alternative is taken, up to this one; it has no bytes.
    Choice(u64),
    /// A number that is returned beside the message's own, up to this one; it has no bytes.
    Beside(u64),
    Hash,
    /// Bytes by offset and length.
    Run,
    /// The same, with a WORD count.
    Text,
    /// Status bits, by how many parts and offset.
    Bits,
    /// By offset; end and depth are returned beside it.
    Query,
    /// By offset and count; the end is returned beside them.
    List(Listed),
}

#[derive(Clone, Copy, PartialEq)]
enum Listed {
    Addresses,
    /// With a WORD count.
    Hashes,
    /// Those of a block of an E1, with no count.
    PartHashes,
    BlockHashes,
    Tags,
    Records,
    FileEntries,
    ServerEntries,
}

use Field::{Beside, Bits, Byte, Choice, Dword, Fixed, Hash, List, Query, Run, Text, Word};
use Listed::{Addresses, BlockHashes, FileEntries, Hashes, PartHashes, Records, ServerEntries, Tags};

/// The bodies, by the numbers of their shapes.
const BODIES: [&[Field]; 25] = [
    &[],
    &[Query],
    &[Hash],
    &[Dword],
    &[Dword, Dword],
    &[Text],
    &[Text, Text],
    &[Dword, Word],
    &[List(Addresses)],
    &[Hash, List(Addresses)],
    &[Dword, Word, Dword],
    &[Hash, Dword, Word, List(Tags)],
    &[Hash, Dword, Word, List(Tags)],
    &[List(Records)],
    &[List(Records), Byte],
    &[Hash, Dword, Word, List(Tags), Dword, Word],
    &[Fixed(0x10), Hash, Dword, Word, List(Tags), Dword, Word],
    &[Hash, Text],
    &[Hash, List(Hashes)],
    &[Hash, Dword, Dword, Run],
    &[Hash, Dword, Dword, Dword, Dword, Dword, Dword],
    &[Hash, Bits],
    &[Choice(1), Dword],
    &[Dword, Dword, Dword],
    &[Byte, Byte, Fixed(0xAA), Fixed(0x5A), Dword, Dword, Dword],
];

const KNOWN: &[Field] = &[Byte, List(FileEntries)];
const SERVER: &[Field] = &[Byte, List(ServerEntries), Run];
const LONE: &[Field] = &[Query];
const LIST: &[Field] = &[List(Tags)];

/// A field with its numbers.
#[derive(Clone, Copy)]
struct Given<'a> {
    field: Field,
    numbers: &'a [u64],
}

/// How many numbers a field has.
fn width(field: Field) -> usize {
    match field {
        Fixed(_) => 0,
        Byte | Word | Dword | Choice(_) | Beside(_) | Hash => 1,
        Run | Text | Bits => 2,
        Query | List(_) => 3,
    }
}

/// The numbers that have a width of their own keep to it.
fn keeps_width(given: &Given) -> bool {
    let numbers = given.numbers;
    match given.field {
        Byte => numbers[0] <= u8::MAX.into(),
        Word => numbers[0] <= u16::MAX.into(),
        Dword => numbers[0] <= u32::MAX.into(),
        Choice(most) | Beside(most) => numbers[0] <= most,
        List(_) => numbers[2] <= u32::MAX.into(),
        Fixed(_) | Hash | Run | Text | Bits | Query => true,
    }
}

/// Gives the numbers to the fields. Those after the last field are 0.
fn give<'a>(fields: &[Field], numbers: &'a [u64]) -> Answer<Vec<Given<'a>>> {
    let mut rest = numbers;
    let mut given = Vec::new();
    for &field in fields {
        let (own, after) = rest.split_at(width(field));
        given.push(Given { field, numbers: own });
        rest = after;
    }
    let keeps = given.iter().all(keeps_width) && rest.iter().all(|number| *number == 0);
    if keeps { Ok(given) } else { Err(Refusal::Choice) }
}

/// Bytes in the making.
#[derive(Default)]
struct Draft {
    bytes: Vec<u8>,
    /// A count field cannot hold what it counts.
    too_long: bool,
}

impl Draft {
    fn count<const N: usize>(&mut self, count: usize) {
        self.too_long |= count >> (8 * N) != 0;
        self.bytes.extend(&count.to_le_bytes()[..N]);
    }

    /// So many bytes from an offset on, if they are there.
    fn run(&mut self, source: &[u8], at: usize, length: usize) -> Answer<()> {
        let end = at.checked_add(length).ok_or(Refusal::Short)?;
        self.bytes.extend(source.get(at..end).ok_or(Refusal::Short)?);
        Ok(())
    }

    fn put(&mut self, source: &[u8], given: Given) -> Answer<()> {
        let numbers = given.numbers;
        match given.field {
            Fixed(byte) => self.bytes.push(byte),
            Byte => self.bytes.extend(&numbers[0].to_le_bytes()[..1]),
            Word => self.bytes.extend(&numbers[0].to_le_bytes()[..2]),
            Dword => self.bytes.extend(&numbers[0].to_le_bytes()[..4]),
            Choice(_) | Beside(_) => (),
            Hash => self.run(source, numbers[0] as usize, 16)?,
            Run => self.run(source, numbers[0] as usize, numbers[1] as usize)?,
            Text => {
                self.count::<2>(numbers[1] as usize);
                self.run(source, numbers[0] as usize, numbers[1] as usize)?;
            }
            Bits => self.bits(source, numbers[0] as usize, numbers[1] as usize)?,
            Query => {
                let start = Cursor::at_offset(source, numbers[0] as usize);
                self.read(source, start, |cursor| query(cursor, QUERY_DEPTH).map(drop))?;
            }
            List(listed) => self.list(source, listed, numbers[0] as usize, numbers[2] as u32)?,
        }
        Ok(())
    }

    fn bits(&mut self, source: &[u8], parts: usize, at: usize) -> Answer<()> {
        self.count::<2>(parts);
        self.run(source, at, parts.div_ceil(8))?;
        let last = self.bytes.last().copied().unwrap_or_default();
        let unused = !parts.is_multiple_of(8) && last >> (parts % 8) != 0;
        if unused { Err(Refusal::Choice) } else { Ok(()) }
    }

    /// What is read from a cursor on, as it is encoded there.
    fn read<'a>(
        &mut self,
        source: &'a [u8],
        start: Cursor<'a>,
        item: impl FnOnce(&mut Cursor<'a>) -> Answer<()>,
    ) -> Answer<()> {
        let mut cursor = start;
        item(&mut cursor)?;
        self.bytes.extend(&source[start.at()..cursor.at()]);
        Ok(())
    }

    fn list(&mut self, source: &[u8], listed: Listed, at: usize, count: u32) -> Answer<()> {
        match listed {
            Addresses => self.count::<1>(count as usize),
            Hashes => self.count::<2>(count as usize),
            PartHashes | BlockHashes => (),
            Tags | Records | FileEntries | ServerEntries => self.count::<4>(count as usize),
        }
        let start = Cursor::at_offset(source, at);
        self.read(source, start, |cursor| {
            match listed {
                Addresses => cursor.even_list(count, 6),
                Hashes | PartHashes => cursor.even_list(count, 16),
                BlockHashes => cursor.even_list(count, 8),
                Tags => cursor.list(count, tag),
                Records => cursor.list(count, |cursor| record(cursor, &mut Fields::default())),
                FileEntries => cursor.list(count, file_entry),
                ServerEntries => cursor.list(count, server_entry),
            }
            .map(drop)
        })
    }
}

/// The message of the kind that ed2k.h gives this number.
pub fn write_message(kind: u8, source: &[u8], numbers: &[u64], output: &mut [u8]) -> Answer<usize> {
    if kind > LONE_TAGS {
        return Err(Refusal::Kind);
    }
    let numbers: &[u64; FIELDS] = numbers.first_chunk().ok_or(Refusal::Choice)?;
    let draft = match kind {
        KNOWN_MET => drafted(source, &give(KNOWN, numbers)?)?,
        SERVER_MET => drafted(source, &give(SERVER, numbers)?)?,
        PART_MET => part_draft(source, numbers)?,
        LONE_QUERY => drafted(source, &give(LONE, numbers)?)?,
        LONE_TAGS => drafted(source, &give(LIST, numbers)?)?,
        _ => packet_draft(kind, source, numbers)?,
    };
    if draft.too_long {
        return Err(Refusal::Limit);
    }
    let found = read(kind, &draft.bytes)?;
    if alternatives(kind, numbers) != alternatives(kind, found.numbers()) {
        return Err(Refusal::Choice);
    }
    write(&[&draft.bytes], output)
}

/// The bytes of the fields, one after the other; the first offset at fault decides.
fn drafted(source: &[u8], given: &[Given]) -> Answer<Draft> {
    let mut draft = Draft::default();
    given.iter().try_for_each(|one| draft.put(source, *one))?;
    Ok(draft)
}

fn packet_draft(link: u8, source: &[u8], numbers: &[u64]) -> Answer<Draft> {
    let body = usize::try_from(numbers[2]).ok().and_then(|shape| BODIES.get(shape));
    let fields = [&[Byte, Byte, Choice(24)], *body.ok_or(Refusal::Choice)?].concat();
    let given = give(&fields, numbers)?;
    let (opening, opcode) = (numbers[0] as u8, numbers[1] as u8);
    if listed_shape(link, opcode).is_some_and(|listed| !has_shape(listed, numbers[2])) {
        return Err(Refusal::Kind);
    }
    let body = drafted(source, &given[3..])?;
    let mut draft = Draft { bytes: vec![opening], too_long: body.too_long };
    if link != UDP_LINK {
        draft.bytes.extend((1 + body.bytes.len() as u32).to_le_bytes());
    }
    draft.bytes.push(opcode);
    draft.bytes.extend(body.bytes);
    Ok(draft)
}

/// An opcode that has a status has it in both forms.
fn has_shape(listed: Shape, number: u64) -> bool {
    number == listed as u64 || (listed == Shape::Status && number == EXTENDED_STATUS)
}

const EXTENDED_STATUS: u64 = 24;
const NO_HASHES: u64 = 0;
const PART_HASHES: u64 = 1;
const BLOCK_HASHES: u64 = 2;
const COUNTED_HASHES: u64 = 4;

/// The numbers are in the order in which they are returned; the bytes are in that of the layout. What is not there has no numbers.
fn part_draft(source: &[u8], numbers: &[u64]) -> Answer<Draft> {
    let (opening, which) = (numbers[0], numbers[7]);
    if !matches!((opening, which), (0xE0, COUNTED_HASHES) | (0xE1, 0..=3)) {
        return Err(Refusal::Choice);
    }
    let counted = which == COUNTED_HASHES;
    let list = if counted { Hashes } else { PartHashes };
    let fields =
        [Byte, Beside(u32::MAX.into()), Dword, Hash, List(Tags), Choice(4), List(list), List(BlockHashes)];
    let given = give(&fields, numbers)?;
    let [opening, _, date, hash, tags, _, parts, blocks] = given[..] else {
        return Err(Refusal::Choice);
    };
    let absent = |list: Given| list.numbers.iter().all(|number| *number == 0);
    let (no_parts, no_blocks) = (matches!(which, NO_HASHES | BLOCK_HASHES), counted || which < BLOCK_HASHES);
    if (no_parts && !absent(parts)) || (no_blocks && !absent(blocks)) {
        return Err(Refusal::Choice);
    }
    let fixed = |byte| Given { field: Fixed(byte), numbers: &[] };
    if counted {
        return drafted(source, &[opening, date, hash, parts, tags]);
    }
    let mut all = vec![opening, fixed(2), date, hash, tags];
    if matches!(which, PART_HASHES | 3) {
        all.extend([fixed(1), parts]);
    }
    if which >= BLOCK_HASHES {
        all.extend([fixed(1), blocks]);
    }
    all.push(fixed(0));
    drafted(source, &all)
}

/// What decides between messages whose bytes could be the same: shape and form of a packet; the hash lists of a part.met.
fn alternatives(kind: u8, numbers: &[u64]) -> Vec<u64> {
    match kind {
        PART_MET => vec![numbers[7], numbers[10], numbers[13]],
        0..=UDP_LINK if numbers[2] == Shape::StatusRequest as u64 => vec![numbers[2], numbers[3]],
        0..=UDP_LINK => vec![numbers[2]],
        _ => vec![],
    }
}

/// An entry: its fields, and no ceiling.
fn write_entry(source: &[u8], fields: &[Field], numbers: &[u64], output: &mut [u8]) -> Answer<usize> {
    let draft = drafted(source, &give(fields, numbers)?)?;
    if draft.too_long {
        return Err(Refusal::Limit);
    }
    write(&[&draft.bytes], output)
}

pub fn write_address(ip: u32, port: u16, output: &mut [u8]) -> Answer<usize> {
    write_entry(&[], &[Dword, Word], &[ip.into(), port.into()], output)
}

pub fn write_record(
    source: &[u8],
    hash: usize,
    (client, port): (u32, u16),
    (tags_at, tag_count): (usize, u32),
    output: &mut [u8],
) -> Answer<usize> {
    let numbers = [hash as u64, client.into(), port.into(), tags_at as u64, 0, tag_count.into()];
    write_entry(source, &[Hash, Dword, Word, List(Tags)], &numbers, output)
}

pub fn write_file_entry(
    source: &[u8],
    (date, hash): (u32, usize),
    (hashes_at, hash_count): (usize, u32),
    (tags_at, tag_count): (usize, u32),
    output: &mut [u8],
) -> Answer<usize> {
    let hashes = [hashes_at as u64, 0, hash_count.into()];
    let tags = [tags_at as u64, 0, tag_count.into()];
    let numbers = [&[date.into(), hash as u64], &hashes[..], &tags].concat();
    write_entry(source, &[Dword, Hash, List(Hashes), List(Tags)], &numbers, output)
}

pub fn write_server_entry(
    source: &[u8],
    (ip, port): (u32, u16),
    (tags_at, tag_count): (usize, u32),
    output: &mut [u8],
) -> Answer<usize> {
    let numbers = [ip.into(), port.into(), tags_at as u64, 0, tag_count.into()];
    write_entry(source, &[Dword, Word, List(Tags)], &numbers, output)
}
