//! Packets in words.

use std::io;

use ed2k::{Addresses, Body, Hash, Link, Packet, PartStatus, Record, Records};

use super::sheet::Sheet;
use super::{met, names, query, tags};
use crate::text;

/// What records are of.
#[derive(Clone, Copy)]
pub enum Subject {
    File,
    Client,
}

impl Subject {
    /// A server's 01 and 43 and a client's 01 and 4C describe clients, all other records files.
    pub fn of(link: Link, opcode: u8) -> Subject {
        match (link, opcode) {
            (Link::Server, 0x01 | 0x43) | (Link::Client, 0x01 | 0x4C) => Subject::Client,
            _ => Subject::File,
        }
    }

    pub fn info(self) -> &'static str {
        match self {
            Subject::File => "File info",
            Subject::Client => "Client info",
        }
    }

    /// The name of a list of such records.
    pub fn list(self) -> &'static str {
        match self {
            Subject::File => "File info list",
            Subject::Client => "Client info list",
        }
    }

    /// The name of a record's hash.
    pub fn hash(self) -> &'static str {
        match self {
            Subject::File => names::FILE_HASH,
            Subject::Client => names::CLIENT_HASH,
        }
    }
}

pub fn show(sheet: &mut Sheet<'_>, link: Link, packet: &Packet<'_>, length: usize) -> io::Result<()> {
    opening(sheet, packet.opening)?;
    if link != Link::Udp {
        data_length(sheet, length as u64 - 5)?;
    }
    opcode(sheet, link, packet.opcode)?;
    body(sheet, packet, Subject::of(link, packet.opcode))
}

pub fn opening(sheet: &mut Sheet<'_>, byte: u8) -> io::Result<()> {
    sheet.item(1, names::PROTOCOL, format!("({byte:02X}) eDonkey"))
}

pub fn data_length(sheet: &mut Sheet<'_>, length: u64) -> io::Result<()> {
    sheet.item(4, names::DATA_LENGTH, format!("{} after the header", text::bytes(length)))
}

pub fn opcode(sheet: &mut Sheet<'_>, link: Link, opcode: u8) -> io::Result<()> {
    let name = ed2k::opcode_name(link, opcode).unwrap_or("no published name");
    sheet.item(1, names::OPCODE, format!("({opcode:02X}) {name}"))
}

fn body(sheet: &mut Sheet<'_>, packet: &Packet<'_>, subject: Subject) -> io::Result<()> {
    match &packet.body {
        Body::Nothing => Ok(()),
        Body::Query(query) => query::show(sheet, query),
        Body::Hash(hash) => sheet.hash(names::FILE_HASH, *hash),
        Body::Dword(rank) if packet.opcode == 0x5C => sheet.number(names::RANK, *rank),
        Body::Dword(id) => sheet.client_id(names::CLIENT_ID, *id),
        Body::TwoDwords(old, new) if packet.opcode == 0x4D => {
            sheet.client_id(names::OLD_CLIENT_ID, *old)?;
            sheet.client_id(names::NEW_CLIENT_ID, *new)
        }
        Body::TwoDwords(nusers, nfiles) => {
            users(sheet, *nusers)?;
            files(sheet, *nfiles)
        }
        Body::Text(text) => sheet.text(names::STRING, text),
        Body::TwoTexts(name, description) => {
            sheet.text(names::SERVER_NAME, name)?;
            sheet.text(names::SERVER_DESCRIPTION, description)
        }
        Body::Address(address) => sheet.address(names::CLIENT_ADDRESS, *address),
        Body::Addresses(list) => addresses(sheet, list),
        Body::HashAddresses { hash, addresses: list } => {
            sheet.hash(names::FILE_HASH, *hash)?;
            addresses(sheet, list)
        }
        Body::AddressDword { address, number } => {
            sheet.address(names::ADDRESS, *address)?;
            sheet.client_id(names::CLIENT_ID, *number)
        }
        Body::HashAddressTags { hash, address, tags: list } => {
            sheet.hash(names::SERVER_HASH, *hash)?;
            sheet.address(names::SERVER_ADDRESS, *address)?;
            tags::show(sheet, list.clone())
        }
        Body::Record(one) => record(sheet, one, subject),
        Body::Records(list) => records(sheet, list, subject),
        Body::RecordsFlag { records: list, flag } => {
            records(sheet, list, subject)?;
            more(sheet, *flag)
        }
        Body::RecordAddress { record: one, address } => {
            record(sheet, one, subject)?;
            sheet.address(names::SERVER_ADDRESS, *address)
        }
        Body::Hello { record: one, address } => {
            hello_byte(sheet)?;
            record(sheet, one, subject)?;
            sheet.address(names::SERVER_ADDRESS, *address)
        }
        Body::HashText { hash, text } => {
            sheet.hash(names::FILE_HASH, *hash)?;
            sheet.text(names::FILE_NAME, text)
        }
        Body::Hashset { hash, hashes } => {
            sheet.hash(names::FILE_HASH, *hash)?;
            met::counted_hashes(sheet, hashes.clone())
        }
        Body::SendingPart { hash, start, end, data: bytes } => {
            sheet.hash(names::FILE_HASH, *hash)?;
            sheet.number(names::START, *start)?;
            sheet.number(names::END, *end)?;
            data(sheet, bytes)
        }
        Body::RequestParts { hash, starts, ends } => request_parts(sheet, *hash, starts, ends),
        Body::FileStatus { hash, status } => {
            sheet.hash(names::FILE_HASH, *hash)?;
            part_count(sheet, status.parts)?;
            sheet.within(|sheet| parts_held(sheet, status))
        }
        Body::StatusRequest { extended, number } => status_request(sheet, *extended, *number),
        Body::Status([request, nusers, nfiles]) => {
            repeated_request(sheet, *request)?;
            users(sheet, *nusers)?;
            files(sheet, *nfiles)
        }
        Body::ExtendedStatus { bytes, numbers: [nusers, nfiles, most] } => {
            bytes.iter().try_for_each(|byte| extension_byte(sheet, *byte))?;
            extension_mark(sheet)?;
            users(sheet, *nusers)?;
            files(sheet, *nfiles)?;
            users_max(sheet, *most)
        }
        _ => unworded_body(sheet),
    }
}

/// What is said of a body that came later than this.
pub fn unworded_body(sheet: &mut Sheet<'_>) -> io::Result<()> {
    sheet.head("a body that this command has no words for")
}

/// The byte that a client's hello begins with.
pub fn hello_byte(sheet: &mut Sheet<'_>) -> io::Result<()> {
    sheet.item(1, names::FIXED_BYTE, "(10)")
}

pub fn status_request(sheet: &mut Sheet<'_>, extended: bool, number: u32) -> io::Result<()> {
    if !extended {
        return sheet.number(names::DWORD, number);
    }
    number.to_le_bytes()[..2].iter().try_for_each(|byte| extension_byte(sheet, *byte))?;
    extension_mark(sheet)
}

/// The number of a plain request, in its answer.
pub fn repeated_request(sheet: &mut Sheet<'_>, number: u32) -> io::Result<()> {
    sheet.item(4, names::DWORD, format!("{} (as in the request)", text::grouped(number.into())))
}

/// One of the two bytes of an extended request, which its answer repeats.
pub fn extension_byte(sheet: &mut Sheet<'_>, byte: u8) -> io::Result<()> {
    sheet.item(1, names::BYTE, format!("({byte:02X})"))
}

/// The bytes that distinguish an extended request or status from a plain one.
pub fn extension_mark(sheet: &mut Sheet<'_>) -> io::Result<()> {
    sheet.item(2, names::FIXED_BYTES, "(AA 5A) extension")
}

/// How many users a server has.
pub fn users(sheet: &mut Sheet<'_>, number: u32) -> io::Result<()> {
    sheet.item(4, names::USERS, users_of(number))
}

/// How many files a server has.
pub fn files(sheet: &mut Sheet<'_>, number: u32) -> io::Result<()> {
    sheet.item(4, names::FILES, text::count(number as usize, "file", "files"))
}

/// How many users a server may have.
pub fn users_max(sheet: &mut Sheet<'_>, number: u32) -> io::Result<()> {
    sheet.item(4, names::USERS_MAX, format!("{} at most", users_of(number)))
}

fn users_of(number: u32) -> String {
    text::count(number as usize, "user", "users")
}

fn addresses(sheet: &mut Sheet<'_>, list: &Addresses<'_>) -> io::Result<()> {
    address_count(sheet, list.len())?;
    sheet.within(|sheet| list.clone().try_for_each(|address| sheet.address(names::ADDRESS, address)))
}

pub fn address_count(sheet: &mut Sheet<'_>, count: usize) -> io::Result<()> {
    sheet.item(1, names::ADDRESS_LIST, text::count(count, "address", "addresses"))
}

fn record(sheet: &mut Sheet<'_>, record: &Record<'_>, subject: Subject) -> io::Result<()> {
    sheet.hash(subject.hash(), record.hash)?;
    sheet.client_id(names::CLIENT_ID, record.client)?;
    port(sheet, record.port)?;
    tags::show(sheet, record.tags.clone())
}

pub fn port(sheet: &mut Sheet<'_>, port: u16) -> io::Result<()> {
    sheet.item(2, names::PORT, port)
}

fn records(sheet: &mut Sheet<'_>, list: &Records<'_>, subject: Subject) -> io::Result<()> {
    record_count(sheet, list.len(), subject)?;
    for (index, entry) in list.clone().enumerate() {
        sheet.head(&format!("{} {}", subject.info(), index + 1))?;
        sheet.within(|sheet| record(sheet, &entry, subject))?;
    }
    Ok(())
}

pub fn record_count(sheet: &mut Sheet<'_>, count: usize, subject: Subject) -> io::Result<()> {
    sheet.item(4, subject.list(), text::count(count, "entry", "entries"))
}

/// Whether there are more records than those that were sent.
pub fn more(sheet: &mut Sheet<'_>, flag: u8) -> io::Result<()> {
    let more = if flag == 1 { "there are more" } else { "these are all" };
    sheet.item(1, names::MORE, format!("({flag:02X}) {more}"))
}

pub fn data(sheet: &mut Sheet<'_>, data: &[u8]) -> io::Result<()> {
    sheet.item(data.len(), names::DATA, format!("{}: {}", text::bytes(data.len() as u64), text::hex(data)))
}

fn request_parts(sheet: &mut Sheet<'_>, hash: Hash, starts: &[u32; 3], ends: &[u32; 3]) -> io::Result<()> {
    sheet.hash(names::FILE_HASH, hash)?;
    for (index, start) in starts.iter().enumerate() {
        sheet.number(&of_range(names::START, index), *start)?;
    }
    for (index, (start, end)) in starts.iter().zip(ends).enumerate() {
        asked_end(sheet, index, *start, *end)?;
    }
    Ok(())
}

/// The name of a start or an end of one of several ranges.
pub fn of_range(name: &str, index: usize) -> String {
    format!("{name} {}", index + 1)
}

/// Where a range ends that is asked for. It may be one that is refused for its order.
pub fn asked_end(sheet: &mut Sheet<'_>, index: usize, start: u32, end: u32) -> io::Result<()> {
    let asked = match end.checked_sub(start) {
        Some(length) => format!("asks for {} bytes", text::grouped(length.into())),
        None => "below its start".into(),
    };
    let value = format!("{}, {asked}", text::grouped(end.into()));
    sheet.item(4, &of_range(names::END, index), value)
}

pub fn part_count(sheet: &mut Sheet<'_>, parts: u16) -> io::Result<()> {
    sheet.item(2, names::PART_STATUS_LIST, text::count(parts.into(), "part", "parts"))
}

pub fn parts_held(sheet: &mut Sheet<'_>, status: &PartStatus<'_>) -> io::Result<()> {
    sheet.item(status.bits.len(), names::PARTS_HELD, held(status))
}

/// The parts that are held, counted from 1, as runs.
fn held(status: &PartStatus<'_>) -> String {
    let mut runs: Vec<(u16, u16)> = Vec::new();
    for part in (0..status.parts).filter(|part| status.has(*part)) {
        match runs.last_mut() {
            Some((_, last)) if *last == part => *last = part + 1,
            _ => runs.push((part + 1, part + 1)),
        }
    }
    let shown = |(first, last): &(u16, u16)| match last - first {
        0 => first.to_string(),
        _ => format!("{first} to {last}"),
    };
    match runs[..] {
        [] => "none".into(),
        [(1, last)] if last == status.parts => "all".into(),
        _ => runs.iter().map(shown).collect::<Vec<_>>().join(", "),
    }
}
