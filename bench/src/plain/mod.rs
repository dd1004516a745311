//! The plain side: the calls that are measured, in safe Rust written for speed. It keeps what
//! `ed2k.h` promises of the archive: no allocation, no state, nothing changed by a refusal.
//! `agreement` holds its answers to those of the archive.
#![forbid(unsafe_code)]

mod cursor;
mod gaps;
mod merging;
mod met;
mod packets;
mod part;
mod query;
mod saving;
mod tags;

pub use crate::reference::{
    Answer, Calls, FIELDS, GAP_CEILING, GAP_NUMBERS, Item, KNOWN_MET, LONE_QUERY, LONE_TAGS,
    MET_CEILING, OfThree, PACKET_CEILING, PART_MET, QUERY_DEPTH, Refusal, SERVER_MET, UDP_LINK,
    WHY_NUMBERS,
};

use crate::reference::{self, CLIENT_LINK, Reason, Rule, SERVER_LINK};

/// Calls that no line measures are those of the tests.
pub const PLAIN: Calls = Calls {
    read,
    why,
    read_gaps: |file, record| number(part::read_gaps(file, record)),
    mark: |record, start, end, missing| leave(gaps::mark(record, start, end), missing),
    put_gaps: |file, record, output, written| leave(part::put_gaps(file, record, output), written),
    save: |stored, opened, saved, output, written| {
        leave(saving::save(stored, opened, saved, output), written)
    },
    save_strict: |stored, opened, saved, output, written| {
        leave(saving::save_strict(stored, opened, saved, output), written)
    },
    merge: |opened, first, second, output, written| {
        leave(merging::merge(opened, first, second, output), written)
    },
    truth: |query, tags, truth| leave(query::truth(query, tags).map(u8::from), truth),
    ..reference::PLAIN
};

/// The numbers that a reading returns; those that it does not use are 0.
type Fields = [u64; FIELDS];

/// Room for the fields is asked for last.
fn read(kind: u8, bytes: &[u8], lent: &mut [u64]) -> u8 {
    let mut fields = [0; FIELDS];
    let answer = match kind {
        SERVER_LINK => packets::server_link(bytes, &mut fields),
        CLIENT_LINK => packets::client_link(bytes, &mut fields),
        UDP_LINK => packets::udp_link(bytes, &mut fields),
        KNOWN_MET => met::known_met(bytes, &mut fields),
        SERVER_MET => met::server_met(bytes, &mut fields),
        PART_MET => part::part_met(bytes, &mut fields),
        LONE_QUERY => query::lone_query(bytes, &mut fields),
        LONE_TAGS => tags::lone_tags(bytes, &mut fields),
        _ => Err(Refusal::Kind),
    };
    number(answer.and_then(|()| {
        *lent.first_chunk_mut().ok_or(Refusal::Room)? = fields;
        Ok(())
    }))
}

/// Bytes left after a UDP packet, as a line measures them, are found by the walk that reads. All else
/// is found as in the tests.
fn why(kind: u8, bytes: &[u8], lent: &mut [u64]) -> u8 {
    let end = if kind == UDP_LINK { packets::udp_end(bytes).ok() } else { None };
    match (end, lent.first_chunk_mut()) {
        (Some(offset), Some(numbers)) if offset < bytes.len() => {
            *numbers = Reason { rule: Rule::Rest, offset, size: 1 }.numbers();
            0
        }
        _ => (reference::PLAIN.why)(kind, bytes, lent),
    }
}

fn number(answer: Answer<()>) -> u8 {
    answer.map_or_else(|refusal| refusal as u8, |()| 0)
}

/// What a call returns through a pointer is 0 after a refusal.
fn leave<T: Default>(answer: Answer<T>, lent: &mut T) -> u8 {
    let (number, value) = match answer {
        Ok(value) => (0, value),
        Err(refusal) => (refusal as u8, T::default()),
    };
    *lent = value;
    number
}

fn within(bytes: &[u8], ceiling: usize) -> Answer<()> {
    if bytes.len() <= ceiling { Ok(()) } else { Err(Refusal::Limit) }
}
