//! Reading messages.

use super::{Messages, Work, made, random};
use crate::files;
use crate::inputs::{self, Random};
use crate::plain::{
    FIELDS, KNOWN_MET, LONE_QUERY, LONE_TAGS, PACKET_CEILING, PLAIN, SERVER_MET, UDP_LINK,
};

const PACKETS: usize = 100_000;
const LEAVES: usize = 2_900;

pub const LINES: &[fn() -> Work] = &[
    || known_met(1 << 20),
    client_known_met,
    server_met,
    tag_lists,
    tag_lists_again,
    packets,
    reasons,
    long_query,
];

/// Reads messages of the kind, one after the other.
pub fn reading(name: String, kind: u8, messages: Messages) -> Work {
    let (count, amount) = (messages.count(), messages.bytes.len());
    let work = Work::new(name, count, move |calls, index, lent| {
        (calls.read)(kind, messages.at(index), &mut lent.fields)
    });
    work.of_bytes(amount)
}

pub fn known_met(length: usize) -> Work {
    let files = made(length, |random| inputs::grown(random, KNOWN_MET, length));
    reading(format!("known.met of {} KiB", length >> 10), KNOWN_MET, files.collect())
}

/// Its tags come in the same order in each entry, where those above come in any.
fn client_known_met() -> Work {
    let length = 1 << 20;
    let files = made(length, |random| inputs::client_known_met(random, length));
    reading("known.met of 1024 KiB as aMule writes it".into(), KNOWN_MET, files.collect())
}

fn server_met() -> Work {
    let length = 1 << 20;
    let files = made(length, |random| inputs::grown(random, SERVER_MET, length));
    reading("server.met of 1024 KiB".into(), SERVER_MET, files.collect())
}

fn lists() -> impl Iterator<Item = Vec<u8>> {
    made(PACKET_CEILING, |random| inputs::grown(random, LONE_TAGS, PACKET_CEILING))
}

fn tag_lists() -> Work {
    let count = |list: Vec<u8>| u32::from_le_bytes([list[0], list[1], list[2], list[3]]);
    let fewest = lists().map(count).min().unwrap_or_default();
    reading(format!("tag lists of {fewest} tags and more"), LONE_TAGS, lists().collect())
}

fn tag_lists_again() -> Work {
    let lists = lists().take((1 << 20) / PACKET_CEILING);
    reading("1 MiB of them read over and over".into(), LONE_TAGS, lists.collect())
}

fn link_of(index: usize) -> u8 {
    (index % usize::from(UDP_LINK + 1)) as u8
}

/// Packets of the three links, all opcodes.
fn packets() -> Work {
    let mut random = random();
    let packets = (0..PACKETS).map(|index| lawful_packet(&mut random, link_of(index)));
    let packets: Messages = packets.collect();
    Work::new(format!("mix of {PACKETS} packets"), PACKETS, move |calls, index, lent| {
        (calls.read)(link_of(index), packets.at(index), &mut lent.fields)
    })
}

/// Some that are made have a status bit set that is not used.
fn lawful_packet(random: &mut Random, link: u8) -> Vec<u8> {
    loop {
        let packet = inputs::packet(random, link);
        if (PLAIN.read)(link, &packet, &mut [0; FIELDS]) == 0 {
            return packet;
        }
    }
}

/// Records with many tags, each with a byte left after it.
fn reasons() -> Work {
    let packets = made(PACKET_CEILING, |random| {
        let mut packet = inputs::grown(random, UDP_LINK, PACKET_CEILING - 1);
        packet.push(0);
        packet
    });
    let packets: Messages = packets.collect();
    let (count, amount) = (packets.count(), packets.bytes.len());
    let work = Work::new("why of 64 KiB with a byte left", count, move |calls, index, lent| {
        (calls.why)(UDP_LINK, packets.at(index), &mut lent.fields)
    });
    work.of_bytes(amount)
}

fn long_query() -> Work {
    let queries = made(PACKET_CEILING, |random| {
        let mut query = Vec::new();
        files::leaves_query(random, LEAVES, &mut query);
        assert!((48 << 10..=PACKET_CEILING).contains(&query.len()), "the query is long");
        query
    });
    reading(format!("query of {LEAVES} leaves"), LONE_QUERY, queries.collect())
}
