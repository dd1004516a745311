//! A chosen packet for each way to break each rule, on the links where there is one.

use ed2k::Link::{self, Client, Server, Udp};
use ed2k::{PACKET_CEILING, Rule};

use crate::comparison::Comparison;
use crate::inputs::opcodes;
use crate::packets::{HASH, dword, keyword, list, packet, record, string, word};
use crate::{compare, number_of};

/// Number, rule, offset and size.
pub type Why = (u8, Rule, usize, usize);

pub fn why(comparison: &mut Comparison, link: Link, bytes: &[u8]) -> Option<Why> {
    compare(comparison, number_of(link), bytes)
        .map(|reason| (reason.refusal.number(), reason.rule, reason.offset, reason.size))
}

/// Each packet is refused for its reason.
#[track_caller]
fn assert_refused(cases: &[(Link, Vec<u8>, Why)]) {
    let mut comparison = Comparison::new(0);
    for (link, bytes, expected) in cases {
        let shown = &bytes[..bytes.len().min(80)];
        assert_eq!(why(&mut comparison, *link, bytes), Some(*expected), "{link:?} {shown:02X?}");
    }
}

#[track_caller]
fn assert_accepted(cases: &[(Link, Vec<u8>)]) {
    let mut comparison = Comparison::new(0);
    for (link, bytes) in cases {
        let shown = &bytes[..bytes.len().min(80)];
        assert_eq!(why(&mut comparison, *link, bytes), None, "{link:?} {shown:02X?}");
    }
}

/// A TCP packet with this length in its header.
fn with_length(length: u32, after: &[u8]) -> Vec<u8> {
    [&[0xE3], &length.to_le_bytes()[..], after].concat()
}

#[test]
fn an_opening_byte() {
    for opening in [0x00, 0xC5, 0xD4, 0xE2, 0xE4] {
        let refused = (2, Rule::Opening, 0, 1);
        assert_refused(&[
            (Server, vec![opening], refused),
            (Server, vec![opening, 1, 0, 0, 0, 0x05], refused),
            (Client, vec![opening, 1, 0, 0, 0, 0x4A], refused),
            (Udp, vec![opening], refused),
            (Udp, vec![opening, 0xA2], refused),
        ]);
    }
}

#[test]
fn a_length() {
    for (link, opcode) in [(Server, 0x05), (Client, 0x4A)] {
        let refused = (3, Rule::Length, 1, 4);
        assert_refused(&[
            (link, with_length(0, &[]), refused),
            (link, with_length(0, &[opcode]), refused),
            (link, with_length(1, &[]), refused),
            (link, with_length(1, &[opcode, 0]), refused),
            (link, with_length(2, &[opcode]), refused),
            (link, with_length(0x0100_0001, &[opcode]), refused),
            (link, with_length(u32::MAX, &[opcode]), refused),
        ]);
        assert_accepted(&[(link, with_length(1, &[opcode]))]);
    }
}

/// An opcode that another link lists, and one that none does.
#[test]
fn a_kind() {
    assert_refused(&[
        (Server, packet(Server, 0x46, &HASH), (4, Rule::Kind, 5, 1)),
        (Server, packet(Server, 0x00, &[]), (4, Rule::Kind, 5, 1)),
        (Client, packet(Client, 0x16, &[]), (4, Rule::Kind, 5, 1)),
        (Client, packet(Client, 0xFF, &[1, 2, 3]), (4, Rule::Kind, 5, 1)),
        (Udp, packet(Udp, 0x05, &[]), (4, Rule::Kind, 1, 1)),
        (Udp, packet(Udp, 0xE3, &HASH), (4, Rule::Kind, 1, 1)),
    ]);
}

/// Every opcode that a link does not list, and no other.
#[test]
fn every_kind() {
    let mut comparison = Comparison::new(0);
    for (link, at) in [(Server, 5), (Client, 5), (Udp, 1)] {
        let listed = opcodes(number_of(link));
        for opcode in 0..=255 {
            let is_listed = listed.iter().any(|(other, _)| *other == opcode);
            let reason = why(&mut comparison, link, &packet(link, opcode, &[]));
            assert_eq!(reason == Some((4, Rule::Kind, at, 1)), !is_listed, "{link:?} {opcode:02X}");
        }
    }
}

/// A record with one tag, alone or in a list, on each link that has one; with the offset of the tag.
fn with_tag(tag: &[u8]) -> Vec<(Link, Vec<u8>, usize)> {
    let one = record(&[tag.to_vec()]);
    let listed = list(&[record(&[]), one.clone()]);
    vec![
        (Server, packet(Server, 0x01, &one), 32),
        (Server, packet(Server, 0x41, &one), 32),
        (Server, packet(Server, 0x15, &listed), 62),
        (Server, packet(Server, 0x33, &listed), 62),
        (Client, packet(Client, 0x01, &[&[0x10], &one[..]].concat()), 33),
        (Client, packet(Client, 0x4C, &one), 32),
        (Client, packet(Client, 0x4B, &listed), 62),
        (Udp, packet(Udp, 0x99, &one), 28),
    ]
}

/// The tag's item that begins so many bytes after the tag's first is the faulty one.
#[track_caller]
fn assert_tag_refused(tag: &[u8], number: u8, rule: Rule, after: usize, size: usize) {
    let packets = with_tag(tag).into_iter();
    let cases: Vec<_> =
        packets.map(|(link, bytes, offset)| (link, bytes, (number, rule, offset + after, size))).collect();
    assert_refused(&cases);
}

#[test]
fn a_tag() {
    for kind in [0x00, 0x05, 0x0B, 0x82, 0xFF] {
        assert_tag_refused(&[kind], 5, Rule::Choice, 0, 1);
        assert_tag_refused(&[kind, 1, 0, 2, 7, 7, 7, 7], 5, Rule::Choice, 0, 1);
    }
    for kind in 1..=4 {
        assert_tag_refused(&[kind, 0, 0], 5, Rule::Choice, 1, 2);
        assert_tag_refused(&[kind, 0, 0, 7, 7, 7, 7], 5, Rule::Choice, 1, 2);
        // Whether the bytes of so long a name are there is not asked.
        assert_tag_refused(&[kind, 0, 1], 6, Rule::NameCeiling, 1, 2);
        assert_tag_refused(&[&[kind, 0, 1], &[b'n'; 256][..]].concat(), 6, Rule::NameCeiling, 1, 2);
        assert_tag_refused(&[kind, 0xFF, 0xFF], 6, Rule::NameCeiling, 1, 2);
        // What is missing begins after its WORD, and is as long as that says.
        assert_tag_refused(&[kind, 255, 0, 7], 1, Rule::Short, 3, 255);
    }
    assert_tag_refused(&[2, 1, 0, 1, 0xFF, 0xFF, 7], 1, Rule::Short, 6, 65_535);
}

/// A query on both links that have some; with the offset of its first byte.
fn with_query(query: &[u8]) -> [(Link, Vec<u8>, usize); 3] {
    [
        (Server, packet(Server, 0x16, query), 6),
        (Server, packet(Server, 0x1A, query), 6),
        (Udp, packet(Udp, 0x98, query), 2),
    ]
}

#[track_caller]
fn assert_query_refused(query: &[u8], number: u8, rule: Rule, after: usize, size: usize) {
    let refused =
        with_query(query).map(|(link, bytes, offset)| (link, bytes, (number, rule, offset + after, size)));
    assert_refused(&refused);
}

#[test]
fn a_choice_of_a_query() {
    for byte in [4, 5, 0xFF] {
        assert_query_refused(&[byte, 0, 0], 5, Rule::Choice, 0, 1);
        assert_query_refused(&[&[0, 1], &keyword(b"a")[..], &[byte]].concat(), 5, Rule::Choice, 6, 1);
        assert_query_refused(
            &[&[0, byte], &keyword(b"a")[..], &keyword(b"b")].concat(),
            5,
            Rule::Choice,
            1,
            1,
        );
        assert_query_refused(&[3, 7, 0, 0, 0, byte, 1, 0, 2], 5, Rule::Choice, 5, 1);
    }
    assert_query_refused(&[3, 7, 0, 0, 0, 0, 1, 0, 2], 5, Rule::Choice, 5, 1);
    assert_query_refused(&[0, 3], 5, Rule::Choice, 1, 1);
}

#[test]
fn a_name_of_a_query() {
    let field = [&[2], &string(b"Doc")[..]].concat();
    let limit = [3, 7, 0, 0, 0, 1].to_vec();
    for (leaf, at) in [(field, 6), (limit, 6)] {
        assert_query_refused(&[&leaf[..], &[0, 0]].concat(), 5, Rule::Choice, at, 2);
        assert_query_refused(&[&leaf[..], &[0, 0, 7]].concat(), 5, Rule::Choice, at, 2);
        assert_query_refused(&[&leaf[..], &[0, 1]].concat(), 6, Rule::NameCeiling, at, 2);
        assert_query_refused(&[&leaf[..], &[0, 1], &[7; 256]].concat(), 6, Rule::NameCeiling, at, 2);
        assert_query_refused(&[&leaf[..], &[2, 0, 7]].concat(), 1, Rule::Short, at + 2, 2);
        assert_query_refused(&[&leaf[..], &[255, 0]].concat(), 1, Rule::Short, at + 2, 255);
    }
    assert_query_refused(&[1, 9, 0, 7], 1, Rule::Short, 3, 9);
}

/// As many operators; the query after them would be one deeper.
fn operators(count: usize) -> Vec<u8> {
    [0, 1].repeat(count)
}

/// A query of this depth whose operators have a word on one side.
fn deep_query(depth: usize, word_first: bool) -> Vec<u8> {
    let word = keyword(b"a");
    let side =
        |query: Vec<u8>| if word_first { [&word[..], &query].concat() } else { [&query[..], &word].concat() };
    (1..depth).fold(word.clone(), |query, _| [vec![0, 1], side(query)].concat())
}

#[test]
fn a_depth() {
    let refused = (6, Rule::DepthCeiling);
    for after in [&[][..], &[1, 0, 0], &[9], &[0, 9]] {
        // The input may end where the query would begin.
        let query = [&operators(24), after].concat();
        assert_query_refused(&query, refused.0, refused.1, 48, 0);
    }
    assert_query_refused(&deep_query(25, false), refused.0, refused.1, 48, 0);
    // 23 operators with a word each, and the one whose word would be the query at depth 25.
    assert_query_refused(&deep_query(25, true), refused.0, refused.1, 23 * 6 + 2, 0);
    assert_query_refused(&deep_query(40, true), refused.0, refused.1, 23 * 6 + 2, 0);
    for word_first in [false, true] {
        let deepest = with_query(&deep_query(24, word_first));
        assert_accepted(&deepest.map(|(link, bytes, _)| (link, bytes)));
    }
    // What is before it was judged already.
    assert_query_refused(&[&operators(23)[..], &[0]].concat(), 1, Rule::Short, 47, 1);
    assert_query_refused(&[&operators(23)[..], &[0, 3]].concat(), 5, Rule::Choice, 47, 1);
    assert_query_refused(&operators(23), 1, Rule::Short, 46, 1);
}

#[test]
fn a_fixed_byte() {
    let hello = |byte| packet(Client, 0x01, &[vec![byte], record(&[]), vec![7; 6]].concat());
    let status = |fixed: &[u8], more: usize| packet(Udp, 0x97, &[&[1, 2], fixed, &vec![7; more]].concat());
    for byte in [0x00, 0x01, 0x0F, 0x11, 0xFF] {
        let refused = |offset| (5, Rule::Choice, offset, 1);
        assert_refused(&[
            (Client, hello(byte), refused(6)),
            (Client, packet(Client, 0x01, &[byte]), refused(6)),
            (Udp, status(&[byte], 0), refused(4)),
            (Udp, status(&[byte, 0x5A], 12), refused(4)),
            (Udp, status(&[0xAA, byte], 0), refused(5)),
            (Udp, status(&[0xAA, byte], 12), refused(5)),
            // As long as the plain one and a byte, or but for a byte.
            (Udp, status(&[0xAA, byte], 9), refused(5)),
            (Udp, status(&[byte, 0x5A], 7), refused(4)),
        ]);
    }
    assert_accepted(&[
        (Client, hello(0x10)),
        (Udp, status(&[0xAA, 0x5A], 12)),
        (Udp, status(&[0xAA, 0x5A], 8)),
        (Udp, status(&[0, 0], 8)),
    ]);
}

#[test]
fn a_flag() {
    for flag in [2, 0x80, 0xFF] {
        let none = packet(Server, 0x33, &[list(&[]), vec![flag]].concat());
        let one = packet(Server, 0x33, &[list(&[record(&[])]), vec![flag, 0]].concat());
        assert_refused(&[(Server, none, (5, Rule::Choice, 10, 1)), (Server, one, (5, Rule::Choice, 36, 1))]);
    }
}

/// So many parts and these status bytes.
fn status(parts: u16, bits: &[u8]) -> Vec<u8> {
    packet(Client, 0x50, &[&HASH, &word(parts)[..], bits].concat())
}

#[test]
fn a_status_bit() {
    let refused = |size| (5, Rule::StatusBit, 24, size);
    let last_of_many = [&[0; 1023][..], &[0x80]].concat();
    assert_refused(&[
        (Client, status(1, &[2]), refused(1)),
        (Client, status(7, &[0x80]), refused(1)),
        (Client, status(9, &[0xFF, 3]), refused(2)),
        (Client, status(15, &[0, 0x80]), refused(2)),
        (Client, status(17, &[0xFF, 0xFF, 2]), refused(3)),
        (Client, status(8_191, &last_of_many), refused(1_024)),
        // Bytes left are asked for later, and a missing byte before.
        (Client, status(9, &[0xFF, 3, 0]), refused(2)),
        (Client, status(9, &[0xFF]), (1, Rule::Short, 24, 2)),
        (Client, status(u16::MAX, &[0xFF]), (1, Rule::Short, 24, 8_192)),
        (Client, status(0, &[0xFF]), (7, Rule::Rest, 24, 1)),
        (Client, status(8, &[0xFF, 0xFF]), (7, Rule::Rest, 25, 1)),
    ]);
    assert_accepted(&[
        (Client, status(0, &[])),
        (Client, status(8, &[0xFF])),
        (Client, status(9, &[0xFF, 1])),
        (Client, status(15, &[0xFF, 0x7F])),
    ]);
}

/// The bytes of a file from start up to end.
fn part(start: u32, end: u32, data: &[u8]) -> Vec<u8> {
    packet(Client, 0x46, &[&HASH, &dword(start)[..], &dword(end), data].concat())
}

#[test]
fn a_range_and_its_data() {
    let (order, data) = ((8, Rule::Order, 22, 8), (8, Rule::Data, 22, 8));
    assert_refused(&[
        (Client, part(1, 0, &[]), order),
        (Client, part(1, 0, &[7]), order),
        (Client, part(u32::MAX, 0, &[7]), order),
        (Client, part(0x0100_0000, 0x00FF_FFFF, &[7; 300]), order),
        (Client, part(10, 14, b"dat"), data),
        (Client, part(10, 14, b""), data),
        (Client, part(10, 14, b"data."), data),
        (Client, part(10, 10, b"d"), data),
        (Client, part(0, u32::MAX, b"data"), data),
    ]);
    assert_accepted(&[
        (Client, part(10, 14, b"data")),
        (Client, part(10, 10, b"")),
        (Client, part(u32::MAX, u32::MAX, b"")),
    ]);
}

/// Three starts and three ends.
fn parts(numbers: [u32; 6]) -> Vec<u8> {
    packet(Client, 0x47, &[&HASH, &numbers.map(dword).concat()[..]].concat())
}

#[test]
fn three_ranges() {
    let order = (8, Rule::Order, 22, 24);
    assert_refused(&[
        (Client, parts([2, 0, 0, 1, 0, 0]), order),
        (Client, parts([0, 2, 0, 0, 1, 0]), order),
        (Client, parts([0, 0, 2, 0, 0, 1]), order),
        (Client, parts([9, 9, u32::MAX, 9, 9, 0]), order),
        (Client, parts([1, 1, 1, 0, 0, 0]), order),
        // Bytes left are asked for later.
        (Client, packet(Client, 0x47, &[&HASH, &parts([0, 2, 0, 0, 1, 0])[22..], &[7]].concat()), order),
        (Client, packet(Client, 0x47, &[&HASH, &[0; 24][..], &[7]].concat()), (7, Rule::Rest, 46, 1)),
    ]);
    assert_accepted(&[(Client, parts([1, 2, 3, 1, 2, 3])), (Client, parts([0, 5, 0, 1, 6, 1]))]);
}

#[test]
fn bytes_that_are_left() {
    for more in [1, 2, 1_000] {
        let more = vec![0xE3; more];
        assert_refused(&[
            (Server, packet(Server, 0x05, &more), (7, Rule::Rest, 6, 1)),
            (Server, packet(Server, 0x19, &[&HASH, &more[..]].concat()), (7, Rule::Rest, 22, 1)),
            (Client, packet(Client, 0x4A, &more), (7, Rule::Rest, 6, 1)),
            (Udp, packet(Udp, 0xA2, &more), (7, Rule::Rest, 2, 1)),
            (Udp, packet(Udp, 0x96, &[&[1, 2, 3, 4], &more[..]].concat()), (7, Rule::Rest, 6, 1)),
        ]);
    }
}

/// The ceiling is asked for before anything of the packet is.
#[test]
fn the_byte_ceiling() {
    let ceiling = |length| (6, Rule::ByteCeiling, 0, length);
    for length in [PACKET_CEILING + 1, PACKET_CEILING + 2, 2 * PACKET_CEILING] {
        let text = vec![b'x'; length];
        assert_refused(&[
            (Server, vec![0; length], ceiling(length)),
            (Client, part(0, length as u32 - 30, &text[30..]), ceiling(length)),
            (Udp, vec![0xE3; length], ceiling(length)),
        ]);
    }
    assert_refused(&[
        (Server, vec![0; PACKET_CEILING], (2, Rule::Opening, 0, 1)),
        (Client, vec![0xE3; PACKET_CEILING], (3, Rule::Length, 1, 4)),
        (Udp, vec![0xE3; PACKET_CEILING], (4, Rule::Kind, 1, 1)),
    ]);
    assert_accepted(&[(Client, part(7, PACKET_CEILING as u32 - 23, &vec![7; PACKET_CEILING - 30]))]);
}
