//! Bytes of packets and files, put together by hand.

use ed2k::Link;

pub const HASH: [u8; 16] = [0xA0, 1, 2, 3, 4, 5, 6, 7, 8, 9, 10, 11, 12, 13, 14, 15];

pub fn word(number: u16) -> Vec<u8> {
    number.to_le_bytes().to_vec()
}

pub fn dword(number: u32) -> Vec<u8> {
    number.to_le_bytes().to_vec()
}

pub fn string(text: &[u8]) -> Vec<u8> {
    [word(text.len() as u16), text.to_vec()].concat()
}

pub fn address(ip: [u8; 4], port: u16) -> Vec<u8> {
    [ip.to_vec(), word(port)].concat()
}

pub fn dword_tag(name: &[u8], number: u32) -> Vec<u8> {
    [vec![3], string(name), dword(number)].concat()
}

pub fn text_tag(name: &[u8], text: &[u8]) -> Vec<u8> {
    [vec![2], string(name), string(text)].concat()
}

/// A tag of each type: name, size, a girth and a hash.
pub fn four_tags() -> Vec<Vec<u8>> {
    vec![
        text_tag(&[0x01], b"left last.stl"),
        dword_tag(&[0x02], 5000),
        [vec![4], string(b"girth"), dword(23.5f32.to_bits())].concat(),
        [vec![1], string(b"twin"), HASH.to_vec()].concat(),
    ]
}

/// A DWORD count and the entries.
pub fn list(entries: &[Vec<u8>]) -> Vec<u8> {
    [dword(entries.len() as u32), entries.concat()].concat()
}

/// A record with client ID 127.0.0.1 and port 4662.
pub fn record(tags: &[Vec<u8>]) -> Vec<u8> {
    [HASH.to_vec(), vec![127, 0, 0, 1], word(4662), list(tags)].concat()
}

/// One side of a query.
pub fn keyword(text: &[u8]) -> Vec<u8> {
    [vec![1], string(text)].concat()
}

/// (last or type is Doc) and not at least 100 bytes.
pub fn query() -> Vec<u8> {
    let field = [vec![2], string(b"Doc"), string(&[0x03])].concat();
    let limit = [vec![3], dword(100), vec![1], string(&[0x02])].concat();
    [vec![0, 2, 0, 1], keyword(b"last"), field, limit].concat()
}

pub fn packet(link: Link, opcode: u8, body: &[u8]) -> Vec<u8> {
    let header = match link {
        Link::Udp => vec![0xE3],
        _ => [vec![0xE3], dword(1 + body.len() as u32)].concat(),
    };
    [&header, &[opcode][..], body].concat()
}

/// A packet for each shape of body, in the order of ed2k.h.
pub fn packet_of_each_shape() -> Vec<(Link, Vec<u8>)> {
    use Link::{Client, Server, Udp};
    let hash = HASH.to_vec();
    let one = || address([80, 10, 10, 3], 4662);
    let two = || [vec![2], one(), address([10, 0, 0, 7], 4672)].concat();
    let tags = || list(&four_tags());
    let bodies: Vec<(Link, u8, Vec<u8>)> = vec![
        (Server, 0x14, vec![]),
        (Server, 0x16, query()),
        (Server, 0x19, hash.clone()),
        (Client, 0x5C, dword(17)),
        (Server, 0x34, [dword(3), dword(5)].concat()),
        (Server, 0x38, string(b"welcome")),
        (Udp, 0xA3, [string(b"server"), string(b"a description")].concat()),
        (Server, 0x35, one()),
        (Server, 0x32, two()),
        (Server, 0x42, [hash.clone(), two()].concat()),
        (Udp, 0x9C, [one(), dword(77)].concat()),
        (Server, 0x41, [hash.clone(), one(), tags()].concat()),
        (Server, 0x01, record(&four_tags())),
        (Server, 0x15, list(&[record(&four_tags()), record(&[])])),
        (Server, 0x33, [list(&[record(&four_tags())]), vec![1]].concat()),
        (Client, 0x4C, [record(&four_tags()), one()].concat()),
        (Client, 0x01, [vec![0x10], record(&four_tags()), one()].concat()),
        (Client, 0x59, [hash.clone(), string(b"left last.stl")].concat()),
        (Client, 0x52, [hash.clone(), word(2), hash.clone(), vec![9; 16]].concat()),
        (Client, 0x46, [hash.clone(), dword(10), dword(14), b"data".to_vec()].concat()),
        (Client, 0x47, [hash.clone(), [10, 20, 30, 15, 25, 30].map(dword).concat()].concat()),
        (Client, 0x50, [hash.clone(), word(9), vec![0b0000_0101, 1]].concat()),
        (Udp, 0x96, vec![1, 2, 0xAA, 0x5A]),
        (Udp, 0x97, [dword(9), dword(3), dword(5)].concat()),
        (Udp, 0x97, [vec![1, 2, 0xAA, 0x5A], dword(3), dword(5), dword(8)].concat()),
    ];
    bodies.into_iter().map(|(link, opcode, body)| (link, packet(link, opcode, &body))).collect()
}

/// The tags of a model of this size with these gaps.
pub fn model_tags(size: u32, gaps: &[(u32, u32)]) -> Vec<Vec<u8>> {
    let mut tags = vec![text_tag(&[0x01], b"left last.stl"), dword_tag(&[0x02], size)];
    for (number, (start, end)) in gaps.iter().enumerate() {
        let name = |first: u8| [vec![first], number.to_string().into_bytes()].concat();
        tags.extend([dword_tag(&name(0x09), *start), dword_tag(&name(0x0A), *end)]);
    }
    tags
}

/// A part.met that opens with E0, with so many part hashes.
pub fn part_met(date: u32, hashes: u16, size: u32, gaps: &[(u32, u32)]) -> Vec<u8> {
    let hashes = [word(hashes), vec![0x5A; 16 * usize::from(hashes)]].concat();
    [vec![0xE0], dword(date), HASH.to_vec(), hashes, list(&model_tags(size, gaps))].concat()
}

/// A part.met that opens with E1 and has both blocks, of a model of 972,800 bytes.
pub fn part_met_with_blocks() -> Vec<u8> {
    let head = [vec![0xE1, 0x02], dword(7), HASH.to_vec(), list(&model_tags(972_800, &[(0, 10)]))].concat();
    [head, vec![1], HASH.to_vec(), vec![1], vec![8; 8], vec![9; 8], vec![0]].concat()
}

/// A known.met of two entries.
pub fn known_met() -> Vec<u8> {
    let entry = |hashes: u16, tags: &[Vec<u8>]| {
        let hashes = [word(hashes), vec![0x5A; 16 * usize::from(hashes)]].concat();
        [dword(1_253_225_404), HASH.to_vec(), hashes, list(tags)].concat()
    };
    [vec![0x0E], list(&[entry(2, &four_tags()), entry(0, &[])])].concat()
}

/// A server.met of one entry, with a tail.
pub fn server_met() -> Vec<u8> {
    let entry = [address([80, 10, 10, 11], 4661), list(&[dword_tag(&[0x0C], 31)])].concat();
    [vec![0x0E], list(&[entry]), b"made by a client".to_vec()].concat()
}
