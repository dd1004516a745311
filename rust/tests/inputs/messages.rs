//! Packets, queries and tag lists.

use super::Random;

/// The bodies of a link's opcodes, an item to a letter: h HASH, d DWORD, w WORD, s String, t tag list, R record list, A address
/// list, H hash list, q query, f flag, m the byte 10, P range and data, X six ordered numbers, S status, E and U those of UDP.
pub type Opcodes = &'static [(u8, &'static str)];

pub const SERVER_OPCODES: Opcodes = &[
    (0x05, ""),
    (0x14, ""),
    (0x18, ""),
    (0x21, ""),
    (0x16, "q"),
    (0x1A, "q"),
    (0x19, "h"),
    (0x1C, "d"),
    (0x36, "d"),
    (0x40, "d"),
    (0x34, "dd"),
    (0x38, "s"),
    (0x35, "dw"),
    (0x32, "A"),
    (0x42, "hA"),
    (0x01, "hdwt"),
    (0x15, "R"),
    (0x43, "R"),
    (0x33, "Rf"),
    (0x41, "hdwt"),
];

pub const CLIENT_OPCODES: Opcodes = &[
    (0x4A, ""),
    (0x55, ""),
    (0x56, ""),
    (0x57, ""),
    (0x48, "h"),
    (0x49, "h"),
    (0x4F, "h"),
    (0x51, "h"),
    (0x54, "h"),
    (0x58, "h"),
    (0x01, "mhdwtdw"),
    (0x4C, "hdwtdw"),
    (0x5C, "d"),
    (0x4D, "dd"),
    (0x4E, "s"),
    (0x59, "hs"),
    (0x4B, "R"),
    (0x52, "hH"),
    (0x46, "hP"),
    (0x47, "hX"),
    (0x50, "hS"),
];

pub const UDP_OPCODES: Opcodes = &[
    (0xA2, ""),
    (0xA4, ""),
    (0x9A, "h"),
    (0x98, "q"),
    (0x99, "hdwt"),
    (0x9B, "hA"),
    (0x9C, "dwd"),
    (0x9E, "d"),
    (0xA1, "A"),
    (0xA3, "ss"),
    (0x96, "E"),
    (0x97, "U"),
];

pub fn opcodes(link: u8) -> Opcodes {
    [SERVER_OPCODES, CLIENT_OPCODES, UDP_OPCODES][usize::from(link)]
}

/// A packet of a link, framed.
pub fn packet(random: &mut Random, link: u8) -> Vec<u8> {
    let (opcode, _) = random.pick(opcodes(link));
    packet_of(random, link, opcode)
}

/// A packet with this opcode; one that is not listed has an empty body.
pub fn packet_of(random: &mut Random, link: u8, opcode: u8) -> Vec<u8> {
    let listed = opcodes(link).iter().find(|(listed, _)| *listed == opcode);
    let layout = listed.map_or("", |(_, layout)| layout);
    let mut data = vec![opcode];
    for letter in layout.chars() {
        item(random, letter, &mut data);
    }
    framed(link, &data)
}

pub fn framed(link: u8, data: &[u8]) -> Vec<u8> {
    let mut packet = vec![0xE3];
    if link < 2 {
        packet.extend((data.len() as u32).to_le_bytes());
    }
    packet.extend(data);
    packet
}

fn item(random: &mut Random, letter: char, out: &mut Vec<u8>) {
    match letter {
        'h' => out.extend(random.bytes(16)),
        'd' => out.extend(random.dword().to_le_bytes()),
        'w' => out.extend(random.bytes(2)),
        's' => string(random, out),
        't' => tag_list(random, out),
        'R' => record_list(random, out),
        'A' => address_list(random, out),
        'H' => hash_list(random, out),
        'q' => {
            let depth = random.within(1, 6);
            query(random, depth, out);
        }
        'f' => out.push(random.pick(&[0, 1])),
        'm' => out.push(0x10),
        'P' => range_and_data(random, out),
        'X' => six_numbers(random, out),
        'S' => status(random, out),
        'E' => status_request(random, out),
        'U' => server_status(random, out),
        _ => unreachable!("no item has this letter"),
    }
}

/// Letters from a small set, so that texts and names meet one another.
pub fn text(random: &mut Random) -> Vec<u8> {
    let longest = random.pick(&[0, 1, 3, 3, 8, 40]);
    let length = random.within(0, longest);
    (0..length).map(|_| random.pick(b"abc")).collect()
}

pub fn string(random: &mut Random, out: &mut Vec<u8>) {
    let text = text(random);
    counted(&text, out);
}

pub fn counted(bytes: &[u8], out: &mut Vec<u8>) {
    out.extend((bytes.len() as u16).to_le_bytes());
    out.extend(bytes);
}

pub fn name(random: &mut Random) -> Vec<u8> {
    match random.below(20) {
        0 => vec![b'n'; 255],
        1..=3 => {
            let length = random.within(2, 9);
            (0..length).map(|_| random.pick(b"abc")).collect()
        }
        4 => vec![random.byte()],
        _ => vec![random.pick(&[1, 1, 2, 3, 4, 0x15, 0x19])],
    }
}

/// What a tag carries after its name.
pub fn tag_of(kind: u8, name: &[u8], random: &mut Random, out: &mut Vec<u8>) {
    out.push(kind);
    counted(name, out);
    match kind {
        1 => out.extend(random.bytes(16)),
        2 => string(random, out),
        _ => out.extend(random.dword().to_le_bytes()),
    }
}

pub fn tag(random: &mut Random, out: &mut Vec<u8>) {
    let kind = random.pick(&[1, 2, 2, 2, 3, 3, 4]);
    let name = name(random);
    tag_of(kind, &name, random, out);
}

/// Mostly a few, seldom many.
fn count(random: &mut Random) -> usize {
    match random.below(30) {
        0 => random.within(10, 200),
        _ => random.below(6),
    }
}

pub fn tag_list(random: &mut Random, out: &mut Vec<u8>) {
    let count = count(random);
    tags(random, count, out);
}

pub fn tags(random: &mut Random, count: usize, out: &mut Vec<u8>) {
    out.extend((count as u32).to_le_bytes());
    for _ in 0..count {
        tag(random, out);
    }
}

fn record_list(random: &mut Random, out: &mut Vec<u8>) {
    let count = count(random);
    out.extend((count as u32).to_le_bytes());
    for _ in 0..count {
        record(random, out);
    }
}

pub fn record(random: &mut Random, out: &mut Vec<u8>) {
    out.extend(random.bytes(22));
    tag_list(random, out);
}

fn address_list(random: &mut Random, out: &mut Vec<u8>) {
    let count = random.pick(&[0, 1, 2, 5, 254, 255]);
    out.push(count as u8);
    out.extend(random.bytes(6 * count));
}

fn hash_list(random: &mut Random, out: &mut Vec<u8>) {
    let count = random.pick(&[0, 1, 2, 20, 300]);
    out.extend((count as u16).to_le_bytes());
    out.extend(random.bytes(16 * count));
}

fn range_and_data(random: &mut Random, out: &mut Vec<u8>) {
    let length = random.pick(&[0, 1, 10, 500]);
    let start = random.dword().min(u32::MAX - length);
    let end = start + length;
    out.extend(start.to_le_bytes());
    out.extend(end.to_le_bytes());
    out.extend(random.bytes(length as usize));
}

fn six_numbers(random: &mut Random, out: &mut Vec<u8>) {
    let mut pairs = [[random.dword(), random.dword()], [random.dword(); 2], [0, random.dword()]];
    pairs.iter_mut().for_each(|pair| pair.sort());
    for side in [0, 1] {
        pairs.iter().for_each(|pair| out.extend(pair[side].to_le_bytes()));
    }
}

/// Seldom with an unused bit set.
fn status(random: &mut Random, out: &mut Vec<u8>) {
    let parts = random.pick(&[0, 1, 7, 8, 9, 15, 16, 17, 442]);
    out.extend((parts as u16).to_le_bytes());
    let mut bits = random.bytes(parts / 8);
    if !parts.is_multiple_of(8) {
        let unused = if random.once_in(8) { 0xFF } else { 0 };
        bits.push(random.byte() & (((1 << (parts % 8)) - 1) | unused));
    }
    out.extend(bits);
}

fn status_request(random: &mut Random, out: &mut Vec<u8>) {
    out.extend(random.bytes(2));
    let extended = random.once_in(2);
    out.extend(if extended { vec![0xAA, 0x5A] } else { random.bytes(2) });
}

fn server_status(random: &mut Random, out: &mut Vec<u8>) {
    if random.once_in(2) {
        out.extend(random.bytes(2));
        out.extend([0xAA, 0x5A]);
    }
    out.extend(random.bytes(12));
}

pub fn leaf(random: &mut Random, out: &mut Vec<u8>) {
    let kind = random.within(1, 3) as u8;
    out.push(kind);
    match kind {
        1 => string(random, out),
        2 => {
            string(random, out);
            counted(&name(random), out);
        }
        _ => {
            out.extend(random.dword().to_le_bytes());
            out.push(random.pick(&[1, 2]));
            counted(&name(random), out);
        }
    }
}

/// A query of just this depth: one of its sides has it, the other is at most 3 deep.
pub fn query(random: &mut Random, depth: usize, out: &mut Vec<u8>) {
    if depth <= 1 {
        return leaf(random, out);
    }
    out.extend([0, random.pick(&[0, 1, 2])]);
    let other = random.within(1, (depth - 1).min(3));
    let (left, right) = if random.once_in(2) { (depth - 1, other) } else { (other, depth - 1) };
    query(random, left, out);
    query(random, right, out);
}
