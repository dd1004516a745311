//! Messages of a wanted length.

use super::Random;
use super::messages::{counted, framed, tag, text};
use super::met::{Gaps, client_entry, file_entry, lawful_part_tags, server_entry};

/// A message of the kind that is about as long as wanted, and often just as long.
pub fn grown(random: &mut Random, kind: u8, length: usize) -> Vec<u8> {
    match kind {
        0 | 1 => long_packet(random, kind, length),
        2 => long_udp_packet(random, length),
        3 => long_met(random, length, file_entry),
        4 => long_met(random, length, server_entry),
        5 => long_part_met(random, length),
        6 => long_query(random, length),
        _ => long_tags(random, length),
    }
}

/// Entries up to the one that does not fit: how many.
fn fill(random: &mut Random, out: &mut Vec<u8>, length: usize, entry: fn(&mut Random, &mut Vec<u8>)) -> u32 {
    let mut count = 0;
    while out.len() < length {
        let end = out.len();
        entry(random, out);
        count += 1;
        if out.len() > length {
            out.truncate(end);
            return count - 1;
        }
    }
    count
}

/// A tag of just this many bytes, at least 7.
fn tag_of_length(length: usize, out: &mut Vec<u8>) {
    let name = vec![b'f'; if length > 60_000 { 255 } else { 1 }];
    out.push(2);
    counted(&name, out);
    counted(&vec![b'x'; length - 5 - name.len()], out);
}

/// A lone tag list; the last tag fills it up.
fn long_tags(random: &mut Random, length: usize) -> Vec<u8> {
    let mut list = vec![0; 4];
    let mut count = fill(random, &mut list, length.saturating_sub(7), tag);
    if length >= list.len() + 7 {
        tag_of_length(length - list.len(), &mut list);
        count += 1;
    }
    list[..4].copy_from_slice(&count.to_le_bytes());
    list
}

/// On the server link a record with many tags, on the client link a part with its data.
fn long_packet(random: &mut Random, link: u8, length: usize) -> Vec<u8> {
    let data = if link == 0 {
        record_packet(random, 0x01, length.saturating_sub(5))
    } else {
        sending_part(random, length.saturating_sub(30))
    };
    framed(link, &data)
}

fn long_udp_packet(random: &mut Random, length: usize) -> Vec<u8> {
    let data = record_packet(random, 0x99, length.saturating_sub(1));
    framed(2, &data)
}

/// An opcode and a record, as many bytes in all.
fn record_packet(random: &mut Random, opcode: u8, length: usize) -> Vec<u8> {
    let mut data = vec![opcode];
    data.extend(random.bytes(22));
    data.extend(long_tags(random, length.saturating_sub(23)));
    data
}

fn sending_part(random: &mut Random, length: usize) -> Vec<u8> {
    let mut data = vec![0x46];
    data.extend(random.bytes(16));
    data.extend(7u32.to_le_bytes());
    data.extend((7 + length as u32).to_le_bytes());
    data.extend(random.bytes(length));
    data
}

fn long_met(random: &mut Random, length: usize, entry: fn(&mut Random, &mut Vec<u8>)) -> Vec<u8> {
    let mut file = vec![0x0E, 0, 0, 0, 0];
    let count = fill(random, &mut file, length, entry);
    file[1..5].copy_from_slice(&count.to_le_bytes());
    file
}

/// A known.met as a client writes it, about as long as wanted.
pub fn client_known_met(random: &mut Random, length: usize) -> Vec<u8> {
    long_met(random, length, client_entry)
}

/// The size that a long part.met has.
pub const LONG_PART_SIZE: u32 = 972_800;

/// A part.met E0 whose tag list fills it up.
pub fn long_part_met(random: &mut Random, length: usize) -> Vec<u8> {
    let mut file = vec![0xE0];
    file.extend(random.bytes(20));
    file.extend([0, 0]);
    let count_at = file.len();
    let gaps: Gaps = vec![(0, 1), (5, 400_000)];
    lawful_part_tags(LONG_PART_SIZE, &gaps, &mut file);
    let mut count = 5;
    while file.len() + 14 <= length {
        let longest = (length - file.len() - 7).min(60_000);
        tag_of_length(random.within(7, longest), &mut file);
        count += 1;
    }
    if file.len() + 7 <= length {
        tag_of_length(length - file.len(), &mut file);
        count += 1;
    }
    file[count_at..count_at + 4].copy_from_slice(&u32::to_le_bytes(count));
    file
}

/// A query whose sides share the length, so that the depth stays small.
fn long_query(random: &mut Random, length: usize) -> Vec<u8> {
    let mut bytes = Vec::new();
    balanced(random, length, 14, &mut bytes);
    bytes
}

fn balanced(random: &mut Random, length: usize, depth: usize, out: &mut Vec<u8>) {
    if depth == 1 || length < 40 {
        out.push(1);
        let text = if random.once_in(2) { text(random) } else { vec![b'q'; length.saturating_sub(3)] };
        return counted(&text[..text.len().min(length.saturating_sub(3))], out);
    }
    out.extend([0, random.pick(&[0, 1, 2])]);
    let left = (length - 2) / 2;
    balanced(random, left, depth - 1, out);
    balanced(random, length - 2 - left, depth - 1, out);
}
