//! Met files and gap records.

use super::Random;
use super::messages::{counted, tag, tag_list, tag_of};

/// Sizes at which the number of parts or blocks changes, and the ends of the scale.
pub const SIZES: &[u32] = &[
    0,
    1,
    100,
    486_399,
    486_400,
    486_401,
    972_799,
    972_800,
    972_801,
    9_727_999,
    9_728_000,
    9_728_001,
    19_456_000,
    19_456_001,
    u32::MAX - 1,
    u32::MAX,
];

pub fn file_entry(random: &mut Random, out: &mut Vec<u8>) {
    out.extend(random.bytes(20));
    part_hashes(random, out);
    tag_list(random, out);
}

/// A model's entry as aMule writes it: a hash for each part, and the tags of ../samples/amule_known_0E.met, always in this order.
pub fn client_entry(random: &mut Random, out: &mut Vec<u8>) {
    let size = random.within(20_000_000, 300_000_000);
    let parts = size / 9_728_000 + 1;
    out.extend(random.bytes(20));
    out.extend((parts as u16).to_le_bytes());
    out.extend(random.bytes(16 * parts));
    out.extend(9u32.to_le_bytes());
    let name = vec![b'n'; random.within(10, 60)];
    text_tag(1, &name, out);
    text_tag(1, &name, out);
    for (name, number) in [(0x02, size as u32), (0x50, 0), (0x54, 0), (0x51, 1), (0x52, 1), (0x19, 5)] {
        dword_tag(&[name], number, out);
    }
    text_tag(0x27, &[b'A'; 32], out);
}

fn text_tag(name: u8, text: &[u8], out: &mut Vec<u8>) {
    out.push(2);
    counted(&[name], out);
    counted(text, out);
}

fn part_hashes(random: &mut Random, out: &mut Vec<u8>) {
    let count = random.pick(&[0, 0, 1, 2, 20]);
    out.extend((count as u16).to_le_bytes());
    out.extend(random.bytes(16 * count));
}

pub fn server_entry(random: &mut Random, out: &mut Vec<u8>) {
    out.extend(random.bytes(6));
    tag_list(random, out);
}

/// An opening byte and a counted list.
pub fn entries(random: &mut Random, count: usize, entry: fn(&mut Random, &mut Vec<u8>)) -> Vec<u8> {
    let mut file = vec![0x0E];
    file.extend((count as u32).to_le_bytes());
    for _ in 0..count {
        entry(random, &mut file);
    }
    file
}

pub fn known_met(random: &mut Random) -> Vec<u8> {
    let count = random.below(6);
    entries(random, count, file_entry)
}

pub fn server_met(random: &mut Random) -> Vec<u8> {
    let count = random.below(6);
    let mut file = entries(random, count, server_entry);
    let tail = random.pick(&[0, 0, 1, 28]);
    file.extend(random.bytes(tail));
    file
}

pub type Gaps = Vec<(u64, u64)>;

/// As many gaps of a file of this size as fit, all lawful.
pub fn lawful_gaps(random: &mut Random, size: u64, count: usize) -> Gaps {
    let mut edges: Vec<u64> = (0..2 * count).map(|_| random.next() % (size + 1)).collect();
    if random.once_in(2) {
        edges.extend([0, size]);
    }
    edges.sort();
    edges.dedup();
    edges.chunks_exact(2).take(count).map(|pair| (pair[0], pair[1])).collect()
}

/// Mostly lawful; some have two that touch.
fn some_gaps(random: &mut Random, size: u64) -> Gaps {
    let count = random.pick(&[0, 1, 2, 3, 10, 11, 63, 64, 65]);
    let mut gaps = lawful_gaps(random, size, count);
    if gaps.len() > 1 && random.once_in(10) {
        gaps[1].0 = gaps[0].1;
    }
    gaps
}

/// How the gaps of a file are numbered. The last two are not valid.
#[derive(Clone, Copy)]
pub(super) enum Numbering {
    Shortest,
    Padded,
    Long,
    ElevenDigits,
    Twice,
}

pub(super) fn gap_number(random: &mut Random, numbering: Numbering, index: usize) -> String {
    match numbering {
        Numbering::Shortest => index.to_string(),
        Numbering::Padded => format!("{index:0width$}", width = random.within(3, 10)),
        Numbering::Long => format!("{}{index:03}", random.within(1, 9)),
        Numbering::ElevenDigits => format!("{index:011}"),
        Numbering::Twice => (index / 2).to_string(),
    }
}

fn numbering(random: &mut Random) -> Numbering {
    match random.below(10) {
        0 => Numbering::ElevenDigits,
        1 => Numbering::Twice,
        2 | 3 => Numbering::Padded,
        4 | 5 => Numbering::Long,
        _ => Numbering::Shortest,
    }
}

fn dword_tag(name: &[u8], number: u32, out: &mut Vec<u8>) {
    out.push(3);
    counted(name, out);
    out.extend(number.to_le_bytes());
}

pub(super) fn gap_tag(first: u8, number: &str, value: u64, out: &mut Vec<u8>) {
    let name: Vec<u8> = [&[first], number.as_bytes()].concat();
    dword_tag(&name, value as u32, out);
}

/// One tag, or a start tag and its end tag, which stay together.
type TagGroup = (u32, Vec<u8>);

fn gap_groups(random: &mut Random, gaps: &Gaps) -> Vec<TagGroup> {
    let numbering = numbering(random);
    let groups = gaps.iter().enumerate().map(|(index, &(start, end))| {
        let number = gap_number(random, numbering, index);
        let mut tags = Vec::new();
        gap_tag(0x09, &number, start, &mut tags);
        gap_tag(0x0A, &number, end, &mut tags);
        (2, tags)
    });
    groups.collect()
}

/// Breaks one rule of the gap tags, or none.
fn spoil(random: &mut Random, groups: &mut Vec<TagGroup>) {
    if groups.len() < 2 {
        return;
    }
    let (one, other) = (random.below(groups.len()), random.below(groups.len()));
    match random.below(6) {
        0 => groups.swap(one, other),
        1 => groups[one] = groups[other].clone(),
        2 => drop_half(random, &mut groups[one]),
        3 => alter_byte(random, &mut groups[one].1),
        4 => part_pair(random, one, groups),
        _ => {
            groups.remove(one);
        }
    }
}

fn alter_byte(random: &mut Random, bytes: &mut [u8]) {
    let at = random.below(bytes.len());
    bytes[at] = random.pick(&[0, 1, 2, 3, 4, 9, 10, b'0', b'1', b'/', b':']);
}

/// Both tags of a pair are of one length.
fn drop_half(random: &mut Random, group: &mut TagGroup) {
    let half = group.1.len() / 2;
    group.0 = 1;
    group.1 = if random.once_in(2) { group.1[half..].to_vec() } else { group.1[..half].to_vec() };
}

/// Puts another tag between a start and its end.
fn part_pair(random: &mut Random, index: usize, groups: &mut [TagGroup]) {
    let half = groups[index].1.len() / 2;
    let end = groups[index].1.split_off(half);
    tag(random, &mut groups[index].1);
    groups[index].1.extend(end);
    groups[index].0 = 3;
}

pub(super) fn size_tag(size: u32) -> TagGroup {
    let mut tag = Vec::new();
    dword_tag(&[2], size, &mut tag);
    (1, tag)
}

/// A tag that is neither the size nor a gap.
pub(super) fn other_tag(random: &mut Random) -> TagGroup {
    let mut other = Vec::new();
    let name = random.pick::<&[u8]>(&[&[1], &[3], &[0x13], b"abc", b"\x02x", &[8], &[0x0B, b'1']]);
    let kind = random.within(1, 4) as u8;
    tag_of(kind, name, random, &mut other);
    (1, other)
}

/// The tags of a part.met: the size, others and the gaps, which keep their order.
fn part_tags(random: &mut Random, size: u32, gaps: &Gaps, out: &mut Vec<u8>) {
    let mut groups = gap_groups(random, gaps);
    if random.once_in(5) {
        spoil(random, &mut groups);
    }
    let sizes = random.pick(&[1, 1, 1, 1, 1, 1, 1, 1, 0, 2]);
    let mut others: Vec<TagGroup> = (0..sizes).map(|_| size_tag(size)).collect();
    for _ in 0..random.below(5) {
        others.push(other_tag(random));
    }
    if random.once_in(10) {
        others.push((1, text_tag_named_size(random)));
    }
    for other in others {
        groups.insert(random.within(0, groups.len()), other);
    }
    let count: u32 = groups.iter().map(|group| group.0).sum();
    out.extend(count.to_le_bytes());
    groups.iter().for_each(|group| out.extend(&group.1));
}

/// The size and its gaps, and nothing else.
pub fn lawful_part_tags(size: u32, gaps: &Gaps, out: &mut Vec<u8>) {
    out.extend((1 + 2 * gaps.len() as u32).to_le_bytes());
    out.extend(size_tag(size).1);
    for (index, &(start, end)) in gaps.iter().enumerate() {
        gap_tag(0x09, &index.to_string(), start, out);
        gap_tag(0x0A, &index.to_string(), end, out);
    }
}

pub(super) fn text_tag_named_size(random: &mut Random) -> Vec<u8> {
    let mut tag = Vec::new();
    tag_of(2, &[2], random, &mut tag);
    tag
}

fn blocks(random: &mut Random, size: u32, out: &mut Vec<u8>) {
    let parts = 16 * size.div_ceil(9_728_000) as usize;
    let blocks = 8 * size.div_ceil(486_400) as usize;
    let lengths: &[usize] = match random.below(9) {
        0 | 1 => &[],
        2 | 3 => &[parts],
        4 | 5 => &[parts, blocks],
        6 => &[blocks],
        7 => &[parts, blocks, parts],
        _ => &[parts + 8, blocks],
    };
    put_blocks(random, lengths, out);
}

/// A part.met, mostly valid.
pub fn part_met(random: &mut Random) -> Vec<u8> {
    let size = random.pick(SIZES);
    let gaps = some_gaps(random, size.into());
    part_met_of(random, size, &gaps)
}

pub fn part_met_of(random: &mut Random, size: u32, gaps: &Gaps) -> Vec<u8> {
    let mut file = Vec::new();
    if random.once_in(2) {
        file.push(0xE0);
        file.extend(random.bytes(20));
        part_hashes(random, &mut file);
        part_tags(random, size, gaps, &mut file);
    } else {
        file.extend([0xE1, 0x02]);
        file.extend(random.bytes(20));
        part_tags(random, size, gaps, &mut file);
        blocks(random, size, &mut file);
    }
    file
}

/// A part.met E1 with these blocks, each a mark and as many bytes.
pub fn part_met_with_blocks(random: &mut Random, size: u32, lengths: &[usize]) -> Vec<u8> {
    let mut file = vec![0xE1, 0x02];
    file.extend(random.bytes(20));
    lawful_part_tags(size, &Gaps::new(), &mut file);
    put_blocks(random, lengths, &mut file);
    file
}

fn put_blocks(random: &mut Random, lengths: &[usize], out: &mut Vec<u8>) {
    for &length in lengths {
        out.push(1);
        out.extend(random.bytes(length));
    }
    out.push(0);
}

/// The record of these gaps; the unused slots hold what `fill` says.
pub fn gap_record(size: u64, gaps: &Gaps, fill: u64) -> Vec<u64> {
    let mut record = vec![size, gaps.len() as u64];
    record.extend(gaps.iter().flat_map(|&(start, end)| [start, end]));
    record.resize(130, fill);
    record
}

/// A record, often lawful.
pub fn some_record(random: &mut Random, size: u64) -> Vec<u64> {
    let count = random.pick(&[0, 1, 2, 5, 62, 63, 64, 64, 64]);
    let gaps = lawful_gaps(random, size, count);
    let fill = random.pick(&[0, 0, 7, u64::MAX]);
    let mut record = gap_record(size, &gaps, fill);
    if random.once_in(4) {
        spoil_record(random, &mut record);
    }
    record
}

fn spoil_record(random: &mut Random, record: &mut Vec<u64>) {
    let used = 2 + 2 * record[1] as usize;
    match random.below(6) {
        0 => record[0] = random.pick(&[0, 1, u64::from(u32::MAX) + 1, u64::MAX]),
        1 => record[1] = random.pick(&[0, 1, 64, 65, 66, 1 << 32, u64::MAX]),
        2 => record.swap(random.below(used), random.below(used)),
        3 => record[random.below(used)] = random.next(),
        4 => record[random.below(used)] += 1,
        _ => record.truncate(random.pick(&[0, 1, 2, 3, 129])),
    }
}
