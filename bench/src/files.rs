//! Made inputs beside those of the tests: part.met files as a client writes them and long ones,
//! models with names, and queries of many leaves.

use std::ops::Range;

use crate::inputs::{self, Gaps, Random, counted};
use crate::plain::{MET_CEILING, PLAIN};

/// What aMule wrote; the tags of a made file are theirs, in their order, with other values.
const SAMPLES: [&[u8]; 3] = [
    include_bytes!("../../samples/amule_001_first.part.met"),
    include_bytes!("../../samples/amule_001_later.part.met"),
    include_bytes!("../../samples/amule_003.part.met"),
];

const WORDS: [&str; 16] = [
    "last", "girth", "heel", "ball", "instep", "toe", "sole", "boot", "left", "right", "mens",
    "womens", "narrow", "wide", "scan", "model",
];
/// None of these occurs in a name.
const OTHER_WORDS: [&str; 8] =
    ["hammer", "pliers", "awl", "thread", "leather", "needle", "welt", "glue"];

fn pick_word(random: &mut Random, words: &[&'static str]) -> &'static str {
    words[random.below(words.len())]
}

fn model_name(random: &mut Random) -> Vec<u8> {
    let words: Vec<_> = (0..random.within(2, 8)).map(|_| pick_word(random, &WORDS)).collect();
    format!("{} {}.stl", words.join(" "), random.within(35, 46)).into_bytes()
}

fn text_tag(name: u8, text: &[u8], out: &mut Vec<u8>) {
    out.push(2);
    counted(&[name], out);
    counted(text, out);
}

fn dword_tag(name: &[u8], number: u32, out: &mut Vec<u8>) {
    out.push(3);
    counted(name, out);
    out.extend(number.to_le_bytes());
}

fn gap_tags(gaps: &Gaps, out: &mut Vec<u8>) {
    for (number, &(start, end)) in gaps.iter().enumerate() {
        for (first, value) in [(0x09, start), (0x0A, end)] {
            let name = [&[first], number.to_string().as_bytes()].concat();
            dword_tag(&name, value as u32, out);
        }
    }
}

/// A part.met, the size of its file and its gaps.
pub struct PartFile {
    pub bytes: Vec<u8>,
    pub size: u32,
    pub gaps: Gaps,
}

/// As many gaps in a file of this size, each as long as what is there after it.
fn even_gaps(random: &mut Random, size: u32, count: usize) -> Gaps {
    let step = u64::from(size) / count as u64;
    let start = random.next() % (step / 4);
    (0..count as u64).map(|gap| (start + step * gap, start + step * gap + step / 2)).collect()
}

/// As a client writes it: the tags of a sample, with another name and other numbers, then the gaps.
pub fn client_part(random: &mut Random, gap_count: usize) -> PartFile {
    let sample = random.pick(&SAMPLES);
    let hashes = usize::from(sample[21]);
    let size = random.within(20_000_000, 300_000_000) as u32;
    let gaps = even_gaps(random, size, gap_count);
    let mut bytes = vec![0xE0];
    bytes.extend(random.bytes(20));
    bytes.extend((hashes as u16).to_le_bytes());
    bytes.extend(random.bytes(16 * hashes));
    let count_at = bytes.len();
    bytes.extend([0; 4]);
    let name = model_name(random);
    let mut count = 2 * gap_count as u32;
    for (kind, tag_name) in sample_tags(&sample[count_at..]) {
        match (kind, tag_name) {
            (2, name_of) => text_tag(name_of, &name, &mut bytes),
            (_, 0x02) => dword_tag(&[0x02], size, &mut bytes),
            (_, name_of) => dword_tag(&[name_of], random.dword(), &mut bytes),
        }
        count += 1;
    }
    gap_tags(&gaps, &mut bytes);
    bytes[count_at..count_at + 4].copy_from_slice(&count.to_le_bytes());
    PartFile { bytes, size, gaps }
}

/// The types and names of a sample's tags that are no gap tags: those whose name has one byte.
fn sample_tags(list: &[u8]) -> Vec<(u8, u8)> {
    let mut tags = Vec::new();
    let mut at = 4;
    while list[at + 1] == 1 {
        tags.push((list[at], list[at + 3]));
        at += match list[at] {
            2 => 6 + usize::from(list[at + 4]),
            _ => 8,
        };
    }
    tags
}

/// A part.met of about this length: the size, as many gaps, and tags of all types in any order.
pub fn long_part(random: &mut Random, length: usize, gap_count: usize) -> PartFile {
    let size = random.within(20_000_000, 300_000_000) as u32;
    let gaps = even_gaps(random, size, gap_count);
    let mut bytes = vec![0xE0];
    bytes.extend(random.bytes(20));
    bytes.extend([0, 0]);
    let count_at = bytes.len();
    bytes.extend([0; 4]);
    dword_tag(&[0x02], size, &mut bytes);
    gap_tags(&gaps, &mut bytes);
    let mut count = 1 + 2 * gap_count as u32;
    let mut tag = Vec::new();
    while bytes.len() + tag.len() <= length {
        bytes.append(&mut tag);
        count += 1;
        inputs::tag(random, &mut tag);
        while matches!(tag[3], 0x02 | 0x09 | 0x0A) {
            tag.clear();
            inputs::tag(random, &mut tag);
        }
    }
    bytes[count_at..count_at + 4].copy_from_slice(&(count - 1).to_le_bytes());
    PartFile { bytes, size, gaps }
}

/// As a client writes it while it has few gaps.
pub fn common_part(random: &mut Random) -> PartFile {
    let gaps = random.within(1, 8);
    client_part(random, gaps)
}

/// A part.met near the ceiling, with room for more gaps below it.
pub fn longest_part(random: &mut Random) -> PartFile {
    long_part(random, MET_CEILING - 2_048, 8)
}

/// The file that two windows opened, and their saves: in each window a part of every gap arrived, and
/// mostly one of them wrote a tag more. Each save has its gap tags last, as `put_gaps` leaves them.
pub fn two_saves(random: &mut Random, opened: &PartFile) -> [Vec<u8>; 3] {
    let save = |arrived: fn((u64, u64)) -> (u64, u64)| {
        let gaps = opened.gaps.iter().copied().map(arrived).collect();
        let record = inputs::gap_record(opened.size.into(), &gaps, 0);
        let mut bytes = vec![0; opened.bytes.len() + GAP_TAGS];
        let mut length = 0;
        let number = (PLAIN.put_gaps)(&opened.bytes, &record, &mut bytes, &mut length);
        assert_eq!(number, 0, "the gaps fit into the file");
        bytes.truncate(length);
        bytes
    };
    let first = save(|(start, end)| (start + (end - start) / 4, end));
    let second = save(|(start, end)| (start, end - (end - start) / 4));
    let (first, second) = match random.below(3) {
        0 => (first, second),
        1 => (with_one_tag_more(first), second),
        _ => (first, with_one_tag_more(second)),
    };
    [opened.bytes.clone(), first, second]
}

/// Room for the tags of 64 gaps.
const GAP_TAGS: usize = 64 * 2 * 10;

/// An E0 with no part hashes, as [`long_part`] makes it, with one tag more.
fn with_one_tag_more(mut file: Vec<u8>) -> Vec<u8> {
    let count = u32::from_le_bytes(file[23..27].try_into().expect("four bytes")) + 1;
    file[23..27].copy_from_slice(&count.to_le_bytes());
    dword_tag(&[0x05], 1, &mut file);
    file
}

/// The tags of a model's entry, in the order of samples/amule_known_0E.met.
pub fn model_tags(random: &mut Random, out: &mut Vec<u8>) {
    let name = model_name(random);
    let size = random.within(1_000_000, 300_000_000) as u32;
    out.extend(9u32.to_le_bytes());
    text_tag(0x01, &name, out);
    text_tag(0x01, &name, out);
    for (name, number) in [(0x02, size), (0x50, 0), (0x54, 0), (0x51, 1), (0x52, 1), (0x19, 5)] {
        dword_tag(&[name], number, out);
    }
    text_tag(0x27, &random.bytes(32), out);
}

/// The entries of a known.met of about this length, and the byte range of the tag list of each.
pub fn models(random: &mut Random, length: usize) -> (Vec<u8>, Vec<Range<usize>>) {
    let mut bytes = vec![0x0E, 0, 0, 0, 0];
    let mut lists = Vec::new();
    while bytes.len() < length {
        let hashes = random.within(1, 30);
        bytes.extend(random.bytes(20));
        bytes.extend((hashes as u16).to_le_bytes());
        bytes.extend(random.bytes(16 * hashes));
        let at = bytes.len();
        model_tags(random, &mut bytes);
        lists.push(at..bytes.len());
    }
    bytes[1..5].copy_from_slice(&(lists.len() as u32).to_le_bytes());
    (bytes, lists)
}

pub fn keyword(word: &str) -> Vec<u8> {
    let mut query = vec![1];
    counted(word.as_bytes(), &mut query);
    query
}

/// Two leaves: a word, and a limit on the size.
fn word_and_size(random: &mut Random, word: &str, out: &mut Vec<u8>) {
    out.extend([0, 0]);
    out.extend(keyword(word));
    out.push(3);
    out.extend((random.within(1_000_000, 300_000_000) as u32).to_le_bytes());
    out.push(1);
    counted(&[0x02], out);
}

/// As many pairs of a word and a limit, one of them to hold. Few words occur.
pub fn pairs_query(random: &mut Random, pairs: usize, out: &mut Vec<u8>) {
    if pairs == 1 {
        let words: &[_] = if random.once_in(25) { &WORDS } else { &OTHER_WORDS };
        let word = pick_word(random, words);
        return word_and_size(random, word, out);
    }
    out.extend([0, 1]);
    pairs_query(random, pairs / 2, out);
    pairs_query(random, pairs - pairs / 2, out);
}

/// A query of as many leaves of all kinds, its sides not much different in size.
pub fn leaves_query(random: &mut Random, leaves: usize, out: &mut Vec<u8>) {
    if leaves == 1 {
        return inputs::leaf(random, out);
    }
    out.extend([0, random.pick(&[0, 1, 2])]);
    let left = random.within(2 * leaves / 5, 3 * leaves / 5).max(1);
    leaves_query(random, left, out);
    leaves_query(random, leaves - left, out);
}
