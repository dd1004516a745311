//! Holds the writers of the archive to a second set in plain Rust, as differential.rs does with the readers: queries, tags, entries,
//! packets and met files, from pieces and from numbers, valid and not. Number, output and length are compared, with room to spare, with
//! just enough and with too little.

mod archive;
mod comparison;
mod inputs;
mod plain;

use comparison::Comparison;
use ed2k::{Body, FileEntries, Kind, Message, Records, Refusal, ServerEntries, write};
use inputs::{Random, damaged, input, lone_query, lone_tags, long_input, long_length, message};

const ROUNDS: u64 = 20_000;
const LONG_ROUNDS: u64 = 60;
/// Rounds over a source that is longer than every ceiling.
const WIDE_ROUNDS: u64 = 1_200;

/// Texts of every length that matters to a count or a ceiling.
fn written_text(random: &mut Random) -> Vec<u8> {
    match random.below(10) {
        0 => {
            vec![b'x'; random.pick(&[65_275, 65_276, 65_277, 65_530, 65_533, 65_534, 65_535, 65_536, 70_000])]
        }
        _ => inputs::text(random),
    }
}

fn written_name(random: &mut Random) -> Vec<u8> {
    match random.below(6) {
        0 => vec![b'n'; random.pick(&[0, 1, 2, 254, 255, 256, 257, 65_528, 65_529, 65_535, 65_536, 70_000])],
        _ => inputs::name(random),
    }
}

#[test]
fn writers_of_leaves() {
    let mut comparison = Comparison::new(31_000_000);
    comparison.rounds(ROUNDS, |comparison, random| {
        let (text, name) = (written_text(random), written_name(random));
        let (number, bound) = (random.dword(), random.pick(&[1, 1, 1, 2, 2, 2, 0, 3, 255]));
        comparison.writing("keyword", &[&text], |calls, output, written| {
            (calls.write_keyword)(&text, output, written)
        });
        comparison.writing("field", &[&text, &name], |calls, output, written| {
            (calls.write_field)(&text, &name, output, written)
        });
        comparison.writing("limit", &[&[bound], &name], |calls, output, written| {
            (calls.write_limit)(number, bound, &name, output, written)
        });
    });
    comparison.assert_seen("keyword", &[0, 6, 10]);
    comparison.assert_seen("field", &[0, 5, 6, 10]);
    comparison.assert_seen("limit", &[0, 5, 6, 10]);
}

#[test]
fn writers_of_joins() {
    let mut comparison = Comparison::new(32_000_000);
    comparison.rounds(ROUNDS, |comparison, random| {
        let operation = random.pick(&[0, 1, 2, 0, 1, 2, 0, 1, 2, 3, 255]);
        let (left, right) = (side(random), side(random));
        comparison.writing("join", &[&[operation], &left, &right], |calls, output, written| {
            (calls.write_join)(operation, &left, &right, output, written)
        });
    });
    comparison.assert_seen("join", &[0, 1, 5, 6, 7, 10]);
}

/// A query to be joined, seldom damaged or near the byte ceiling.
fn side(random: &mut Random) -> Vec<u8> {
    match random.below(12) {
        0 => {
            let query = lone_query(random);
            damaged(random, plain::LONE_QUERY, &query)
        }
        1 => {
            let text = vec![b'x'; random.pick(&[30_000, 32_761, 32_764, 32_765, 65_533])];
            let mut query = vec![1];
            inputs::counted(&text, &mut query);
            query
        }
        _ => lone_query(random),
    }
}

#[test]
fn writers_of_tags() {
    let mut comparison = Comparison::new(33_000_000);
    comparison.rounds(ROUNDS, |comparison, random| {
        let (name, text) = (written_name(random), written_text(random));
        let number = random.dword();
        let length = random.pick(&[16, 16, 16, 17, 15, 0]);
        let hash = random.bytes(length);
        comparison.writing("text tag", &[&name, &text], |calls, output, written| {
            (calls.write_text_tag)(&name, &text, output, written)
        });
        comparison.writing("dword tag", &[&name], |calls, output, written| {
            (calls.write_dword_tag)(&name, number, output, written)
        });
        comparison.writing("float tag", &[&name], |calls, output, written| {
            (calls.write_float_tag)(&name, number, output, written)
        });
        comparison.writing("hash tag", &[&name, &hash], |calls, output, written| {
            (calls.write_hash_tag)(&name, &hash, output, written)
        });
    });
    for call in ["text tag", "dword tag", "float tag"] {
        comparison.assert_seen(call, &[0, 5, 6, 10]);
    }
    comparison.assert_seen("hash tag", &[0, 1, 5, 6, 10]);
}

/// Lists and queries written from where they are encoded, and from where they are not.
#[test]
fn writers_by_offset() {
    let mut comparison = Comparison::new(34_000_000);
    comparison.rounds(ROUNDS, |comparison, random| {
        let mut bytes = lone_tags(random);
        let listed = u32::from_le_bytes(bytes[..4].try_into().expect("a count"));
        if random.once_in(4) {
            bytes = damaged(random, plain::LONE_TAGS, &bytes);
        }
        let at = random.pick(&[4, 4, 4, 4, 0, 5, bytes.len(), bytes.len() + 1, usize::MAX]);
        let count = random.pick(&[listed, listed, listed / 2, 0, listed + 1, u32::MAX]);
        compare_tag_list_writing(comparison, &bytes, at, count);
        let mut bytes = vec![0; random.below(3)];
        let at = bytes.len();
        bytes.extend(side(random));
        compare_query_writing(comparison, &bytes, at);
    });
    comparison.rounds(LONG_ROUNDS, |comparison, random| {
        let length = long_length(random, plain::LONE_TAGS);
        let bytes = inputs::grown(random, plain::LONE_TAGS, length);
        let count = u32::from_le_bytes(bytes[..4].try_into().expect("a count"));
        compare_tag_list_writing(comparison, &bytes, 4, count);
        let bytes = inputs::grown(random, plain::LONE_QUERY, length);
        compare_query_writing(comparison, &bytes, 0);
    });
    comparison.assert_seen("tag list", &[0, 1, 5, 6, 10]);
    comparison.assert_seen("query", &[0, 1, 5, 6, 10]);
}

fn compare_tag_list_writing(comparison: &mut Comparison, bytes: &[u8], at: usize, count: u32) {
    let list = [at.to_le_bytes(), u64::from(count).to_le_bytes()].concat();
    comparison.writing("tag list", &[bytes, &list], |calls, output, written| {
        (calls.write_tag_list)(bytes, at, count, output, written)
    });
}

fn compare_query_writing(comparison: &mut Comparison, bytes: &[u8], at: usize) {
    comparison.writing("query", &[bytes, &at.to_le_bytes()], |calls, output, written| {
        (calls.write_query)(bytes, at, output, written)
    });
}

const NAMES: [&str; 8] = [
    "write server link",
    "write client link",
    "write UDP link",
    "write known.met",
    "write server.met",
    "write part.met",
    "write lone query",
    "write lone tags",
];

fn compare_write(comparison: &mut Comparison, kind: u8, source: &[u8], fields: &[u64]) -> Option<Vec<u8>> {
    let name = NAMES.get(usize::from(kind)).copied().unwrap_or("write no kind");
    let numbers: Vec<u8> = fields.iter().flat_map(|number| number.to_le_bytes()).collect();
    comparison.writing(name, &[source, &[kind], &numbers], |calls, output, written| {
        (calls.write)(kind, source, fields, output, written)
    })
}

/// A message and its numbers, as the reader returns them.
fn message_and_fields(random: &mut Random, kind: u8) -> (Vec<u8>, Vec<u64>) {
    loop {
        let bytes = message(random, kind);
        if let Ok(fields) = plain::read(kind, &bytes) {
            return (bytes, fields.numbers().to_vec());
        }
    }
}

/// Numbers at which a width, a count or an offset in the source ends.
fn edge(random: &mut Random, source: &[u8]) -> u64 {
    let length = source.len() as u64;
    match random.below(3) {
        0 => random.pick(&[0, 1, 2, 3, 4, 5, 16, 23, 24, 25, 0x0E, 0xE0, 0xE1, 0xE3, 0x5AAA_0201]),
        1 => random.pick(&[255, 256, 65_535, 65_536, (1 << 32) - 1, 1 << 32, u64::MAX - 15, u64::MAX]),
        _ => random.pick(&[length, length + 1, length.saturating_sub(1), length.saturating_sub(16)]),
    }
}

/// One to three injuries to the numbers.
fn injure(random: &mut Random, source: &[u8], fields: &mut Vec<u64>) {
    for _ in 0..random.pick(&[1, 1, 1, 2, 3]) {
        if fields.len() < plain::FIELDS {
            return;
        }
        let used = 1 + fields.iter().rposition(|number| *number != 0).unwrap_or(0);
        let reached = random.pick(&[used, used, used, used, used, used, used, plain::FIELDS]);
        let at = random.below(reached);
        match random.below(12) {
            0 => fields[at] = random.next(),
            1..=3 => fields[at] = edge(random, source),
            4 | 5 => fields[at] = fields[at].wrapping_add(1),
            6 => fields[at] = fields[at].wrapping_sub(1),
            7 => fields.swap(at, random.below(used)),
            8 | 9 => fields[at] = random.within(0, source.len()) as u64,
            10 => {
                let link = random.pick(&[0, 1, 2]);
                fields[1] = random.pick(inputs::opcodes(link)).0.into();
            }
            _ => fields.resize(random.pick(&[0, 1, 15, 16, 17, 20]), 0),
        }
    }
}

/// Messages whose numbers are injured, or whose bytes are, so that other things are encoded at their offsets.
fn compare_injured(comparison: &mut Comparison, kind: u8) {
    comparison.rounds(ROUNDS, |comparison, random| {
        let (mut source, mut fields) = message_and_fields(random, kind);
        if random.once_in(4) {
            source = damaged(random, plain::LONE_TAGS, &source);
        }
        if !random.once_in(8) {
            injure(random, &source, &mut fields);
        }
        compare_write(comparison, kind, &source, &fields);
    });
}

/// A source of zeros that is longer than every ceiling. Lists of hashes, addresses, records and entries of any length are
/// encoded everywhere in it.
fn wide_source() -> Vec<u8> {
    vec![0; 1_150_000]
}

/// How many entries: at the edges of the count fields, and of the ceilings for entries of 6, 10, 16 and 26 bytes.
fn wide_count(random: &mut Random) -> u64 {
    match random.below(3) {
        0 => random.within(0, 5) as u64,
        1 => random.pick(&[254, 255, 256, 257, 65_534, 65_535, 65_536, 70_000]),
        _ => random.pick(&[
            2_519, 2_520, 2_521, 4_094, 4_095, 4_096, 10_920, 10_921, 40_329, 40_330, 40_331, 65_534,
            104_856, 104_857, 104_858,
        ]),
    }
}

fn wide_length(random: &mut Random) -> u64 {
    let near = 65_500 + random.below(40) as u64;
    random.pick(&[0, 1, 100, 32_764, 32_765, near, near, near, 65_535, 65_536, 70_000])
}

/// The numbers of a body of this layout over the wide source; the letters are those of the inputs.
fn wide_body(random: &mut Random, layout: &str, fields: &mut Vec<u64>) {
    for letter in layout.chars() {
        let offset = random.pick(&[0, 0, 0, 0, 7, 84_464, 1_149_990, 1_150_001]);
        match letter {
            'h' => fields.push(offset),
            'd' => fields.push(random.dword().into()),
            'w' => fields.push(random.below(65_536) as u64),
            's' => fields.extend([offset, wide_length(random)]),
            't' => fields.extend([offset, 0, 0]),
            'R' | 'A' | 'H' => fields.extend([offset, 0, wide_count(random)]),
            'q' => fields.extend([offset, 0, 1]),
            'f' => fields.push(random.pick(&[0, 1, 2])),
            'm' => (),
            'P' => {
                let length = wide_length(random);
                let less = random.pick(&[0, 0, 0, 1]);
                fields.extend([9, 9 + length - less.min(length), offset, length]);
            }
            'X' => fields.extend((0..6).map(|_| u64::from(random.dword()))),
            'S' => fields.extend([random.pick(&[0, 9, 65_535, 65_536, 1 << 20, 1 << 33, u64::MAX]), offset]),
            'E' => fields.extend([random.pick(&[0, 1]), random.pick(&[7, 0x5AAA_0000, 0x5AAA_FFFF])]),
            'U' => fields.extend((0..3).map(|_| u64::from(random.dword()))),
            _ => unreachable!("no item has this letter"),
        }
    }
}

/// A packet, a file or a list over the wide source.
fn wide_fields(random: &mut Random, kind: u8) -> Vec<u64> {
    let mut fields = match kind {
        plain::KNOWN_MET => vec![0x0E, 0, 0, wide_count(random)],
        plain::SERVER_MET => vec![0x0E, 0, 0, wide_count(random), 0, wide_length(random)],
        plain::PART_MET => vec![0xE0, 7, 0, 0, 0, 0, 0, 4, 0, 0, wide_count(random)],
        plain::LONE_QUERY | plain::LONE_TAGS => vec![0, 0, 0],
        link => {
            let (opcode, layout) = random.pick(inputs::opcodes(link));
            let packet = inputs::packet_of(random, link, opcode);
            let shape = plain::read(link, &packet).map_or(0, |fields| fields.numbers()[2]);
            let mut fields = vec![0xE3, opcode.into(), if layout == "U" { 23 } else { shape }];
            wide_body(random, layout, &mut fields);
            fields
        }
    };
    if random.once_in(20) {
        fields[0] = random.pick(&[0, 0xC5, 0xE0, 256]);
    }
    fields.resize(plain::FIELDS, 0);
    fields
}

fn compare_wide(comparison: &mut Comparison, kind: u8) {
    let source = wide_source();
    comparison.rounds(WIDE_ROUNDS, |comparison, random| {
        let fields = wide_fields(random, kind);
        compare_write(comparison, kind, &source, &fields);
    });
}

/// Long messages, whole and with a number changed.
fn compare_long(comparison: &mut Comparison, kind: u8) {
    comparison.rounds(LONG_ROUNDS, |comparison, random| {
        let length = long_length(random, kind);
        let source = inputs::grown(random, kind, length);
        let Ok(fields) = plain::read(kind, &source) else {
            return;
        };
        let mut fields = fields.numbers().to_vec();
        assert_eq!(compare_write(comparison, kind, &source, &fields).as_ref(), Some(&source));
        injure(random, &source, &mut fields);
        compare_write(comparison, kind, &source, &fields);
    });
}

fn compare_kind(kind: u8, numbers: &[usize]) {
    let mut comparison = Comparison::new(40_000_000 + 1_000_000 * u64::from(kind));
    compare_injured(&mut comparison, kind);
    compare_wide(&mut comparison, kind);
    compare_long(&mut comparison, kind);
    comparison.assert_seen(NAMES[usize::from(kind)], numbers);
}

#[test]
fn server_link() {
    compare_kind(plain::SERVER_LINK, &[0, 1, 2, 4, 5, 6, 10]);
}

#[test]
fn client_link() {
    compare_kind(plain::CLIENT_LINK, &[0, 1, 2, 4, 5, 6, 8, 10]);
}

#[test]
fn udp_link() {
    compare_kind(plain::UDP_LINK, &[0, 1, 2, 4, 5, 6, 10]);
}

#[test]
fn known_met() {
    compare_kind(plain::KNOWN_MET, &[0, 1, 2, 5, 6, 10]);
}

#[test]
fn server_met() {
    compare_kind(plain::SERVER_MET, &[0, 1, 2, 5, 6, 10]);
}

#[test]
fn part_met() {
    compare_kind(plain::PART_MET, &[0, 1, 5, 6, 8, 9, 10]);
}

#[test]
fn lone_query_and_tags_by_numbers() {
    compare_kind(plain::LONE_QUERY, &[0, 1, 5, 6, 10]);
    compare_kind(plain::LONE_TAGS, &[0, 1, 5, 6, 10]);
}

#[test]
fn kinds_that_are_none() {
    let mut comparison = Comparison::new(49_000_000);
    for kind in 8..=255 {
        let mut random = comparison.next_input();
        let (source, mut fields) = message_and_fields(&mut random, kind % 8);
        fields.truncate(random.pick(&[0, 15, 16]));
        compare_write(&mut comparison, kind, &source, &fields);
    }
    comparison.assert_seen("write no kind", &[4]);
}

/// Each shape with each opcode of each link: its own is written, any other is 4 before its offsets are checked.
#[test]
fn every_shape_with_every_opcode() {
    let mut comparison = Comparison::new(50_000_000);
    for link in [plain::SERVER_LINK, plain::CLIENT_LINK, plain::UDP_LINK] {
        for shape in 0..=25 {
            for opcode in 0..=255 {
                let mut random = comparison.next_input();
                let source = random.bytes(40);
                let mut fields = vec![0; plain::FIELDS];
                fields[..3].copy_from_slice(&[random.pick(&[0xE3, 0xE3, 0xE3, 0xC5]), opcode, shape]);
                fields[3] = random.pick(&[0, 0, 0, 41]);
                compare_write(&mut comparison, link, &source, &fields);
            }
        }
    }
    comparison.assert_seen(NAMES[0], &[0, 1, 2, 4, 5, 10]);
    comparison.assert_seen(NAMES[1], &[0, 1, 2, 4, 5, 10]);
    comparison.assert_seen(NAMES[2], &[0, 1, 2, 4, 5, 10]);
}

/// A source with the tags of a part.met of this size, a hash, and then bytes that hash lists can be taken from; and the numbers of an
/// E1 with such lists. Marks are found in the hashes, or not, as `fill` says.
fn blocks_case(
    size: u32,
    which: u64,
    parts: u64,
    blocks: u64,
    fill: impl FnMut() -> u8,
) -> (Vec<u8>, Vec<u64>) {
    let mut source = Vec::new();
    inputs::lawful_part_tags(size, &inputs::Gaps::new(), &mut source);
    let hash = source.len() as u64;
    source.extend([7; 16]);
    let at = source.len() as u64;
    source.extend(std::iter::repeat_with(fill).take(16 * parts as usize + 8 * blocks as usize));
    let part_list = if which & 1 == 1 { [at, 0, parts] } else { [0; 3] };
    let block_list = if which & 2 == 2 { [at + 16 * parts, 0, blocks] } else { [0; 3] };
    let fields = [&[0xE1, 0, 0, hash, 4, hash, 1, which], &part_list[..], &block_list, &[0; 2]].concat();
    (source, fields)
}

/// Each size with each choice of hash lists, of the right length and of others near it or with as many bytes.
#[test]
fn every_choice_of_hash_lists() {
    let mut comparison = Comparison::new(51_000_000);
    for &size in inputs::SIZES {
        let (parts, blocks) = (u64::from(size.div_ceil(9_728_000)), u64::from(size.div_ceil(486_400)));
        let part_counts = [parts, parts + 1, parts.saturating_sub(1), blocks / 2];
        let block_counts =
            [blocks, blocks + 1, blocks.saturating_sub(1), blocks + 2, blocks.saturating_sub(2), 2 * parts];
        for which in 0..4 {
            for (part_count, block_count) in
                part_counts.iter().flat_map(|part| block_counts.map(|block| (*part, block)))
            {
                for marks in [&[0][..], &[1], &[0, 1, 2], &[7]] {
                    let mut random = comparison.next_input();
                    let (source, fields) =
                        blocks_case(size, which, part_count, block_count, || random.pick(marks));
                    compare_write(&mut comparison, plain::PART_MET, &source, &fields);
                }
            }
        }
    }
    comparison.assert_seen(NAMES[5], &[0, 1, 5, 7, 10]);
}

/// The three that a reviewer will meet: block hashes alone whose bytes are those of the part hashes of the size, and of size 0.
#[test]
fn block_hashes_alone_that_look_like_part_hashes() {
    let mut comparison = Comparison::new(52_000_000);
    for (size, blocks) in [(972_800, 2), (0, 0), (1, 2), (486_400, 2), (9_728_000, 2), (9_728_001, 4)] {
        let (source, fields) = blocks_case(size, 2, 0, blocks, || 9);
        assert_eq!(compare_write(&mut comparison, plain::PART_MET, &source, &fields), None);
    }
    comparison.assert_seen(NAMES[5], &[5]);
}

/// A source with a hash at 0, a tag that says a size at 16, a tag of no type at 24, and a tag whose name is too long at 25.
fn faulty_source() -> Vec<u8> {
    [&[7; 16][..], &[3, 1, 0, 2, 100, 0, 0, 0], &[9], &[2, 0, 1]].concat()
}

/// Where tags are encoded, and where they are not: 5, 6 or 1.
const TAG_OFFSETS: [usize; 4] = [16, 24, 25, 1_000];
const HASH_OFFSETS: [usize; 2] = [0, 1_000];

/// Every pair of offsets, each of which has its item or is at fault in its own way.
#[test]
fn the_first_offset_at_fault_decides() {
    let mut comparison = Comparison::new(55_000_000);
    let source = faulty_source();
    let mut seen = |kind, fields: &[u64]| {
        let fields: Vec<u64> = fields.iter().copied().chain([0; 16]).take(plain::FIELDS).collect();
        compare_write(&mut comparison, kind, &source, &fields);
    };
    for (hash, tags, hashes) in offsets() {
        let (hash, tags, hashes) = (hash as u64, tags as u64, u64::from(hashes));
        seen(plain::SERVER_LINK, &[0xE3, 0x41, 11, hash, 1, 2, tags, 0, 1]);
        seen(plain::SERVER_LINK, &[0xE3, 0x01, 12, hash, 1, 2, tags, 0, 1]);
        seen(plain::CLIENT_LINK, &[0xE3, 0x01, 16, hash, 1, 2, tags, 0, 1, 3, 4]);
        seen(plain::CLIENT_LINK, &[0xE3, 0x52, 18, hash, 0, 0, hashes]);
        seen(plain::UDP_LINK, &[0xE3, 0xA3, 6, hash, 16, hash, 17 * hashes]);
        seen(plain::PART_MET, &[0xE0, 0, 0, hash, tags, 0, 1, 4, 0, 0, hashes]);
        seen(plain::PART_MET, &[0xE1, 0, 0, hash, tags, 0, 1, 1, 0, 0, hashes]);
        seen(plain::PART_MET, &[0xE1, 0, 0, hash, tags, 0, 1, 3, 0, 0, 1, 0, 0, hashes]);
    }
    comparison.assert_seen(NAMES[0], &[0, 1, 5, 6, 10]);
    comparison.assert_seen(NAMES[5], &[0, 1, 5, 6, 10]);
}

/// A hash's offset, a tag's, and how many hashes are at 0.
fn offsets() -> impl Iterator<Item = (usize, usize, u32)> {
    let pairs = HASH_OFFSETS.iter().flat_map(|hash| TAG_OFFSETS.map(|tags| (*hash, tags)));
    pairs.flat_map(|(hash, tags)| [0, 1, 3, 99].map(|hashes| (hash, tags, hashes)))
}

#[test]
fn the_first_offset_of_an_entry_at_fault_decides() {
    let mut comparison = Comparison::new(56_000_000);
    let source = faulty_source();
    for (hash, tags, hashes) in offsets() {
        let mut random = comparison.next_input();
        compare_entries(&mut comparison, &mut random, &source, hash, (0, hashes), (tags, 1));
    }
    comparison.assert_seen("file entry", &[0, 1, 5, 6, 10]);
    comparison.assert_seen("record", &[0, 1, 5, 6, 10]);
}

/// A 96 of each form with numbers of each form.
#[test]
fn every_form_of_a_status_request() {
    let mut comparison = Comparison::new(53_000_000);
    for form in 0..3 {
        for number in [0, 1, 0x5AA9_FFFF, 0x5AAA_0000, 0x5AAA_FFFF, 0x5AAB_0000, 0xAA5A_0201, 0xFFFF_FFFF] {
            let mut fields = vec![0xE3, 0x96, 22, form, number];
            fields.resize(plain::FIELDS, 0);
            let written = compare_write(&mut comparison, plain::UDP_LINK, &[], &fields);
            assert_eq!(written.is_some(), form == u64::from(number >> 16 == 0x5AAA));
        }
    }
    comparison.assert_seen(NAMES[2], &[0, 5, 10]);
}

/// More status bits than their WORD can count, which are in the source.
#[test]
fn status_bits_above_their_count() {
    let mut comparison = Comparison::new(58_000_000);
    let source = [0; 16 + 8_193];
    for parts in [65_536, 65_537, 65_544] {
        let mut fields = vec![0xE3, 0x50, 21, 0, parts, 16];
        fields.resize(plain::FIELDS, 0);
        compare_write(&mut comparison, plain::CLIENT_LINK, &source, &fields);
    }
    comparison.assert_seen(NAMES[1], &[6]);
}

/// A list in the source: that of a tag list that is encoded there, or another.
fn some_list(random: &mut Random, source: &[u8], at: usize, count: u32) -> (usize, u32) {
    let inside = random.within(0, source.len());
    let at = random.pick(&[at, at, at, at, inside, source.len() + 1, usize::MAX]);
    (at, random.pick(&[count, count, count, 0, count + 1, u32::MAX]))
}

#[test]
fn writers_of_entries() {
    let mut comparison = Comparison::new(54_000_000);
    comparison.rounds(ROUNDS, |comparison, random| {
        let before = random.below(40);
        let mut source = random.bytes(before);
        let tags_at = source.len() + 4;
        inputs::tag_list(random, &mut source);
        let listed = u32::from_le_bytes(source[tags_at - 4..tags_at].try_into().expect("a count"));
        if random.once_in(6) {
            source = damaged(random, plain::LONE_TAGS, &source);
        }
        let hash = random.pick(&[0, 0, 0, source.len().saturating_sub(16), source.len(), usize::MAX - 15]);
        let tags = some_list(random, &source, tags_at, listed);
        let hashes = some_list(random, &source, 0, 1);
        compare_entries(comparison, random, &source, hash, hashes, tags);
    });
    let wide = wide_source();
    comparison.rounds(LONG_ROUNDS, |comparison, random| {
        let hashes =
            (random.pick(&[0, 5, 101_408]), random.pick(&[65_534, 65_535, 65_536, 65_537, 71_875, 71_876]));
        compare_entries(comparison, random, &wide, 0, hashes, (0, 0));
    });
    comparison.assert_seen("address", &[0, 10]);
    comparison.assert_seen("record", &[0, 1, 5, 6, 10]);
    comparison.assert_seen("file entry", &[0, 1, 5, 6, 10]);
    comparison.assert_seen("server entry", &[0, 1, 5, 6, 10]);
}

fn compare_entries(
    comparison: &mut Comparison,
    random: &mut Random,
    source: &[u8],
    hash: usize,
    hashes: (usize, u32),
    tags: (usize, u32),
) {
    let (number, port) = (random.dword(), random.next() as u16);
    let offsets = format!("hash {hash}, hashes {hashes:?}, tags {tags:?}");
    let input = [source, offsets.as_bytes()];
    comparison.writing("address", &[&number.to_le_bytes(), &port.to_le_bytes()], |calls, output, written| {
        (calls.write_address)(number, port, output, written)
    });
    comparison.writing("record", &input, |calls, output, written| {
        (calls.write_record)(source, hash, (number, port), tags, output, written)
    });
    comparison.writing("file entry", &input, |calls, output, written| {
        (calls.write_file_entry)(source, (number, hash), hashes, tags, output, written)
    });
    comparison.writing("server entry", &input, |calls, output, written| {
        (calls.write_server_entry)(source, (number, port), tags, output, written)
    });
}

/// The entries of a list, written one by one, and how many they are.
fn entries<T>(
    list: impl Iterator<Item = T>,
    entry: impl Fn(&T) -> Result<Vec<u8>, Refusal>,
) -> Result<(Vec<u8>, u32), Refusal> {
    let written: Vec<Vec<u8>> = list.map(|one| entry(&one)).collect::<Result<_, _>>()?;
    Ok((written.concat(), written.len() as u32))
}

/// A message that the crate read, written anew: its lists of records and entries are composed of entries written one by one.
fn recomposed(message: Message<'_>) -> Result<Vec<u8>, Refusal> {
    match message {
        Message::Packet(link, mut packet) => {
            let Body::Records(records) = packet.body else {
                return write::packet(link, &packet);
            };
            let (bytes, count) = entries(records, write::record)?;
            packet.body = Body::Records(Records::new(&bytes, count)?);
            write::packet(link, &packet)
        }
        Message::KnownMet(mut met) => {
            let (bytes, count) = entries(met.entries, write::file_entry)?;
            met.entries = FileEntries::new(&bytes, count)?;
            write::known_met(&met)
        }
        Message::ServerMet(mut met) => {
            let (bytes, count) = entries(met.entries, write::server_entry)?;
            met.entries = ServerEntries::new(&bytes, count)?;
            write::server_met(&met)
        }
        other => write::message(&other),
    }
}

/// The crate gathers what its values point at: what it reads it writes as it was, whole and recomposed.
#[test]
fn the_crate_writes_what_it_reads() {
    let mut comparison = Comparison::new(57_000_000);
    for (kind, number) in Kind::ALL.iter().copied().zip(0..) {
        let mut accepted = 0;
        let mut check = |bytes: &[u8]| {
            if let Ok(message) = ed2k::read(kind, bytes) {
                assert_eq!(write::message(&message).as_deref(), Ok(bytes));
                assert_eq!(recomposed(message).as_deref(), Ok(bytes));
                accepted += 1;
            }
        };
        comparison.rounds(ROUNDS / 8, |_, random| check(&input(random, number)));
        comparison.rounds(LONG_ROUNDS / 4, |_, random| {
            let length = long_length(random, number);
            check(&long_input(random, number, length));
        });
        println!("{kind}: {accepted} accepted and written back");
        assert!(accepted > ROUNDS / 50);
    }
}
