//! Holds the archive to a second reading of document 01 in plain Rust, on made inputs: valid and damaged, short and long. Number,
//! every field and every byte of every output are compared, those that a call must leave alone too. Each input has its own seed, and a
//! difference prints it.

mod archive;
mod comparison;
mod inputs;
mod plain;

use comparison::{Comparison, bytes_of};
// Links the archive.
use ed2k as _;
use inputs::{Random, damaged, input, long_input, long_length, message, vector_inputs};
use plain::{Calls, Item};

/// Made inputs of each kind. Some of each hundred are damaged, some are random bytes, some are near a ceiling.
const ROUNDS: u64 = 20_000;
const LONG_ROUNDS: u64 = 60;

const NAMES: [&str; 8] = [
    "server link",
    "client link",
    "UDP link",
    "known.met",
    "server.met",
    "part.met",
    "lone query",
    "lone tags",
];

/// Reads the bytes as the kind, writes them back, and reads every item that the fields name, one level below another.
fn compare_reading(comparison: &mut Comparison, kind: u8, bytes: &[u8]) {
    let name = NAMES[usize::from(kind)];
    let fields = comparison.fields(name, &[bytes], |calls, fields| (calls.read)(kind, bytes, fields));
    let Some(fields) = fields else { return };
    let written = comparison.writing("write back", &[bytes], |calls, output, written| {
        (calls.write)(kind, bytes, &fields, output, written)
    });
    assert_eq!(written.as_deref(), Some(bytes), "what was read is written as it was");
    match kind {
        plain::KNOWN_MET => compare_items(comparison, Item::FileEntry, bytes, &fields[1..4]),
        plain::SERVER_MET => compare_items(comparison, Item::ServerEntry, bytes, &fields[1..4]),
        plain::PART_MET => compare_items(comparison, Item::Tag, bytes, &fields[4..7]),
        plain::LONE_QUERY => compare_nodes(comparison, bytes, &fields[0..2]),
        plain::LONE_TAGS => compare_items(comparison, Item::Tag, bytes, &fields[0..3]),
        _ => compare_body(comparison, bytes, &fields),
    }
}

/// The lists of a body, by the shapes of `ed2k.h`.
fn compare_body(comparison: &mut Comparison, bytes: &[u8], fields: &[u64]) {
    match fields[2] {
        1 => compare_nodes(comparison, bytes, &fields[3..5]),
        8 => compare_items(comparison, Item::Address, bytes, &fields[3..6]),
        9 => compare_items(comparison, Item::Address, bytes, &fields[4..7]),
        11 | 12 | 15 | 16 => compare_items(comparison, Item::Tag, bytes, &fields[6..9]),
        13 | 14 => compare_items(comparison, Item::Record, bytes, &fields[3..6]),
        _ => (),
    }
}

fn item_name(item: Item) -> &'static str {
    match item {
        Item::Tag => "tag",
        Item::Address => "address",
        Item::Record => "record",
        Item::FileEntry => "file entry",
        Item::ServerEntry => "server entry",
        Item::QueryNode => "query node",
    }
}

fn compare_item(comparison: &mut Comparison, item: Item, bytes: &[u8], at: usize) -> Option<Vec<u64>> {
    comparison.fields(item_name(item), &[bytes, &at.to_le_bytes()], |calls, fields| {
        (calls.read_item)(item, bytes, at, fields)
    })
}

/// Every item of a list, up to its end, with the lists inside.
fn compare_items(comparison: &mut Comparison, item: Item, bytes: &[u8], list: &[u64]) {
    let mut at = list[0] as usize;
    for _ in 0..list[2] {
        let fields = compare_item(comparison, item, bytes, at).expect("an item of a list that was read");
        at = fields[0] as usize;
        match item {
            Item::Record => compare_items(comparison, Item::Tag, bytes, &fields[4..7]),
            Item::FileEntry => compare_items(comparison, Item::Tag, bytes, &fields[6..9]),
            Item::ServerEntry => compare_items(comparison, Item::Tag, bytes, &fields[3..6]),
            _ => (),
        }
    }
    assert_eq!(at as u64, list[1], "the end of a list of {}", item_name(item));
}

/// The nodes of a query are one after the other.
fn compare_nodes(comparison: &mut Comparison, bytes: &[u8], query: &[u64]) {
    let mut at = query[0];
    while at < query[1] {
        at = compare_item(comparison, Item::QueryNode, bytes, at as usize)
            .expect("a node of a query that was read")[0];
    }
}

fn compare_kind(kind: u8, numbers: &[usize]) {
    let mut comparison = Comparison::new(1_000_000 * (1 + u64::from(kind)));
    comparison.rounds(ROUNDS, |comparison, random| {
        compare_reading(comparison, kind, &input(random, kind));
    });
    comparison.rounds(LONG_ROUNDS, |comparison, random| {
        let length = long_length(random, kind);
        compare_reading(comparison, kind, &long_input(random, kind, length));
    });
    comparison.assert_seen(NAMES[usize::from(kind)], numbers);
}

#[test]
fn server_link() {
    compare_kind(plain::SERVER_LINK, &[0, 1, 2, 3, 4, 5, 6, 7, 10]);
}

#[test]
fn client_link() {
    compare_kind(plain::CLIENT_LINK, &[0, 1, 2, 3, 4, 5, 6, 7, 8, 10]);
}

#[test]
fn udp_link() {
    compare_kind(plain::UDP_LINK, &[0, 1, 2, 4, 5, 6, 7, 10]);
}

#[test]
fn known_met() {
    compare_kind(plain::KNOWN_MET, &[0, 1, 2, 5, 6, 7, 10]);
}

#[test]
fn server_met() {
    compare_kind(plain::SERVER_MET, &[0, 1, 2, 5, 6, 10]);
}

#[test]
fn part_met() {
    compare_kind(plain::PART_MET, &[0, 1, 2, 5, 6, 7, 8, 9, 10]);
}

#[test]
fn lone_query_and_tags() {
    compare_kind(plain::LONE_QUERY, &[0, 1, 5, 6, 7, 10]);
    compare_kind(plain::LONE_TAGS, &[0, 1, 5, 6, 7, 10]);
}

/// Each size with each run of blocks: those allowed, a lone second one, a third one, and blocks that are too long or too short.
#[test]
fn every_block_case() {
    let mut comparison = Comparison::new(19_000_000);
    let mut accepted = [0; 5];
    for &size in inputs::SIZES {
        let parts = 16 * size.div_ceil(9_728_000) as usize;
        let blocks = 8 * size.div_ceil(486_400) as usize;
        let allowed: [&[usize]; 3] = [&[], &[parts], &[parts, blocks]];
        let others: [&[usize]; 5] = [
            &[blocks],
            &[parts, blocks, parts],
            &[parts + 8],
            &[parts, blocks + 8],
            &[parts, blocks.saturating_sub(8)],
        ];
        for lengths in allowed.iter().chain(&others) {
            let mut random = comparison.next_input();
            let file = inputs::part_met_with_blocks(&mut random, size, lengths);
            let fields =
                comparison.fields(NAMES[5], &[&file], |calls, fields| (calls.read)(5, &file, fields));
            assert!(fields.is_some() || !allowed.contains(lengths), "{size} with {lengths:?} is accepted");
            if let Some(fields) = fields {
                accepted[fields[7] as usize] += 1;
            }
        }
    }
    println!("accepted with no, part, block, both, counted hashes: {accepted:?}");
    comparison.assert_seen(NAMES[5], &[0, 1, 5, 10]);
}

/// Each opcode of each link, valid, and each opcode that the link has not.
#[test]
fn every_opcode() {
    let mut comparison = Comparison::new(20_000_000);
    for link in [plain::SERVER_LINK, plain::CLIENT_LINK, plain::UDP_LINK] {
        comparison.rounds(300, |comparison, random| {
            for opcode in 0..=255 {
                let packet = inputs::packet_of(random, link, opcode);
                compare_reading(comparison, link, &packet);
            }
        });
    }
    comparison.assert_seen(NAMES[0], &[0, 4, 10]);
}

#[test]
fn kinds_that_are_none() {
    let mut comparison = Comparison::new(21_000_000);
    for kind in 8..=255 {
        let mut random = comparison.next_input();
        let bytes = message(&mut random, kind % 8);
        comparison.fields("no kind", &[&[kind], &bytes], |calls, fields| (calls.read)(kind, &bytes, fields));
    }
    comparison.assert_seen("no kind", &[4]);
}

/// A valid item of the kind, or one node of a query.
fn item_bytes(random: &mut Random, item: Item) -> Vec<u8> {
    let mut bytes = Vec::new();
    match item {
        Item::Tag => inputs::tag(random, &mut bytes),
        Item::Address => bytes.extend(random.bytes(6)),
        Item::Record => inputs::record(random, &mut bytes),
        Item::FileEntry => inputs::file_entry(random, &mut bytes),
        Item::ServerEntry => inputs::server_entry(random, &mut bytes),
        Item::QueryNode if random.once_in(4) => bytes.extend([0, random.pick(&[0, 1, 2])]),
        Item::QueryNode => inputs::leaf(random, &mut bytes),
    }
    bytes
}

/// Items between other bytes, and offsets at which none is encoded, inside the bytes and beyond them.
#[test]
fn items_anywhere() {
    let items = [Item::Tag, Item::Address, Item::Record, Item::FileEntry, Item::ServerEntry, Item::QueryNode];
    let mut comparison = Comparison::new(22_000_000);
    comparison.rounds(ROUNDS, |comparison, random| {
        let item = random.pick(&items);
        let before = random.below(4);
        let mut bytes = random.bytes(before);
        let mut encoded = item_bytes(random, item);
        if random.once_in(2) {
            encoded = damaged(random, plain::LONE_TAGS, &encoded);
        }
        bytes.extend(encoded);
        let after = random.below(4);
        bytes.extend(random.bytes(after));
        let inside = random.within(0, bytes.len());
        let at = random.pick(&[before, before, before, inside, bytes.len() + 1, usize::MAX, usize::MAX - 15]);
        compare_item(comparison, item, &bytes, at);
    });
    comparison.assert_seen("tag", &[0, 1, 5, 6, 10]);
    comparison.assert_seen("address", &[0, 1, 10]);
    comparison.assert_seen("record", &[0, 1, 5, 6, 10]);
    comparison.assert_seen("file entry", &[0, 1, 5, 6, 10]);
    comparison.assert_seen("server entry", &[0, 1, 5, 6, 10]);
    comparison.assert_seen("query node", &[0, 1, 5, 6, 10]);
}

#[test]
fn parts_and_blocks() {
    let mut comparison = Comparison::new(23_000_000);
    let edges = inputs::SIZES.iter().copied();
    let mut random = comparison.next_input();
    let others = (0..100_000).map(|_| random.next() as u32);
    for size in edges.chain(others) {
        comparison.same("parts and blocks", &[&size.to_le_bytes()], |calls: &Calls| {
            (0, ((calls.part_count)(size), (calls.block_count)(size)))
        });
    }
}

fn compare_gaps(comparison: &mut Comparison, random: &mut Random, file: &[u8]) {
    let numbers = random.pick(&[130, 130, 130, 140, 129, 0]);
    comparison.same("gaps", &[file], |calls| {
        let mut record = vec![SENTINEL; numbers];
        ((calls.read_gaps)(file, &mut record), record)
    });
}

const SENTINEL: u64 = 0x5E_17_1E_15;

#[test]
fn gaps_of_part_met() {
    let mut comparison = Comparison::new(24_000_000);
    comparison.rounds(ROUNDS, |comparison, random| {
        let file = input(random, plain::PART_MET);
        compare_gaps(comparison, random, &file);
    });
    comparison.assert_seen("gaps", &[0, 1, 2, 5, 6, 7, 8, 9, 10]);
}

#[test]
fn all_missing_and_count() {
    let mut comparison = Comparison::new(25_000_000);
    comparison.rounds(ROUNDS, |comparison, random| {
        let size = some_size(random);
        let numbers = random.pick(&[130, 130, 131, 129, 1, 0]);
        comparison.same("all missing", &[&size.to_le_bytes()], |calls| {
            let mut record = vec![SENTINEL; numbers];
            ((calls.all_missing)(size, &mut record), record)
        });
        let record = inputs::some_record(random, size.min(u32::MAX.into()));
        comparison.same("count missing", &[&bytes_of(&record)], |calls| {
            let mut missing = SENTINEL;
            ((calls.count_missing)(&record, &mut missing), missing)
        });
    });
    comparison.assert_seen("all missing", &[0, 8, 10]);
    comparison.assert_seen("count missing", &[0, 8]);
}

fn some_size(random: &mut Random) -> u64 {
    match random.below(6) {
        0 => random.pick(&[u64::from(u32::MAX) + 1, u64::MAX]),
        1 => random.below(300) as u64,
        _ => random.pick(inputs::SIZES).into(),
    }
}

#[test]
fn marking() {
    let mut comparison = Comparison::new(26_000_000);
    comparison.rounds(ROUNDS, |comparison, random| {
        let size = some_size(random).min(u32::MAX.into());
        let record = inputs::some_record(random, size);
        let (start, end) = inputs::some_range(random, &record);
        comparison.mark(&record, start, end);
    });
    comparison.assert_seen("mark", &[0, 6, 8]);
}

/// Marks one model at random ranges and then gap by gap, until nothing is missing.
#[test]
fn marking_to_the_end() {
    let mut comparison = Comparison::new(27_000_000);
    comparison.rounds(50, |comparison, random| {
        let size = random.pick(&[1, 100, 972_800, u64::from(u32::MAX)]);
        let mut record = inputs::gap_record(size, &vec![(0, size)], 0);
        for _ in 0..300 {
            let start = random.next() % size;
            let end = (start + 1 + random.next() % (size / 100 + 1)).min(size);
            record = comparison.mark(&record, start, end).1.0;
        }
        while record[1] > 0 {
            record = comparison.mark(&record, record[2], record[3]).1.0;
        }
    });
    comparison.assert_seen("mark", &[0, 6]);
}

#[test]
fn putting() {
    let mut comparison = Comparison::new(28_000_000);
    comparison.rounds(ROUNDS, |comparison, random| {
        let size = random.pick(inputs::SIZES);
        let gaps = inputs::lawful_gaps(random, size.into(), 20);
        let mut file = inputs::part_met_of(random, size, &gaps);
        if random.once_in(4) {
            file = damaged(random, plain::PART_MET, &file);
        }
        let other = random.pick(inputs::SIZES);
        let size = if random.once_in(10) { other } else { size };
        let record = inputs::some_record(random, size.into());
        compare_put(comparison, &file, &record);
    });
    comparison.rounds(LONG_ROUNDS, |comparison, random| {
        let file = inputs::long_part_met(random, plain::MET_CEILING - 600);
        let gaps = inputs::lawful_gaps(random, inputs::LONG_PART_SIZE.into(), 64);
        compare_put(comparison, &file, &inputs::gap_record(inputs::LONG_PART_SIZE.into(), &gaps, 0));
    });
    comparison.assert_seen("put gaps", &[0, 1, 2, 5, 6, 7, 8, 9, 10]);
}

fn compare_put(comparison: &mut Comparison, file: &[u8], record: &[u64]) {
    comparison.writing("put gaps", &[file, &bytes_of(record)], |calls, output, written| {
        (calls.put_gaps)(file, record, output, written)
    });
}

#[test]
fn strict_saving() {
    let mut comparison = Comparison::new(29_000_000);
    comparison.rounds(ROUNDS, |comparison, random| {
        let saved = input(random, plain::PART_MET);
        let (stored, opened) = stored_and_opened(random);
        let _ = comparison.of_three("strict save", &[stored, opened, saved], |calls| calls.save_strict);
    });
    comparison.assert_seen("strict save", &[0, 1, 2, 5, 6, 7, 8, 9, 10, 11]);
}

/// The same bytes, or bytes that differ in one byte or in length.
fn stored_and_opened(random: &mut Random) -> (Vec<u8>, Vec<u8>) {
    let length = random.pick(&[0, 0, 1, 30, 3_000]);
    let stored = random.bytes(length);
    let mut opened = stored.clone();
    match random.below(5) {
        0 => opened.push(0),
        1 => drop(opened.pop()),
        2 if length > 0 => opened[random.below(length)] ^= 1,
        _ => (),
    }
    (stored, opened)
}

fn compare_truth(comparison: &mut Comparison, query: &[u8], tags: &[u8]) -> u8 {
    let (_, truth) = comparison.same("truth", &[query, tags], |calls| {
        let mut truth = 9;
        ((calls.truth)(query, tags, &mut truth), truth)
    });
    truth
}

/// A query that is mostly shallow, so that its truth hangs on few tags.
fn asked_query(random: &mut Random) -> Vec<u8> {
    let depth = random.pick(&[1, 1, 1, 2, 2, 3, 24, 25]);
    let mut query = Vec::new();
    inputs::query(random, depth, &mut query);
    query
}

#[test]
fn truths() {
    let mut comparison = Comparison::new(30_000_000);
    let mut seen = [0; 10];
    comparison.rounds(ROUNDS, |comparison, random| {
        let mut query = asked_query(random);
        let mut tags = Vec::new();
        let count = random.pick(&[0, 3, 30, 100]);
        inputs::tags(random, count, &mut tags);
        if random.once_in(8) {
            query = damaged(random, plain::LONE_QUERY, &query);
        }
        if random.once_in(8) {
            tags = damaged(random, plain::LONE_TAGS, &tags);
        }
        seen[usize::from(compare_truth(comparison, &query, &tags))] += 1;
    });
    comparison.rounds(LONG_ROUNDS, |comparison, random| {
        let query = inputs::grown(random, plain::LONE_QUERY, 3_000);
        let length = long_length(random, plain::LONE_TAGS);
        let tags = inputs::grown(random, plain::LONE_TAGS, length);
        compare_truth(comparison, &query, &tags);
    });
    comparison.assert_seen("truth", &[0, 1, 5, 6, 7]);
    println!("truth: {} no, {} yes, {} refused", seen[0], seen[1], seen[9]);
    assert!(seen[0] > 1_000 && seen[1] > 1_000, "both truths are seen");
}

/// The inputs of the program `test_vectors`, and the lines that it prints for them.
#[test]
fn vectors() {
    let mut comparison = Comparison::new(35_000_000);
    let folder = concat!(env!("CARGO_MANIFEST_DIR"), "/../crates/test_vectors");
    let expected = std::fs::read_to_string(format!("{folder}/stdout")).expect("the expected lines");
    let mut lines = expected.lines();
    for file in ["vectors.bin", "samples.bin"] {
        let run = std::fs::read(format!("{folder}/data/{file}")).expect("the inputs");
        for (kind, bytes) in vector_inputs(&run) {
            compare_reading(&mut comparison, kind, bytes);
            assert_eq!(Some(line(kind, bytes).as_str()), lines.next());
        }
    }
    // What was written back is counted after them, in a line for each kind.
    let counts: Vec<_> = lines.collect();
    assert_eq!(6, counts.len());
    assert!(counts.iter().all(|count| count.ends_with(" written the same")), "{counts:?}");
}

/// The line of the reading program.
fn line(kind: u8, bytes: &[u8]) -> String {
    let mut fields = [0; plain::FIELDS];
    match (archive::ARCHIVE.read)(kind, bytes, &mut fields) {
        0 => format!("accepted {} {}", fields[usize::from(kind < 3)], bytes.len()),
        number => format!("refused {number}"),
    }
}
