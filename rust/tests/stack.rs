//! The library's own buffers, all on the stack, stay within 64 KiB: every call is run in a thread that has no more, on the largest and
//! the deepest inputs, and the reading program under a limit that leaves it no more than that beside its own buffer.

mod archive;
mod inputs;
mod plain;

use std::io::Write;
use std::path::PathBuf;
use std::process::{Command, Stdio};
use std::thread;

use archive::ARCHIVE;
// Links the archive.
use ed2k as _;
use inputs::Random;
use plain::{FIELDS, Item, MET_CEILING, PACKET_CEILING, Reason, Rule, WHY_NUMBERS};

const SEED: u64 = 64;
const LIBRARY_KIB: usize = 64;

/// Runs a call in a thread of 64 KiB. What the thread needs by itself is taken from them, so that the library has less. A call that
/// needs more ends the test program with SIGSEGV. (Measured: every call here answers within the least that the system gives a
/// thread, 16 KiB and its thread-local data.)
fn accepted(name: &str, call: impl FnOnce() -> u8 + Send) {
    let number = thread::scope(|scope| {
        let small = thread::Builder::new().stack_size(LIBRARY_KIB << 10);
        small.spawn_scoped(scope, call).expect("a thread").join().expect("an answer")
    });
    assert_eq!(number, 0, "{name}");
}

/// A query of this depth: operators, and then leaves with texts that fill it up.
fn deep_query(depth: u8) -> Vec<u8> {
    let mut query = [0, 1].repeat(usize::from(depth) - 1);
    for leaf in 0..depth {
        query.push(1);
        inputs::counted(&vec![b'a' + leaf; 2_700], &mut query);
    }
    query
}

fn made(kind: u8, length: usize) -> Vec<u8> {
    inputs::grown(&mut Random::new(SEED), kind, length)
}

/// The largest and the deepest messages of each kind.
fn largest_messages() -> Vec<(u8, Vec<u8>)> {
    let query = deep_query(24);
    vec![
        (plain::SERVER_LINK, made(plain::SERVER_LINK, PACKET_CEILING)),
        (plain::SERVER_LINK, inputs::framed(plain::SERVER_LINK, &[&[0x16], &query[..]].concat())),
        (plain::CLIENT_LINK, made(plain::CLIENT_LINK, PACKET_CEILING)),
        (plain::UDP_LINK, made(plain::UDP_LINK, PACKET_CEILING)),
        (plain::UDP_LINK, inputs::framed(plain::UDP_LINK, &[&[0x98], &query[..]].concat())),
        (plain::KNOWN_MET, made(plain::KNOWN_MET, MET_CEILING)),
        (plain::SERVER_MET, made(plain::SERVER_MET, MET_CEILING)),
        (plain::PART_MET, made(plain::PART_MET, MET_CEILING)),
        (plain::PART_MET, part_met_with_gaps()),
        (plain::LONE_QUERY, query),
        (plain::LONE_QUERY, made(plain::LONE_QUERY, PACKET_CEILING)),
        (plain::LONE_TAGS, made(plain::LONE_TAGS, PACKET_CEILING)),
    ]
}

#[test]
fn whole_messages() {
    for (kind, bytes) in largest_messages() {
        let mut fields = vec![0; FIELDS];
        accepted(&format!("kind {kind}"), || (ARCHIVE.read)(kind, &bytes, &mut fields));
        let write =
            |output: &mut [u8], written: &mut usize| (ARCHIVE.write)(kind, &bytes, &fields, output, written);
        writes(&format!("write of kind {kind}"), write);
    }
}

/// The packets among them, each whole, with a byte less and with a byte more; one that is just as long as may be, with a byte left over;
/// and a query that is too deep.
fn packets_for_reasons() -> Vec<(u8, Vec<u8>)> {
    let mut packets = Vec::new();
    for (link, whole) in largest_messages().into_iter().filter(|(kind, _)| *kind <= plain::UDP_LINK) {
        let opcode = if link == plain::UDP_LINK { 1 } else { 5 };
        let shorter = inputs::framed(link, &whole[opcode..whole.len() - 1]);
        let longer = inputs::framed(link, &[&whole[opcode..], &[0]].concat());
        let almost = made(link, PACKET_CEILING - 1);
        let left = inputs::framed(link, &[&almost[opcode..], &[0]].concat());
        packets.extend([whole, shorter, longer, left].map(|packet| (link, packet)));
    }
    let deeper = [&[0x98, 0, 1], &deep_query(24)[..]].concat();
    packets.push((plain::UDP_LINK, inputs::framed(plain::UDP_LINK, &deeper)));
    packets
}

#[test]
fn reasons() {
    let mut seen = Vec::new();
    for (link, packet) in packets_for_reasons() {
        let mut numbers = [0; WHY_NUMBERS];
        accepted(&format!("why of link {link}"), || (ARCHIVE.why)(link, &packet, &mut numbers));
        let reason = plain::why(link, &packet);
        assert_eq!(numbers, reason.map_or([0; WHY_NUMBERS], Reason::numbers), "link {link}");
        seen.push(numbers[1]);
    }
    seen.sort();
    seen.dedup();
    let rules = [Rule::Short, Rule::Bytes, Rule::Depth, Rule::Rest, Rule::Data];
    assert_eq!(seen, [&[0], &rules.map(|rule| rule as u64)[..]].concat(), "accepted, and the rules broken");
}

/// Every shape of body, by a packet of each opcode.
#[test]
fn packets_of_every_opcode_written() {
    let mut random = Random::new(SEED);
    for link in [plain::SERVER_LINK, plain::CLIENT_LINK, plain::UDP_LINK] {
        for (opcode, _) in inputs::opcodes(link) {
            let valid = || {
                let packet = inputs::packet_of(&mut random, link, *opcode);
                plain::read(link, &packet).ok().map(|fields| (packet, fields))
            };
            let (packet, fields) = std::iter::repeat_with(valid).flatten().next().expect("a valid packet");
            writes(&format!("link {link}, opcode {opcode:02X}"), |output, written| {
                (ARCHIVE.write)(link, &packet, fields.numbers(), output, written)
            });
        }
    }
}

#[test]
fn entries_written() {
    let tags = made(plain::LONE_TAGS, MET_CEILING);
    let count = u32::from_le_bytes([tags[0], tags[1], tags[2], tags[3]]);
    let source = [tags, vec![7; 16 * 65_535]].concat();
    let hashes = (source.len() - 16 * 65_535, 65_535);
    let mut output = vec![0; 2 * source.len()];
    let mut writes = |name: &str, call: &(dyn Fn(&mut [u8], &mut usize) -> u8 + Sync)| {
        let mut written = 0;
        accepted(name, || call(&mut output, &mut written));
        assert!(written > 0, "{name} wrote something");
    };
    writes("address", &|output, written| (ARCHIVE.write_address)(1, 2, output, written));
    writes("record", &|output, written| {
        (ARCHIVE.write_record)(&source, 0, (1, 2), (4, count), output, written)
    });
    writes("file entry", &|output, written| {
        (ARCHIVE.write_file_entry)(&source, (1, 0), hashes, (4, count), output, written)
    });
    writes("server entry", &|output, written| {
        (ARCHIVE.write_server_entry)(&source, (1, 2), (4, count), output, written)
    });
}

#[test]
fn items() {
    let mut fields = vec![0; FIELDS];
    let record = made(plain::UDP_LINK, PACKET_CEILING);
    let tags = made(plain::LONE_TAGS, PACKET_CEILING);
    let known = made(plain::KNOWN_MET, MET_CEILING);
    let servers = made(plain::SERVER_MET, MET_CEILING);
    let query = deep_query(24);
    let lent = [
        (Item::Tag, &tags, 4),
        (Item::Address, &tags, 4),
        (Item::Record, &record, 2),
        (Item::FileEntry, &known, 5),
        (Item::ServerEntry, &servers, 5),
        (Item::QueryNode, &query, 46),
    ];
    for (item, bytes, at) in lent {
        accepted(&format!("{item:?}"), || (ARCHIVE.read_item)(item, bytes, at, &mut fields));
    }
}

const SIZE: u64 = u32::MAX as u64;

fn full_record() -> Vec<u64> {
    inputs::gap_record(SIZE, &(0..64).map(|gap| (1_000 * gap, 1_000 * gap + 500)).collect(), 0)
}

/// An E1 file of the largest size with 64 gaps and both blocks.
fn part_met_with_gaps() -> Vec<u8> {
    let mut file = vec![0xE1, 0x02];
    file.extend([7; 20]);
    let gaps = (0..64).map(|gap| (1_000 * gap, 1_000 * gap + 500)).collect();
    inputs::lawful_part_tags(u32::MAX, &gaps, &mut file);
    for length in [16 * 442, 8 * 8_831] {
        file.push(1);
        file.extend(vec![7; length]);
    }
    file.push(0);
    file
}

#[test]
fn gaps() {
    let file = part_met_with_gaps();
    let (mut record, mut missing) = (full_record(), 0);
    accepted("part count", || u8::from((ARCHIVE.part_count)(u32::MAX) != 442));
    accepted("block count", || u8::from((ARCHIVE.block_count)(u32::MAX) != 8_831));
    accepted("count missing", || (ARCHIVE.count_missing)(&record, &mut missing));
    accepted("mark", || (ARCHIVE.mark)(&mut record, 0, 400, &mut missing));
    accepted("gaps of a part.met", || (ARCHIVE.read_gaps)(&file, &mut record));
    accepted("all missing", || (ARCHIVE.all_missing)(SIZE, &mut record));
}

/// A call that is lent room for 1 MiB.
fn writes(name: &str, call: impl FnOnce(&mut [u8], &mut usize) -> u8 + Send) {
    let (mut output, mut written) = (vec![0; MET_CEILING], 0);
    accepted(name, || call(&mut output, &mut written));
    assert!(written > 0, "{name} wrote something");
}

#[test]
fn files_written() {
    let (file, longest, record) = (part_met_with_gaps(), made(plain::PART_MET, MET_CEILING), full_record());
    writes("put gaps", |output, written| (ARCHIVE.put_gaps)(&file, &record, output, written));
    for (old, new) in [(&file, &longest), (&longest, &file), (&longest, &longest)] {
        writes("save", |output, written| (ARCHIVE.save)(old, old, new, output, written));
        writes("strict save", |output, written| (ARCHIVE.save_strict)(old, old, new, output, written));
    }
}

/// The file with another date and with its gap tags after the others.
fn changed(file: &[u8]) -> Vec<u8> {
    let (mut record, mut output) = (vec![0; plain::GAP_NUMBERS], vec![0; MET_CEILING]);
    plain::read_gaps(file, &mut record).expect("a file");
    let length = plain::put_gaps(file, &record, &mut output).expect("the same gaps");
    output.truncate(length);
    output[DATE_BYTE] ^= 1;
    output
}

/// A byte of the date, in an E0 and in an E1.
const DATE_BYTE: usize = 2;

/// Files with 64 gaps and with 1 MiB of tags, changed by one window and by both. A save over a changed file merges.
#[test]
fn saves_merged() {
    for opened in [part_met_with_gaps(), made(plain::PART_MET, MET_CEILING)] {
        let changed = changed(&opened);
        for (first, second) in [(&opened, &opened), (&changed, &opened), (&changed, &changed)] {
            writes("merge", |output, written| (ARCHIVE.merge)(&opened, first, second, output, written));
            writes("save", |output, written| (ARCHIVE.save)(first, &opened, second, output, written));
        }
    }
}

#[test]
fn queries_and_tags_written() {
    let (text, name, hash) = (vec![b'x'; 65_000], vec![b'n'; 255], [7; 16]);
    writes("keyword", |output, written| (ARCHIVE.write_keyword)(&text, output, written));
    writes("field", |output, written| (ARCHIVE.write_field)(&text, &name, output, written));
    writes("limit", |output, written| (ARCHIVE.write_limit)(u32::MAX, 2, &name, output, written));
    let (side, leaf) = (deep_query(23), [1, 1, 0, b'z']);
    writes("join", |output, written| (ARCHIVE.write_join)(2, &side, &leaf, output, written));
    writes("text tag", |output, written| (ARCHIVE.write_text_tag)(&name, &text, output, written));
    writes("dword tag", |output, written| (ARCHIVE.write_dword_tag)(&name, u32::MAX, output, written));
    writes("float tag", |output, written| (ARCHIVE.write_float_tag)(&name, u32::MAX, output, written));
    writes("hash tag", |output, written| (ARCHIVE.write_hash_tag)(&name, &hash, output, written));
    let tags = made(plain::LONE_TAGS, PACKET_CEILING);
    let count = u32::from_le_bytes([tags[0], tags[1], tags[2], tags[3]]);
    writes("tag list", |output, written| (ARCHIVE.write_tag_list)(&tags, 4, count, output, written));
    let query = deep_query(24);
    writes("query", |output, written| (ARCHIVE.write_query)(&query, 0, output, written));
}

#[test]
fn truth() {
    let (query, tags) = (deep_query(24), made(plain::LONE_TAGS, PACKET_CEILING));
    let mut holds = 9;
    accepted("truth", || (ARCHIVE.truth)(&query, &tags, &mut holds));
    assert_eq!(holds, 0);
}

fn reading_program() -> PathBuf {
    PathBuf::from(concat!(env!("CARGO_MANIFEST_DIR"), "/../crates/reading/out/reading"))
}

/// The program's line under a limit of its whole stack; none where it could not be started or was ended.
fn line_within(kib: usize, input: &[u8]) -> Option<String> {
    let mut program = Command::new("sh")
        .args(["-c", "ulimit -s \"$1\" && exec \"$0\""])
        .arg(reading_program())
        .arg(kib.to_string())
        .env_clear()
        .stdin(Stdio::piped())
        .stdout(Stdio::piped())
        .stderr(Stdio::null())
        .spawn()
        .expect("sh runs");
    // A program that was ended does not take its input.
    let _ = program.stdin.take().expect("a pipe").write_all(input);
    let output = program.wait_with_output().expect("sh ends");
    output.status.success().then(|| String::from_utf8_lossy(&output.stdout).trim_end().to_owned())
}

/// The least limit in KiB, found by trial, at which the program answers, and its line. One that has too little is ended.
fn least_limit(input: &[u8]) -> (usize, String) {
    let mut limits = (64..1_024).step_by(4);
    let answer = limits.find_map(|kib| Some((kib, line_within(kib, input)?)));
    answer.expect("a limit at which the program runs")
}

/// With no input the program needs its buffer of 64 KiB and what the system puts on the stack. The largest and the deepest inputs
/// may need 64 KiB more, for the library. (They need at most 8 KiB more, which is also how far the system moves the stack by chance.)
#[test]
fn reading_program_within_its_limit() {
    assert!(
        reading_program().exists(),
        "{} is not there: `rt ci`, or `rt run` in crates/reading, makes it, and this test needs it",
        reading_program().display()
    );
    let (alone, line) = least_limit(b"");
    assert_eq!(line, "refused 1");
    for (letter, bytes) in reading_inputs() {
        let (kib, line) = least_limit(&[&[letter], &bytes[..]].concat());
        println!("{}: {line} within {kib} KiB, {alone} with no input", char::from(letter));
        assert!(line.starts_with("accepted "), "{line}");
        assert!(kib <= alone + LIBRARY_KIB, "{kib} KiB");
    }
}

fn reading_inputs() -> Vec<(u8, Vec<u8>)> {
    let query = inputs::framed(plain::SERVER_LINK, &[&[0x16], &deep_query(24)[..]].concat());
    let mut lent = vec![(b's', query), (b'p', part_met_with_gaps()[..].to_vec())];
    for (kind, letter) in (0..).zip(*b"scukvp") {
        lent.push((letter, made(kind, PACKET_CEILING)));
    }
    lent.retain(|(_, bytes)| bytes.len() <= PACKET_CEILING);
    lent
}
