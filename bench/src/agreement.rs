//! Holds the plain side to the archive on made inputs and on damaged ones, before it is measured.

use crate::comparison::Comparison;
use crate::files;
use crate::inputs::{self, Random};
use crate::plain::{KNOWN_MET, LONE_QUERY, LONE_TAGS, PART_MET, SERVER_MET};

const ROUNDS: u64 = 4_000;
const LONG_ROUNDS: u64 = 12;

const NAMES: [&str; 8] = [
    "server link",
    "client link",
    "UDP link",
    "known.met",
    "server.met",
    "part.met",
    "lone query",
    "lone tags",
];

pub fn assert_agreement() {
    let mut comparison = Comparison::new(0);
    for kind in 0..8 {
        comparison.rounds(ROUNDS, |comparison, random| {
            compare_reading(comparison, kind, &inputs::input(random, kind));
        });
        comparison.rounds(LONG_ROUNDS, |comparison, random| {
            let length = inputs::long_length(random, kind);
            compare_reading(comparison, kind, &inputs::long_input(random, kind, length));
        });
    }
    comparison.rounds(ROUNDS, |comparison, random| {
        let (kind, bytes) = message_of_a_line(random);
        compare_reading(comparison, kind, &perhaps_damaged(random, kind, bytes));
    });
    comparison.rounds(ROUNDS, compare_parts);
    comparison.rounds(ROUNDS, compare_merge);
    comparison.rounds(ROUNDS, compare_truth);
    comparison.rounds(ROUNDS, compare_marking);
}

fn compare_reading(comparison: &mut Comparison, kind: u8, bytes: &[u8]) {
    let name = NAMES[usize::from(kind)];
    comparison.fields(name, &[bytes], |calls, fields| (calls.read)(kind, bytes, fields));
    comparison.why(kind, bytes);
}

fn perhaps_damaged(random: &mut Random, kind: u8, bytes: Vec<u8>) -> Vec<u8> {
    if random.once_in(3) { bytes } else { inputs::damaged(random, kind, &bytes) }
}

/// As one of the lines reads it, and shorter.
fn message_of_a_line(random: &mut Random) -> (u8, Vec<u8>) {
    match random.below(5) {
        0 => (KNOWN_MET, inputs::client_known_met(random, 2_000)),
        1 => (SERVER_MET, inputs::grown(random, SERVER_MET, 2_000)),
        2 => {
            let mut query = Vec::new();
            files::leaves_query(random, 40, &mut query);
            (LONE_QUERY, query)
        }
        3 => (KNOWN_MET, files::models(random, 2_000).0),
        _ => (PART_MET, some_part(random)),
    }
}

fn some_part(random: &mut Random) -> Vec<u8> {
    let gaps = random.pick(&[1, 2, 8, 63, 64, 65]);
    match random.below(3) {
        0 => files::client_part(random, gaps).bytes,
        1 => files::long_part(random, 3_000, gaps).bytes,
        _ => inputs::message(random, PART_MET),
    }
}

/// The gaps of a file, other gaps put into it, and a save of it.
fn compare_parts(comparison: &mut Comparison, random: &mut Random) {
    let whole = some_part(random);
    let file = &perhaps_damaged(random, PART_MET, whole);
    let (_, record) = comparison.same("gaps", &[file], |calls| {
        let mut record = vec![7; 130];
        ((calls.read_gaps)(file, &mut record), record)
    });
    let put = inputs::some_record(random, record[0]);
    comparison.writing("put", &[file], |calls, output, written| {
        (calls.put_gaps)(file, &put, output, written)
    });
    let opened = perhaps_damaged(random, PART_MET, file.clone());
    let new = perhaps_damaged(random, PART_MET, file.clone());
    compare_saves(comparison, &[file.clone(), opened, new]);
}

fn compare_saves(comparison: &mut Comparison, files: &[Vec<u8>; 3]) {
    let _ = comparison.of_three("save", files, |calls| calls.save);
    let _ = comparison.of_three("strict save", files, |calls| calls.save_strict);
}

/// Saves of a small model, whose forms, tags and gaps are changed, or those of a line: merged, and
/// one saved over the other.
fn compare_merge(comparison: &mut Comparison, random: &mut Random) {
    let files = if random.once_in(2) {
        inputs::some_saves(random)
    } else {
        let gaps = random.pick(&[1, 8, 63, 64]);
        let part = files::long_part(random, 3_000, gaps);
        files::two_saves(random, &part).map(|file| perhaps_damaged(random, PART_MET, file))
    };
    let _ = comparison.of_three("merge", &files, |calls| calls.merge);
    let [opened, first, second] = files;
    compare_saves(comparison, &[first, opened, second]);
}

/// A query and a tag list that have little to do with each other, or those of a search.
fn compare_truth(comparison: &mut Comparison, random: &mut Random) {
    let mut query = Vec::new();
    let mut tags = Vec::new();
    if random.once_in(2) {
        files::pairs_query(random, 10, &mut query);
        files::model_tags(random, &mut tags);
    } else {
        query.extend(inputs::lone_query(random));
        tags.extend(inputs::lone_tags(random));
    }
    let query = &perhaps_damaged(random, LONE_QUERY, query);
    let tags = &perhaps_damaged(random, LONE_TAGS, tags);
    comparison.same("truth", &[query, tags], |calls| {
        let mut truth = 9;
        ((calls.truth)(query, tags, &mut truth), truth)
    });
}

fn compare_marking(comparison: &mut Comparison, random: &mut Random) {
    let size = u64::from(random.pick(inputs::SIZES));
    let record = inputs::some_record(random, size);
    let (start, end) = (random.next() % (size + 2), random.next() % (size + 2));
    comparison.same("mark", &[], |calls| {
        let (mut record, mut missing) = (record.clone(), 7);
        ((calls.mark)(&mut record, start, end, &mut missing), (record, missing))
    });
}
