//! Merging two saves of one model (02, No. 3): the archive is held to a merge in plain Rust that goes through the model byte by byte,
//! to answers of an independent reading, and to what No. 3 says of chosen files. Number, length and the whole output are compared, with
//! room to spare, with just enough and with too little.

mod archive;
mod comparison;
mod inputs;
mod plain;

use archive::ARCHIVE;
use comparison::{Comparison, Tally, are_accepted, written_into};
use ed2k::{GapRecord, Refusal};
use inputs::{
    Fault, HashForm, PartPlan, Random, cases, comb, faulty_saves, lawful_saves, plain_files, saves_of_size,
    some_saves, tags_of_length, text_tag, three_alike,
};
use plain::{Item, MET_CEILING, PART_MET, PLAIN};

/// What the call writes, or its number: the same on both sides, and as the crate has it.
fn compare(comparison: &mut Comparison, files: &[Vec<u8>; 3]) -> Result<Vec<u8>, u8> {
    let [opened, first, second] = files;
    let merged = comparison.of_three("merge", files, |calls| calls.merge);
    assert_eq!(ed2k::merge(opened, first, second).map_err(Refusal::number), merged);
    merged
}

/// Both orders of the saves: the answer to the given one. If each file is accepted by itself, the order changes nothing.
fn compare_both_orders(comparison: &mut Comparison, files: &[Vec<u8>; 3]) -> Result<Vec<u8>, u8> {
    let merged = compare(comparison, files);
    let [opened, first, second] = files.clone();
    let exchanged = compare(comparison, &[opened, second, first]);
    if are_accepted(files) {
        assert_eq!(merged, exchanged, "the saves changed places");
    }
    merged
}

const TRIPLES: u64 = 100_000;

#[test]
fn made_saves() {
    let mut comparison = Comparison::new(40_000_000);
    let (mut accepted, mut refused) = (Tally::default(), Tally::default());
    comparison.rounds(TRIPLES, |comparison, random| {
        let files = some_saves(random);
        let tally = if are_accepted(&files) { &mut accepted } else { &mut refused };
        tally.count(&compare_both_orders(comparison, &files));
    });
    println!("triples by number: {:?}, with a file that is refused by itself {:?}", accepted.0, refused.0);
    assert_eq!(accepted.total() + refused.total(), TRIPLES);
    accepted.assert_at_least(&[(0, 50_000), (6, 300), (11, 10_000), (12, 10_000)]);
    refused.assert_at_least(&[
        (1, 4_000),
        (2, 200),
        (5, 7_000),
        (6, 3_000),
        (7, 2_000),
        (8, 2_000),
        (9, 200),
    ]);
    comparison.assert_seen("merge", &[0, 1, 2, 5, 6, 7, 8, 9, 10, 11, 12]);
}

/// Models with several parts and blocks, and so with longer hash lists.
#[test]
fn saves_of_larger_models() {
    let mut comparison = Comparison::new(41_000_000);
    let mut tally = Tally::default();
    for (size, rounds) in [(486_400, 30), (486_401, 30), (972_801, 30), (9_728_000, 2), (9_728_001, 4)] {
        comparison.rounds(rounds, |comparison, random| {
            let files = saves_of_size(random, size).map(|plan| plan.file(random));
            tally.count(&compare_both_orders(comparison, &files));
        });
    }
    tally.assert_at_least(&[(0, 40), (11, 5)]);
}

/// The file with its size and the bounds of its gaps so many times as large.
fn stretched(file: &[u8], times: u32) -> Vec<u8> {
    let mut stretched = file.to_vec();
    let fields = plain::read(PART_MET, file).expect("a file");
    let [at, _, count] = fields.numbers()[4..7] else { unreachable!("three numbers") };
    let mut at = at as usize;
    for _ in 0..count {
        let tag = plain::read_item(Item::Tag, file, at).expect("a tag");
        let [next, kind, name, length, value] = tag.numbers()[..5] else { unreachable!("five numbers") };
        at = next as usize;
        let name = &file[name as usize..][..length as usize];
        if (kind == 3 && name == [2]) || matches!(name[0], 0x09 | 0x0A) {
            let value = u32::try_from(value).expect("a DWORD") * times;
            stretched[at - 4..at].copy_from_slice(&value.to_le_bytes());
        }
    }
    stretched
}

/// Whether an E1 has blocks, whose lengths hang on the size.
fn has_blocks(file: &[u8]) -> bool {
    matches!(plain::read(PART_MET, file).expect("a file").numbers()[7], 1..=3)
}

fn size_of(file: &[u8]) -> u32 {
    plain::read(PART_MET, file).expect("a file").numbers()[1] as u32
}

/// Models that are many times as large as one that can be gone through byte by byte, up to the largest size.
#[test]
fn saves_of_the_largest_models() {
    let mut comparison = Comparison::new(42_000_000);
    let mut tally = Tally::default();
    comparison.rounds(10_000, |comparison, random| {
        let files = lawful_saves(random);
        if files.iter().any(|file| has_blocks(file)) {
            return;
        }
        let merged = compare(comparison, &files);
        let largest = files.iter().map(|file| size_of(file)).max().expect("three files");
        let times = u32::MAX / largest.max(1);
        let [opened, first, second] = files.map(|file| stretched(&file, times));
        tally.count(&merged);
        let expected = merged.map(|merged| stretched(&merged, times));
        assert_eq!(ed2k::merge(&opened, &first, &second).map_err(Refusal::number), expected);
    });
    println!("triples by number: {:?}", tally.0);
    tally.assert_at_least(&[(0, 3_000), (6, 20), (11, 300), (12, 300)]);
}

#[test]
fn answers_of_an_independent_reading() {
    let mut comparison = Comparison::new(43_000_000);
    for case in cases(include_str!("../../crates/test_merge/data/merges.txt")) {
        comparison.case("case", &case, |calls| calls.merge);
        let merged = compare(&mut comparison, &case.files);
        assert!(case.number == 10 || merged.err().unwrap_or(0) == case.number, "line {}", case.line);
    }
    assert_eq!(comparison.counts("case"), [120, 7, 2, 0, 0, 16, 40, 0, 23, 13, 120, 65, 120]);
}

#[test]
fn every_refusal_before_all_later_ones() {
    for faults in Fault::combinations() {
        let (files, room) = faulty_saves(&faults);
        let expected = Fault::first_number(&Fault::ALL, &faults);
        for merge in [ARCHIVE.merge, PLAIN.merge] {
            let (number, _) = written_into(merge, room, files.each_ref().map(Vec::as_slice));
            assert_eq!(number, expected, "{faults:?}");
        }
    }
}

/// The number for these plans, on both sides and in both orders.
fn number_of(plans: &[PartPlan; 3]) -> u8 {
    let mut comparison = Comparison::new(44_000_000);
    compare_both_orders(&mut comparison, &plain_files(plans)).err().unwrap_or(0)
}

#[test]
fn strangers_differ_in_hash_or_size_in_any_two() {
    for stranger in 0..3 {
        for byte in 0..16 {
            let mut plans = three_alike();
            plans[stranger].hash[byte] ^= 0x80;
            assert_eq!(number_of(&plans), 12);
        }
        let mut plans = three_alike();
        plans[stranger].others = PartPlan::new(401).others;
        assert_eq!(number_of(&plans), 12);
    }
}

/// What two windows make of one thing, and the number of it.
fn assert_changes<T: Clone>(set: impl Fn(&mut PartPlan, T), changes: &[(u8, [T; 3])]) {
    for (index, (number, values)) in changes.iter().enumerate() {
        let mut plans = three_alike();
        for (plan, value) in plans.iter_mut().zip(values) {
            set(plan, value.clone());
        }
        assert_eq!(number_of(&plans), *number, "{index}");
    }
}

#[test]
fn tags_are_one_list() {
    let list = |names: &[u8]| names.iter().map(|name| text_tag(*name, b"text")).collect::<Vec<_>>();
    let changes: [(u8, [&[u8]; 3]); 14] = [
        (0, [&[1, 3], &[1, 3], &[1, 3]]),
        (0, [&[1, 3], &[1, 5], &[1, 3]]),
        (0, [&[1, 3], &[1, 5], &[1, 5]]),
        (0, [&[1, 3], &[3, 1], &[1, 3]]),
        (0, [&[1, 3], &[3, 1], &[3, 1]]),
        (0, [&[1, 3], &[], &[1, 3]]),
        (0, [&[1, 3], &[1], &[1]]),
        // Two tags, each changed by one window.
        (11, [&[1, 3], &[5, 3], &[1, 5]]),
        // One tag changed to two values, one changed and one removed, both removed.
        (11, [&[1, 3], &[1, 5], &[1, 8]]),
        (11, [&[1, 3], &[1, 5], &[1]]),
        (11, [&[1, 3], &[1], &[3]]),
        // Reordered and changed; added in two orders.
        (11, [&[1, 3], &[3, 1], &[1, 5]]),
        (11, [&[], &[1, 3], &[3, 1]]),
        (11, [&[1], &[1, 3], &[1, 3, 3]]),
    ];
    let changes = changes.map(|(number, lists)| (number, lists.map(list)));
    assert_changes(|plan, list| plan.others.extend(list), &changes);
}

#[test]
fn a_form_is_one_value() {
    let counted = |hashes: &[u8]| HashForm::Counted(hashes.iter().flat_map(|hash| [*hash; 16]).collect());
    let blocks = |lists: &[u8]| {
        HashForm::Blocks(lists.iter().zip([16, 8]).map(|(hash, length)| vec![*hash; length]).collect())
    };
    let changes = [
        (0, [counted(&[1]), counted(&[2]), counted(&[1])]),
        (0, [counted(&[1]), counted(&[2]), counted(&[2])]),
        (0, [counted(&[]), blocks(&[]), counted(&[])]),
        (0, [blocks(&[1]), blocks(&[1, 2]), blocks(&[1])]),
        (0, [blocks(&[1, 2]), blocks(&[]), blocks(&[])]),
        // One list of both is changed by each window.
        (11, [blocks(&[1, 2]), blocks(&[3, 2]), blocks(&[1, 3])]),
        (11, [blocks(&[1, 2]), blocks(&[1]), blocks(&[])]),
        (11, [counted(&[]), counted(&[1]), blocks(&[])]),
        (11, [blocks(&[]), counted(&[]), counted(&[1])]),
        (11, [counted(&[1, 2]), counted(&[2, 1]), counted(&[1])]),
    ];
    assert_changes(|plan, form| plan.form = form, &changes);
}

/// The form may be of one save and the tags of the other, with the date of either.
#[test]
fn each_part_is_of_the_save_that_changed_it() {
    let mut plans = three_alike();
    plans[0].gaps = vec![(0, 100), (200, 300)];
    plans[0].date = 9;
    plans[1] = PartPlan { form: HashForm::Blocks(vec![vec![3; 16]]), date: 5, ..plans[0].clone() };
    plans[1].gaps = vec![(50, 100), (200, 300), (350, 360)];
    plans[2] = PartPlan { date: 6, ..plans[0].clone() };
    plans[2].others.insert(0, text_tag(1, b"name"));
    plans[2].gaps = vec![(0, 100), (360, 400)];
    let expected = PartPlan {
        form: plans[1].form.clone(),
        date: 6,
        others: plans[2].others.clone(),
        gaps: vec![(50, 100), (350, 400)],
        ..plans[0].clone()
    };
    let [opened, first, second] = plain_files(&plans);
    assert_eq!(ed2k::merge(&opened, &first, &second), Ok(expected.plain_file()));
    assert_eq!(ed2k::merge(&opened, &second, &first), Ok(expected.plain_file()));
}

/// Where gap tags stand and how they are numbered is no change: the outcome is the same.
#[test]
fn gap_tags_may_stand_anywhere() {
    let mut random = Random::new(45_000_000);
    for _ in 0..2_000 {
        let plans = saves_of_size(&mut random, 300);
        let [opened, first, second] = plain_files(&plans);
        let expected = ed2k::merge(&opened, &first, &second);
        let [opened, first, second] = plans.map(|plan| plan.file(&mut random));
        assert_eq!(ed2k::merge(&opened, &first, &second), expected);
    }
}

/// Who changed nothing leaves the other's save as it is, but for the later date and the numbers of the gaps.
#[test]
fn a_window_that_changed_nothing() {
    let mut random = Random::new(46_000_000);
    for _ in 0..2_000 {
        let [opened, first, _] = saves_of_size(&mut random, 300);
        let expected = PartPlan { date: first.date.max(opened.date), ..first.clone() }.plain_file();
        let (opened, first) = (opened.file(&mut random), first.file(&mut random));
        assert_eq!(ed2k::merge(&opened, &first, &opened).as_ref(), Ok(&expected));
        assert_eq!(ed2k::merge(&opened, &opened, &first).as_ref(), Ok(&expected));
        let record = GapRecord::read(&opened).unwrap();
        assert_eq!(ed2k::merge(&opened, &opened, &opened), ed2k::put_gaps(&opened, &record));
    }
}

#[test]
fn the_most_gaps() {
    let mut plans = three_alike();
    plans[1].gaps = comb(0, 32);
    plans[2].gaps = comb(2, 32);
    assert_eq!(number_of(&plans), 0);
    plans[2].gaps = comb(2, 33);
    assert_eq!(number_of(&plans), 6);
    // One gap less where two of them touch.
    plans[2].gaps[0].0 -= 1;
    assert_eq!(number_of(&plans), 0);
    plans[1].gaps = comb(0, 64);
    plans[2].gaps = comb(2, 64);
    assert_eq!(number_of(&plans), 6);
    // Both miss all of the opened file's gaps, and of 64 that it has, what both miss.
    plans[0].gaps = comb(0, 64);
    plans[2].gaps = comb(0, 64);
    assert_eq!(number_of(&plans), 0);
}

#[test]
fn an_outcome_at_the_byte_ceiling() {
    let mut plans = three_alike();
    plans[1].form = HashForm::Counted(vec![7; 16 * 40_000]);
    plans[2].gaps = comb(0, 64);
    let [_, first, second] = plain_files(&plans);
    // The form and the tags that are there: the hash list of the first save is not in the second.
    let left = MET_CEILING - (first.len() + second.len() - plain_files(&three_alike())[0].len());
    for (length, expected) in [(left - 1, 0), (left, 0), (left + 1, 6)] {
        plans[2].others.truncate(1);
        plans[2].others.extend(tags_of_length(length));
        let [opened, first, second] = &plain_files(&plans);
        let merged_into = |room| written_into(ARCHIVE.merge, room, [opened, first, second]);
        assert_eq!(number_of(&plans), expected);
        let most = if expected == 0 { MET_CEILING - left + length } else { 0 };
        assert_eq!(merged_into(2 * MET_CEILING).1.len(), most);
        assert_eq!(merged_into(MET_CEILING).0, expected);
        assert_eq!(merged_into(MET_CEILING - 1).0, if length == left { 10 } else { expected });
    }
}
