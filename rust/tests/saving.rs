//! The save that merges with a changed file, and the strict one (01; 02, No. 8): the archive is held to saves in plain Rust, to answers
//! of an independent reading, and to what No. 8 says of chosen files. Number, length and the whole output are compared, with room to
//! spare, with just enough and with one byte less.

mod archive;
mod comparison;
mod inputs;
mod plain;

use std::collections::BTreeMap;

use archive::ARCHIVE;
use comparison::{Comparison, Tally, are_accepted, is_accepted, written_into};
use ed2k::{Gap, GapRecord, Refusal};
use inputs::{
    Fault, HashForm, PartPlan, Random, cases, comb, faulty_saves, plain_files, saves_of_size,
    stored_opened_new, three_alike,
};
use plain::{MET_CEILING, PLAIN};

/// Both saves, the same on both sides and as the crate has them: what the one that merges writes, or its number. The strict one is
/// refused as a conflict exactly where stored and opened differ and the new file is accepted. Where they are equal, both do the same.
fn compare(comparison: &mut Comparison, files: &[Vec<u8>; 3]) -> Result<Vec<u8>, u8> {
    let [stored, opened, new] = files;
    let saved = comparison.of_three("save", files, |calls| calls.save);
    assert_eq!(ed2k::save(stored, opened, new).map_err(Refusal::number), saved);
    let strict = comparison.of_three("strict save", files, |calls| calls.save_strict);
    assert_eq!(ed2k::save_strict(stored, opened, new).map_err(Refusal::number), strict);
    assert_eq!(strict == Err(11), stored != opened && is_accepted(new));
    assert!(stored != opened || saved == strict);
    saved
}

/// What a save finds.
#[derive(Clone, Copy, Debug, PartialEq, Eq, PartialOrd, Ord)]
enum Found {
    /// Nothing, and nothing was opened: a first save.
    Nothing,
    /// The bytes that were opened, which are no part.met.
    OpenedBytes,
    /// The file that was opened.
    OpenedFile,
    /// A changed file, where one of the three is refused by itself.
    Refused,
    /// A changed file, which is the new one.
    NewFile,
    /// A changed file that is another one.
    AnotherFile,
}

fn found(files: &[Vec<u8>; 3]) -> Found {
    let [stored, opened, new] = files;
    if stored == opened {
        match is_accepted(stored) {
            true => Found::OpenedFile,
            false if stored.is_empty() => Found::Nothing,
            false => Found::OpenedBytes,
        }
    } else if !are_accepted(files) {
        Found::Refused
    } else if stored == new {
        Found::NewFile
    } else {
        Found::AnotherFile
    }
}

const TRIPLES: u64 = 100_000;

#[test]
fn made_saves() {
    let mut comparison = Comparison::new(50_000_000);
    let mut tallies: BTreeMap<Found, Tally> = BTreeMap::new();
    comparison.rounds(TRIPLES, |comparison, random| {
        let files = stored_opened_new(random);
        tallies.entry(found(&files)).or_default().count(&compare(comparison, &files));
    });
    println!("triples by what was found and number: {tallies:?}");
    assert_eq!(tallies.values().map(Tally::total).sum::<u64>(), TRIPLES);
    let least: [(Found, &[(usize, u64)]); 6] = [
        (Found::Nothing, &[(0, 5_000), (1, 100), (5, 200), (6, 100), (7, 50), (8, 50)]),
        (Found::OpenedBytes, &[(0, 5_000), (1, 200), (5, 300), (6, 200), (7, 100), (8, 100)]),
        (Found::OpenedFile, &[(0, 10_000), (1, 100), (5, 200), (6, 100), (7, 50), (8, 50)]),
        (Found::Refused, &[(1, 10_000), (2, 200), (5, 6_000), (6, 3_000), (7, 1_500), (8, 1_500), (9, 200)]),
        (Found::NewFile, &[(0, 4_000), (12, 300)]),
        (Found::AnotherFile, &[(0, 25_000), (6, 200), (11, 5_000), (12, 5_000)]),
    ];
    for (found, least) in least {
        tallies[&found].assert_at_least(least);
    }
    comparison.assert_seen("save", &[0, 1, 2, 5, 6, 7, 8, 9, 10, 11, 12]);
    comparison.assert_seen("strict save", &[0, 1, 2, 5, 6, 7, 8, 9, 10, 11]);
}

/// Models with several parts and blocks, and so with longer hash lists.
#[test]
fn saves_of_larger_models() {
    let mut comparison = Comparison::new(51_000_000);
    let mut tally = Tally::default();
    for (size, rounds) in [(486_401, 30), (972_801, 30), (9_728_001, 4)] {
        comparison.rounds(rounds, |comparison, random| {
            let [opened, stored, new] = saves_of_size(random, size).map(|plan| plan.file(random));
            tally.count(&compare(comparison, &[stored, opened, new]));
        });
    }
    tally.assert_at_least(&[(0, 40), (11, 2)]);
}

/// Models that are too large to be gone through byte by byte: the save of a changed file is the merge.
#[test]
fn saves_of_the_largest_models() {
    let mut random = Random::new(52_000_000);
    let mut tally = Tally::default();
    for _ in 0..1_000 {
        let [opened, stored, new] = saves_of_size(&mut random, u32::MAX).map(|plan| plan.file(&mut random));
        let saved = ed2k::save(&stored, &opened, &new);
        let expected = if stored == opened { Ok(new) } else { ed2k::merge(&opened, &stored, &new) };
        assert_eq!(saved, expected);
        tally.count(&saved.map_err(Refusal::number));
    }
    tally.assert_at_least(&[(0, 600), (11, 50)]);
}

#[test]
fn answers_of_an_independent_reading() {
    let mut comparison = Comparison::new(53_000_000);
    for case in cases(include_str!("../../crates/test_merge/data/saves.txt")) {
        comparison.case("case", &case, |calls| calls.save);
        let saved = compare(&mut comparison, &case.files);
        assert!(case.number == 10 || saved.err().unwrap_or(0) == case.number, "line {}", case.line);
        let [stored, opened, new] = &case.files;
        let written = ed2k::save_into(stored, opened, new, &mut vec![0; case.room]).map_err(Refusal::number);
        let told = if case.number == 0 { Ok(case.output.len()) } else { Err(case.number) };
        assert_eq!(written, told, "line {}", case.line);
    }
    assert_eq!(comparison.counts("case"), [80, 80, 2, 0, 0, 25, 18, 33, 19, 10, 80, 14, 39]);
}

/// The stored file is the first save and the new one the second, whose own number comes before all others.
const ORDER: [Fault; 8] = [
    Fault::Second,
    Fault::Opened,
    Fault::First,
    Fault::Strangers,
    Fault::TwoWays,
    Fault::TooManyGaps,
    Fault::TooManyBytes,
    Fault::NoRoom,
];

#[test]
fn every_refusal_before_all_later_ones() {
    for faults in Fault::combinations() {
        let ([opened, stored, new], room) = faulty_saves(&faults);
        let numbers =
            |save, strict| [save, strict].map(|save| written_into(save, room, [&stored, &opened, &new]).0);
        let strict = if faults.contains(&Fault::Second) { 1 } else { 11 };
        let expected = [Fault::first_number(&ORDER, &faults), strict];
        assert_eq!(numbers(ARCHIVE.save, ARCHIVE.save_strict), expected, "{faults:?}");
        assert_eq!(numbers(PLAIN.save, PLAIN.save_strict), expected, "{faults:?}");
    }
}

/// Only the new file and the room count, whatever the stored file is.
#[test]
fn every_fault_over_the_file_that_was_opened() {
    for faults in Fault::combinations() {
        let ([opened, stored, new], room) = faulty_saves(&faults);
        let number = Fault::first_number(&[Fault::Second, Fault::NoRoom], &faults);
        let expected = (number, if number == 0 { new.clone() } else { Vec::new() });
        for old in [opened, stored] {
            for save in [ARCHIVE.save, ARCHIVE.save_strict, PLAIN.save, PLAIN.save_strict] {
                assert!(written_into(save, room, [&old, &old.clone(), &new]) == expected, "{faults:?}");
            }
        }
    }
}

/// The outcome of these plans of the file opened, the stored one and the new one, in just enough room and in one byte less; it is so
/// much longer than the new file.
fn assert_outcome(plans: &[PartPlan; 3], expected: &PartPlan, longer: isize) {
    let [opened, stored, new] = &plain_files(plans);
    let outcome = expected.plain_file();
    assert_eq!(outcome.len() as isize - new.len() as isize, longer);
    for save in [ARCHIVE.save, PLAIN.save] {
        let saved_into = |room| written_into(save, room, [stored, opened, new]);
        assert_eq!(saved_into(outcome.len()), (0, outcome.clone()));
        assert_eq!(saved_into(outcome.len() - 1), (10, Vec::new()));
        assert_eq!(saved_into(new.len()).0, if longer > 0 { 10 } else { 0 });
    }
    assert_eq!(ed2k::save(stored, opened, new), Ok(outcome));
}

#[test]
fn room_is_asked_for_the_outcome() {
    // What the new file has not: part hashes of the stored one.
    let mut plans = three_alike();
    plans[1].form = HashForm::Counted(vec![7; 16 * 10]);
    plans[2].gaps = comb(0, 3);
    let expected = PartPlan { form: plans[1].form.clone(), ..plans[2].clone() };
    assert_outcome(&plans, &expected, 160);
    // What the stored file misses no more: three gaps of two tags, of 9 bytes each.
    plans = three_alike();
    plans[0].gaps = comb(0, 5);
    plans[1].gaps = comb(0, 2);
    plans[2] = PartPlan { date: 5, ..plans[0].clone() };
    let expected = PartPlan { gaps: comb(0, 2), ..plans[2].clone() };
    assert_outcome(&plans, &expected, -54);
}

/// Another bit in any byte, a byte more, a byte less: the stored file is not the one opened, and is merged with the new one.
#[test]
fn a_difference_anywhere() {
    let plan = PartPlan { gaps: comb(0, 3), ..PartPlan::new(400) };
    let (opened, new) = (plan.plain_file(), PartPlan::new(400).plain_file());
    let differ_in_one_byte = (0..opened.len()).map(|at| {
        let mut stored = opened.clone();
        stored[at] ^= 1;
        stored
    });
    let (longer, shorter) = ([&opened[..], &[0]].concat(), opened[..opened.len() - 1].to_vec());
    let mut comparison = Comparison::new(56_000_000);
    for stored in differ_in_one_byte.chain([longer, shorter]) {
        let merged = ed2k::merge(&opened, &stored, &new).map_err(Refusal::number);
        assert_eq!(compare(&mut comparison, &[stored, opened.clone(), new.clone()]), merged);
    }
    comparison.assert_seen("strict save", &[11]);
}

/// The toe arrived in one window and the heel in another.
#[test]
fn two_windows_save_what_arrived() {
    let mut plans = three_alike();
    plans[0].gaps = vec![(0, 400)];
    plans[1].gaps = vec![(100, 400)];
    plans[2].gaps = vec![(0, 300)];
    let [opened, toe, heel] = plain_files(&plans);
    let stored = ed2k::save(&opened, &opened, &toe).expect("a save over the file opened");
    assert_eq!(stored, toe);
    assert_eq!(ed2k::save_strict(&stored, &opened, &heel), Err(Refusal::Conflict));
    let both = ed2k::save(&stored, &opened, &heel).expect("a merge");
    let gaps: Vec<Gap> = GapRecord::read(&both).expect("a file").gaps().collect();
    assert_eq!(gaps, [Gap { start: 100, end: 300 }]);
}

/// Another window saved the same bytes since: what is written is the outcome of the merge, and not these bytes.
#[test]
fn a_stored_file_that_is_the_new_one() {
    let mut random = Random::new(54_000_000);
    let mut others = 0;
    for _ in 0..2_000 {
        let [opened, save, _] = saves_of_size(&mut random, 300);
        let (opened, new) = (opened.file(&mut random), save.file(&mut random));
        let expected = if new == opened { new.clone() } else { save.plain_file() };
        others += u32::from(expected != new);
        assert_eq!(ed2k::save(&new, &opened, &new), Ok(expected));
    }
    assert!(others > 500, "{others} outcomes have other bytes");
}

#[test]
fn files_that_are_not_there() {
    let file = PartPlan::new(400).plain_file();
    assert_eq!(ed2k::save(b"", b"", &file).as_ref(), Ok(&file), "a first save");
    assert_eq!(ed2k::save(b"", &file, &file), Err(Refusal::Short), "the stored file is gone");
    assert_eq!(ed2k::save(&file, b"", &file), Err(Refusal::Short), "another window was the first");
    assert_eq!(ed2k::save(&file, &file, b""), Err(Refusal::Short), "no new file");
    for (stored, opened) in [(&b""[..], &file[..]), (&file, b"")] {
        assert_eq!(ed2k::save_strict(stored, opened, &file), Err(Refusal::Conflict));
    }
}

/// Bytes that are no part.met at each of the three places, two and two, with their own numbers.
#[test]
fn bytes_that_are_no_file() {
    let file = PartPlan::new(400).plain_file();
    let short = file[..file.len() - 1].to_vec();
    let none = [
        (1, Vec::new()),
        (2, b"no part.met".to_vec()),
        (1, short),
        (7, [&file[..], &[0]].concat()),
        (6, vec![0xE0; MET_CEILING + 1]),
    ];
    let mut comparison = Comparison::new(55_000_000);
    for (number, bytes) in &none {
        for (other_number, other) in &none {
            let mut saved = |files: [&Vec<u8>; 3]| compare(&mut comparison, &files.map(Vec::clone));
            let over = if bytes == other { Ok(file.clone()) } else { Err(*other_number) };
            assert_eq!(saved([bytes, other, &file]), over, "stored and opened");
            assert_eq!(saved([&file, other, bytes]), Err(*number), "opened and new");
            assert_eq!(saved([other, &file, bytes]), Err(*number), "stored and new");
        }
    }
}
