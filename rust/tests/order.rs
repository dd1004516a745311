//! Order does not matter (02, No. 12): two saves change places in a merge, in a save and in time, and two ranges are marked in either
//! order, through the archive and in plain Rust. Number, length or count, and all that was lent are compared. The last three tests show
//! why the conditions under which this holds are needed.

mod archive;
mod comparison;
mod inputs;
mod plain;

use std::collections::BTreeMap;

use comparison::{Comparison, Left, Tally, are_accepted};
use ed2k::GapRecord;
use inputs::{Case, PartPlan, Random, Range, cases, gap_record, some_saves, two_ranges};
use plain::{Calls, GAP_NUMBERS, OfThree};

/// What a call leaves of a case in exactly its room, and what it leaves with the files in another order.
fn in_both_orders(
    comparison: &mut Comparison,
    case: &Case,
    order: [usize; 3],
    choose: fn(&Calls) -> OfThree,
) -> [Left; 2] {
    let files = case.files.each_ref().map(Vec::as_slice);
    let exchanged = order.map(|place| files[place]);
    [("given", files), ("exchanged", exchanged)]
        .map(|(name, files)| comparison.in_room(name, files, case.room, choose))
}

#[test]
fn every_merge_case_with_the_saves_exchanged() {
    let mut comparison = Comparison::new(60_000_000);
    let mut tally = Tally::default();
    for case in cases(include_str!("../../crates/test_merge/data/merges.txt")) {
        let [given, exchanged] = in_both_orders(&mut comparison, &case, [0, 2, 1], |calls| calls.merge);
        if are_accepted(&case.files) {
            assert!(given == exchanged, "line {}: {} and {}", case.line, given.0, exchanged.0);
            tally.count_number(given.0);
        }
    }
    println!("{} cases of three accepted files, by number: {:?}", tally.total(), tally.0);
    assert_eq!(comparison.counts("given").iter().sum::<u64>(), 526);
    assert_eq!(tally.total(), 451);
    assert_eq!(tally.0, [120, 0, 0, 0, 0, 0, 26, 0, 0, 0, 120, 65, 120]);
}

#[test]
fn every_save_case_with_the_windows_exchanged() {
    let mut comparison = Comparison::new(61_000_000);
    let mut tally = Tally::default();
    for case in cases(include_str!("../../crates/test_merge/data/saves.txt")) {
        let [given, exchanged] = in_both_orders(&mut comparison, &case, [2, 1, 0], |calls| calls.save);
        let [stored, opened, new] = &case.files;
        if stored == opened || !are_accepted(&case.files) {
            continue;
        }
        let merged = comparison.in_room("merge", [opened, new, stored], case.room, |calls| calls.merge);
        assert!(given == merged, "line {}: {} and {}", case.line, given.0, merged.0);
        if new != opened {
            assert!(given == exchanged, "line {}: {} and {}", case.line, given.0, exchanged.0);
            tally.count_number(given.0);
        }
    }
    let merges: u64 = comparison.counts("merge").iter().sum();
    println!("{merges} cases of a changed file");
    println!("{} cases of two changed files, by number: {:?}", tally.total(), tally.0);
    assert_eq!(merges, 102);
    assert_eq!(comparison.counts("given").iter().sum::<u64>(), 400);
    assert_eq!(tally.total(), 89);
    assert_eq!(tally.0, [23, 0, 0, 0, 0, 0, 1, 0, 0, 0, 17, 14, 34]);
}

const TRIPLES: u64 = 20_000;

/// One window saves over the file that both opened, then the other over what is stored then, in so much room: what the last save leaves.
fn saved_in_turn(comparison: &mut Comparison, opened: &[u8], [one, other]: [&[u8]; 2], room: usize) -> Left {
    let (number, (length, mut stored)) =
        comparison.in_room("first window", [opened, opened, one], one.len() + 4, |calls| calls.save);
    assert_eq!(number, 0, "a save over the file opened");
    stored.truncate(length);
    comparison.in_room("second window", [&stored, opened, other], room, |calls| calls.save)
}

#[test]
fn two_windows_in_either_order() {
    let mut comparison = Comparison::new(62_000_000);
    let mut tally = Tally::default();
    while tally.total() < TRIPLES {
        let files = some_saves(&mut comparison.next_input());
        let [opened, first, second] = &files;
        if first == opened || second == opened || !are_accepted(&files) {
            continue;
        }
        let mut saved_in_both_orders = |room| {
            let given = saved_in_turn(&mut comparison, opened, [first, second], room);
            let exchanged = saved_in_turn(&mut comparison, opened, [second, first], room);
            assert!(given == exchanged, "{} and {}: {files:02X?}", given.0, exchanged.0);
            given
        };
        let (number, (length, _)) = saved_in_both_orders(4_096 + first.len() + second.len());
        if number == 0 {
            assert_eq!(saved_in_both_orders(length).0, 0);
            assert_eq!(saved_in_both_orders(length - 1).0, 10);
        }
        tally.count_number(number);
    }
    println!("pairs of windows by number: {:?}", tally.0);
    tally.assert_at_least(&[(0, 12_000), (6, 100), (11, 2_500), (12, 2_000)]);
}

/// The record as numbers; the unused slots hold what `fill` says.
fn numbers_of(record: &GapRecord, fill: u64) -> Vec<u64> {
    let gaps = record.gaps().map(|gap| (gap.start, gap.end)).collect();
    gap_record(record.size(), &gaps, fill)
}

/// What two markings leave, one after the other.
#[derive(Debug, PartialEq)]
struct Marked {
    /// The number of each.
    numbers: [u8; 2],
    /// All of the lent numbers.
    lent: Vec<u64>,
    /// How many bytes are missing, as the second one says.
    missing: u64,
    /// The crate's own record, marked as the lent numbers are.
    record: GapRecord,
}

/// Marks in the lent numbers, which hold this record, and in the record. A refusal changes nothing; else the unused slots hold 0, and
/// what stands after the record stays.
fn marked_in_turn(
    comparison: &mut Comparison,
    record: &GapRecord,
    lent: &[u64],
    ranges: [Range; 2],
) -> Marked {
    let mut marked = Marked { numbers: [0; 2], lent: lent.to_vec(), missing: 0, record: record.clone() };
    marked.numbers = ranges.map(|(start, end)| {
        let (number, (left, missing)) = comparison.mark(&marked.lent, start, end);
        let (answer, expected) = match marked.record.mark(start, end) {
            Ok(missing) => ((0, missing), [&numbers_of(&marked.record, 0), &lent[GAP_NUMBERS..]].concat()),
            Err(refusal) => ((refusal.number(), 0), marked.lent.clone()),
        };
        assert_eq!((number, missing), answer, "{start} to {end} in {:?}", marked.lent);
        assert_eq!(left, expected, "{start} to {end} in {:?}", marked.lent);
        (marked.lent, marked.missing) = (left, missing);
        number
    });
    marked
}

/// A model of any size but 0, marked until it has as many gaps as wanted, mostly 62 to 64, or for a while if it is too small for them.
fn marked_record(random: &mut Random) -> GapRecord {
    let size = match random.below(4) {
        0 => u32::MAX.into(),
        1 => 1 + random.next() % u64::from(u32::MAX),
        _ => random.within(1, 2_000) as u64,
    };
    let wanted = if random.once_in(3) { random.within(0, 61) } else { random.within(62, 64) };
    let mut record = GapRecord::all_missing(size).expect("a size");
    if wanted == 0 {
        record.mark(0, size).expect("all of it");
    }
    for _ in 0..3 * wanted {
        if record.gaps().len() == wanted {
            break;
        }
        let start = random.next() % size;
        let end = size.min(start + 1 + random.next() % (size / 200 + 1));
        record.mark(start, end).expect("at most one gap more");
    }
    record
}

/// How two ranges that have bytes lie to each other.
fn position((start, end): Range, (other_start, other_end): Range) -> &'static str {
    let starts = start.cmp(&other_start);
    if end < other_start || other_end < start {
        "apart"
    } else if end == other_start || other_end == start {
        "touching"
    } else if starts.is_eq() && end == other_end {
        "equal"
    } else if starts != end.cmp(&other_end) {
        "nested"
    } else {
        "overlapping"
    }
}

const PAIRS: u64 = 100_000;

#[test]
fn pairs_of_ranges_in_either_order() {
    let mut comparison = Comparison::new(63_000_000);
    let (mut by_gaps, mut by_position) = ([0; 65], BTreeMap::new());
    let (mut too_many_in_one_order, mut outside) = (0, 0);
    comparison.rounds(PAIRS, |comparison, random| {
        let record = marked_record(random);
        let mut lent = numbers_of(&record, random.pick(&[0, 0, 7, u64::MAX]));
        lent.resize_with(random.pick(&[GAP_NUMBERS, GAP_NUMBERS + 1, 2 * GAP_NUMBERS]), || random.next());
        let [one, other] = two_ranges(random, &lent);
        let given = marked_in_turn(comparison, &record, &lent, [one, other]);
        let exchanged = marked_in_turn(comparison, &record, &lent, [other, one]);
        if [given.numbers, exchanged.numbers] == [[0; 2]; 2] {
            assert_eq!(given, exchanged, "{one:?} and {other:?} in {lent:?}");
            by_gaps[record.gaps().len()] += 1;
            *by_position.entry(position(one, other)).or_insert(0) += 1;
        }
        let has = |marked: &Marked, number| marked.numbers.contains(&number);
        too_many_in_one_order += u32::from(has(&given, 6) != has(&exchanged, 6));
        outside += u32::from(has(&given, 8));
        assert_eq!(has(&given, 8), has(&exchanged, 8), "whether a range is one depends on the size alone");
    });
    let (accepted, with_many_gaps) = (by_gaps.iter().sum::<u32>(), by_gaps[62..].iter().sum::<u32>());
    println!("{accepted} pairs with four accepted calls, {with_many_gaps} in 62 to 64 gaps: {by_position:?}");
    println!("{too_many_in_one_order} pairs with 6 in one order only, {outside} pairs with 8");
    assert!(accepted >= 50_000 && with_many_gaps >= 35_000);
    assert!(by_gaps.iter().all(|pairs| *pairs > 0), "{by_gaps:?}");
    let least =
        [("apart", 8_000), ("touching", 6_000), ("equal", 3_000), ("nested", 15_000), ("overlapping", 9_000)];
    for (position, least) in least {
        assert!(by_position[position] >= least, "{position}");
    }
    assert!(too_many_in_one_order >= 4_000 && outside >= 30_000);
}

/// The first save's own number comes before the second one's.
#[test]
fn a_refused_save_is_why_all_three_must_be_accepted() {
    let file = PartPlan::new(400).plain_file();
    let (empty, other_opening) = (Vec::new(), [&[0xE2], &file[1..]].concat());
    let mut comparison = Comparison::new(64_000_000);
    let mut merged = |first: &Vec<u8>, second: &Vec<u8>| {
        comparison.of_three("merge", &[&file, first, second].map(Vec::clone), |calls| calls.merge)
    };
    assert_eq!(merged(&empty, &other_opening), Err(1));
    assert_eq!(merged(&other_opening, &empty), Err(2));
    // One alone has its number at either place.
    for (refused, number) in [(&empty, 1), (&other_opening, 2)] {
        assert_eq!(merged(refused, &file), Err(number));
        assert_eq!(merged(&file, refused), Err(number));
    }
}

/// A part.met of a model of 100 bytes, with this date and these tags.
fn part_met(date: u8, tags: &[&[u8]]) -> Vec<u8> {
    let count = tags.len() as u8;
    [&[0xE0, date, 0, 0, 0][..], &[7; 16], &[0, 0], &[count, 0, 0, 0], &tags.concat()].concat()
}

/// A new file that is the one opened is merged with a changed file, but a changed file over the one opened is stored as it is.
#[test]
fn an_unchanged_save_is_why_both_windows_must_have_changed_it() {
    let size = &[3, 1, 0, 2, 100, 0, 0, 0];
    let gap_start = |start| [3, 2, 0, 9, b'0', start, 0, 0, 0];
    let gap_end = &[3, 2, 0, 10, b'0', 100, 0, 0, 0];
    let opened = part_met(9, &[size, &gap_start(0), gap_end]);
    // An older date, and the gap tags before the size.
    let changed = part_met(5, &[&gap_start(40), gap_end, size]);
    let merged = part_met(9, &[size, &gap_start(40), gap_end]);
    let mut comparison = Comparison::new(65_000_000);
    let mut saved = |stored: &Vec<u8>, new: &Vec<u8>| {
        comparison.of_three("save", &[stored, &opened, new].map(Vec::clone), |calls| calls.save)
    };
    assert_eq!(saved(&changed, &opened), Ok(merged));
    assert_eq!(saved(&opened, &changed).as_ref(), Ok(&changed));
}

/// A range inside of a gap makes one gap more, which a full record has no slot for until another range has taken a gap away.
#[test]
fn one_order_is_refused_6_and_the_other_is_not() {
    let mut full = GapRecord::all_missing(640).expect("a size");
    for at in (9..640).step_by(10) {
        full.mark(at, at + 1).expect("64 gaps");
    }
    assert_eq!((full.gaps().len(), full.missing()), (64, 576));
    let mut comparison = Comparison::new(66_000_000);
    let mut marked = |ranges| marked_in_turn(&mut comparison, &full, &numbers_of(&full, 0), ranges);
    let told = |marked: &Marked| (marked.numbers, marked.lent[1], marked.missing);
    let (inside, its_gap, another_gap) = ((3, 4), (0, 9), (10, 19));
    let (given, exchanged) = (marked([inside, another_gap]), marked([another_gap, inside]));
    assert_eq!(told(&given), ([6, 0], 63, 567));
    assert_eq!(told(&exchanged), ([0, 0], 64, 566));
    assert_eq!(given.lent[2..6], [0, 9, 20, 29]);
    assert_eq!(exchanged.lent[2..6], [0, 3, 4, 9]);
    // Where the other range has all bytes of the refused one, the same is left.
    let (given, exchanged) = (marked([inside, its_gap]), marked([its_gap, inside]));
    assert_eq!(told(&given), ([6, 0], 63, 567));
    assert_eq!(told(&exchanged), ([0, 0], 63, 567));
    assert_eq!(given.lent, exchanged.lent);
}
