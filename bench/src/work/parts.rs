//! The gaps of part.met files: reading, marking, putting, saving and merging.

use super::reading::reading;
use super::{Messages, Work, made};
use crate::files::{self, PartFile};
use crate::inputs::{self, Gaps, Random};
use crate::plain::{Calls, GAP_NUMBERS, MET_CEILING, OfThree, PART_MET, PLAIN};

const MARKS: usize = 192;
/// Room for a short file with more gaps than it has.
const SHORT_ROOM: usize = 4_096;

pub const LINES: &[fn() -> Work] = &[
    || read("part.met as aMule writes it", common_parts()),
    || read("part.met with 64 gaps", parts_of_many_gaps()),
    || read("part.met of 1 MiB of tags", longest_parts()),
    || read_gaps("gaps of a part.met as aMule writes it", common_parts()),
    || read_gaps("gaps of a part.met with 64 gaps", parts_of_many_gaps()),
    || read_gaps("gaps of a part.met of 1 MiB of tags", longest_parts()),
    marking,
    arrived_parts,
    puts,
    || saves("save of 4 KiB", 4_096, short_part, |calls| calls.save),
    longest_save,
    || saves("strict save of 4 KiB", 4_096, short_part, |calls| calls.save_strict),
    || saves("strict save of 1 MiB", 1 << 20, files::longest_part, |calls| calls.save_strict),
    || merging_saves("save that merges, 4 KiB, 64 gaps", 4_096, short_part_of_many_gaps),
    || merging_saves("save that merges, 1 MiB", 1 << 20, files::longest_part),
    || merges("merge of 4 KiB, 64 gaps", 4_096, short_part_of_many_gaps),
    || merges("merge of 1 MiB", 1 << 20, files::longest_part),
];

fn common_parts() -> impl Iterator<Item = PartFile> {
    made(512, files::common_part)
}

fn parts_of_many_gaps() -> impl Iterator<Item = PartFile> {
    made(2_048, |random| files::client_part(random, 64))
}

fn longest_parts() -> impl Iterator<Item = PartFile> {
    made(1 << 20, files::longest_part)
}

fn short_part(random: &mut Random) -> PartFile {
    files::long_part(random, 4_096, 8)
}

fn short_part_of_many_gaps(random: &mut Random) -> PartFile {
    files::long_part(random, 4_096, 64)
}

fn bytes_of(parts: impl Iterator<Item = PartFile>) -> Messages {
    parts.map(|part| part.bytes).collect()
}

fn read(name: &str, parts: impl Iterator<Item = PartFile>) -> Work {
    reading(name.into(), PART_MET, bytes_of(parts))
}

fn read_gaps(name: &str, parts: impl Iterator<Item = PartFile>) -> Work {
    let files = bytes_of(parts);
    let (count, amount) = (files.count(), files.bytes.len());
    let work = Work::new(name, count, move |calls, index, lent| {
        (calls.read_gaps)(files.at(index), &mut lent.gaps)
    });
    work.of_bytes(amount)
}

type Record = [u64; GAP_NUMBERS];

fn record_of(size: u64, gaps: &Gaps) -> Record {
    inputs::gap_record(size, gaps, 0).try_into().expect("a record has as many numbers")
}

/// In turn fills a gap, splits another, and takes a byte off a third. There are 63 or 64 gaps all
/// the time.
fn marking() -> Work {
    let step = 100_000;
    let gaps = (0..64).map(|gap| (step * gap, step * gap + step / 2)).collect();
    let record = record_of(64 * step, &gaps);
    let ranges = ranges_to_mark(&record);
    Work::new("marking at 64 gaps", MARKS, move |calls, index, lent| {
        if index == 0 {
            lent.gaps = record;
        }
        let (start, end) = ranges[index];
        (calls.mark)(&mut lent.gaps, start, end, &mut lent.missing)
    })
}

fn ranges_to_mark(record: &Record) -> Vec<(u64, u64)> {
    let mut record = *record;
    let ranges = (0..MARKS).map(|turn| {
        let slot = 2 + 2 * (turn * 29 % record[1] as usize);
        let (start, end) = (record[slot], record[slot + 1]);
        let middle = (start + end) / 2;
        let range = [(start, end), (middle, middle + 1), (start, start + 1)][turn % 3];
        assert_eq!((PLAIN.mark)(&mut record, range.0, range.1, &mut 0), 0);
        assert!(record[1] >= 63, "63 or 64 gaps are left");
        range
    });
    ranges.collect()
}

/// The way of one arrived part: it is marked, the gaps are put into the file, and that is saved
/// over the one opened and no other.
fn arrived_parts() -> Work {
    let parts: Vec<_> = common_parts().take(4_096).collect();
    let record = |part: &PartFile| record_of(part.size.into(), &part.gaps);
    let records: Vec<_> = parts.iter().map(record).collect();
    let first_gaps: Vec<_> = parts.iter().map(|part| part.gaps[0]).collect();
    let stored = bytes_of(parts.into_iter());
    let opened = stored.clone();
    let work = Work::new("mark, put and save a part", stored.count(), move |calls, index, lent| {
        let (start, end) = first_gaps[index];
        let (file, opened) = (stored.at(index), opened.at(index));
        lent.gaps = records[index];
        let marked = (calls.mark)(&mut lent.gaps, start, (start + end) / 2, &mut lent.missing);
        let put = (calls.put_gaps)(file, &lent.gaps, &mut lent.output, &mut lent.written);
        let new = &lent.output[..lent.written];
        marked + put + (calls.save_strict)(file, opened, new, &mut lent.saved, &mut lent.written)
    });
    work.with_room(SHORT_ROOM)
}

fn puts() -> Work {
    let parts: Vec<_> = longest_parts().collect();
    let gaps: Gaps = (0..64).map(|gap| (1_000 * gap, 1_000 * gap + 500)).collect();
    let records: Vec<_> = parts.iter().map(|part| record_of(part.size.into(), &gaps)).collect();
    let files = bytes_of(parts.into_iter());
    let (count, amount) = (files.count(), files.bytes.len());
    let work = Work::new("put 64 gaps into 1 MiB", count, move |calls, index, lent| {
        (calls.put_gaps)(files.at(index), &records[index], &mut lent.output, &mut lent.written)
    });
    work.of_bytes(amount).with_room(MET_CEILING)
}

/// Each file, of which the stored one and the one opened are copies, is replaced by the next.
fn saves(
    name: &str,
    length: usize,
    make: fn(&mut Random) -> PartFile,
    choose: impl Fn(&Calls) -> OfThree + 'static,
) -> Work {
    let stored = bytes_of(made(length, make));
    let opened = stored.clone();
    let (count, amount) = (stored.count(), stored.bytes.len());
    let work = Work::new(name, count, move |calls, index, lent| {
        let (old, opened, new) =
            (stored.at(index), opened.at(index), stored.at((index + 1) % count));
        choose(calls)(old, opened, new, &mut lent.saved, &mut lent.written)
    });
    work.of_bytes(amount).with_room(length)
}

pub fn longest_save() -> Work {
    saves("save of 1 MiB", 1 << 20, files::longest_part, |calls| calls.save)
}

fn merges(name: &str, length: usize, make: fn(&mut Random) -> PartFile) -> Work {
    of_two_saves(name, length, make, |calls, [opened, first, second], output, written| {
        (calls.merge)(opened, first, second, output, written)
    })
}

/// The second save, over the first one.
fn merging_saves(name: &str, length: usize, make: fn(&mut Random) -> PartFile) -> Work {
    of_two_saves(name, length, make, |calls, [opened, stored, new], output, written| {
        (calls.save)(stored, opened, new, output, written)
    })
}

/// A call on a file and two saves of it. The bytes of all three files count.
fn of_two_saves(
    name: &str,
    length: usize,
    make: fn(&mut Random) -> PartFile,
    call: impl Fn(&Calls, [&[u8]; 3], &mut [u8], &mut usize) -> u8 + 'static,
) -> Work {
    let three = |random: &mut Random| {
        let opened = make(random);
        files::two_saves(random, &opened)
    };
    let files: Messages = made(3 * length, three).flatten().collect();
    let (count, amount) = (files.count() / 3, files.bytes.len());
    let work = Work::new(name, count, move |calls, index, lent| {
        let files = [0, 1, 2].map(|file| files.at(3 * index + file));
        call(calls, files, &mut lent.output, &mut lent.written)
    });
    work.of_bytes(amount).with_room(length + SHORT_ROOM)
}

/// What a save of 1 MiB cannot do without: comparing, copying and reading as many bytes.
pub fn save_pieces() -> [Work; 3] {
    let stored = bytes_of(longest_parts());
    let count = stored.count();
    let [opened, copied, read] = [stored.clone(), stored.clone(), stored.clone()];
    let compare = Work::new("memcmp", count, move |_, index, _| {
        (stored.at(index) != opened.at(index)).into()
    });
    let copy = Work::new("memcpy", count, move |_, index, lent| {
        let file = copied.at(index);
        lent.saved[..file.len()].copy_from_slice(file);
        0
    });
    let read = reading("reading".into(), PART_MET, read);
    [compare, copy.with_room(MET_CEILING), read]
}
