//! `mark`.

use std::ffi::OsStr;
use std::fs;
use std::os::unix::fs::MetadataExt;

use ed2k::GapRecord;

use crate::packets;
use crate::studio::{PATIENT, Studio, finish, full_output, wait};

#[test]
fn mark_saves_the_new_gaps_and_a_dry_run_does_not() {
    let studio = Studio::new();
    let old = packets::part_met(9, 3, 100, &[(0, 100)]);
    studio.file("a model.part.met", &old);
    let dry = studio.run(&["mark", "--dry-run", "a model.part.met", "40", "60"]).expect(0);
    assert_eq!(
        dry.stdout,
        "arrived  20 bytes\nmissing  80 bytes, 80.0 %, in 2 gaps\nnot saved, as --dry-run asks\n"
    );
    assert_eq!(studio.bytes("a model.part.met"), old);
    let run = studio.run(&["mark", "a model.part.met", "40", "60"]).expect(0);
    assert!(run.stdout.ends_with("saved    'a model.part.met', 138 bytes\n"), "{}", run.stdout);
    assert_eq!(studio.bytes("a model.part.met"), packets::part_met(9, 3, 100, &[(0, 40), (60, 100)]));
    assert_eq!(studio.names(), ["a model.part.met"]);
}

#[test]
fn mark_takes_numbers_as_gaps_prints_them() {
    let studio = Studio::new();
    let old = packets::part_met(9, 0, 3_000_000, &[(1_000_000, 2_500_000)]);
    studio.file("file", &old);
    assert!(studio.run(&["gaps", "file"]).expect(0).stdout.contains("1,000,000 to 2,500,000"));
    studio.run(&["mark", "file", "1,000,000", "2500000"]).expect(0);
    assert_eq!(studio.bytes("file"), packets::part_met(9, 0, 3_000_000, &[]));
    studio.run(&["mark", "file", "1,00,000", "2,500,000"]).expect(2);
}

#[test]
fn a_mark_that_cannot_be_reported_says_that_it_is_saved() {
    let studio = Studio::new();
    studio.file("file", &packets::part_met(9, 0, 100, &[(0, 100)]));
    let mut command = studio.command(&["mark", "file", "0", "60"].map(OsStr::new));
    command.stdout(full_output());
    let run = finish(command).expect(2);
    assert!(run.stderr.ends_with("\n'file' is saved.\n"), "{}", run.stderr);
    assert_eq!(studio.bytes("file"), packets::part_met(9, 0, 100, &[(60, 100)]));
}

#[test]
fn a_refused_mark_changes_nothing() {
    let studio = Studio::new();
    let gaps: Vec<(u32, u32)> = (0..64).map(|n| (n * 4, n * 4 + 3)).collect();
    let file = packets::part_met(9, 0, 256, &gaps);
    studio.file("file", &file);
    for (start, end, number) in [("5", "5", 8), ("0", "257", 8), ("9", "3", 8), ("1", "2", 6)] {
        let run = studio.run(&["mark", "file", start, end]).expect(1);
        assert!(run.stderr.contains(&format!("refused {number}: ")), "{}", run.stderr);
        assert!(run.stderr.contains("Nothing was changed."));
        assert_eq!(studio.bytes("file"), file);
    }
    studio.run(&["mark", "not there", "0", "1"]).expect(2);
    assert_eq!(studio.names(), ["file"]);
}

/// The gaps of this file would be written anew after its other tags: that must not happen for nothing.
#[test]
fn a_mark_of_bytes_that_have_arrived_leaves_the_file_as_it_is() {
    let studio = Studio::new();
    let tags = [
        packets::dword_tag(b"\x09700", 40),
        packets::dword_tag(b"\x0A700", 60),
        packets::dword_tag(&[0x02], 100),
    ];
    let file = [&[0xE0, 9, 0, 0, 0][..], &packets::HASH, &[0, 0], &packets::list(&tags)].concat();
    let path = studio.file("file", &file);
    studio.file("opened", &file);
    let number = fs::metadata(&path).unwrap().ino();
    for (start, end) in [("0", "40"), ("60", "61"), ("99", "100")] {
        let run = studio.run(&["mark", "file", start, end]).expect(0);
        assert_eq!(
            run.stdout,
            "arrived  0 bytes\nmissing  20 bytes, 20.0 %, in 1 gap\n\
             these bytes had arrived before: 'file' is as it was\n"
        );
        assert_eq!((studio.bytes("file"), fs::metadata(&path).unwrap().ino()), (file.clone(), number));
    }
    studio.file("new", &packets::part_met(9, 0, 100, &[(40, 50)]));
    studio.run(&["save", "--strict", "--opened", "opened", "--new", "new", "file"]).expect(0);
    studio.run(&["mark", "file", "39", "41"]).expect(0);
    assert_eq!(studio.bytes("file"), packets::part_met(9, 0, 100, &[(41, 50)]));
}

#[test]
fn marks_made_at_the_same_time_all_count() {
    const MARKS: u64 = 24;
    let studio = Studio::new();
    studio.file("file", &packets::part_met(9, 0, 2 * MARKS as u32, &[(0, 2 * MARKS as u32)]));
    let mark = |n: u64| {
        let (start, end) = ((2 * n).to_string(), (2 * n + 1).to_string());
        studio.spawn(&["mark", "--wait", PATIENT, "file", &start, &end])
    };
    let marks: Vec<_> = (0..MARKS).map(mark).collect();
    for child in marks {
        wait(child).expect(0);
    }
    let record = GapRecord::read(&studio.bytes("file")).unwrap();
    assert_eq!(record.missing(), MARKS);
    assert!(record.gaps().all(|gap| gap.start % 2 == 1 && gap.byte_count() == 1));
    assert_eq!(studio.names(), ["file"]);
}
