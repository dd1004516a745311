//! `save`: when it is accepted, and what it leaves in the folder.

#[path = "../support/attributes.rs"]
mod attributes;
mod locking;
mod merging;
mod sharing;

use std::ffi::OsStr;
use std::fs;
use std::os::unix::fs::{MetadataExt, PermissionsExt, symlink};
use std::process::Command;

use crate::packets;
use crate::studio::{COMMAND, Run, Studio, finish, full_output, samples};

#[test]
fn save_stores_the_new_file_and_keeps_permissions() {
    let studio = Studio::new();
    let (old, new) = (packets::part_met(1, 0, 100, &[(0, 100)]), packets::part_met(2, 0, 100, &[(0, 50)]));
    let stored = studio.file("the model.part.met", &old);
    fs::set_permissions(&stored, fs::Permissions::from_mode(0o640)).unwrap();
    studio.file("old copy", &old);
    studio.file("new", &new);
    for strict in [false, true] {
        studio.file("the model.part.met", &old);
        let words = save_words(strict, "old copy", "new", "the model.part.met");
        let run = studio.run(&words).expect(0);
        assert_eq!(run.stdout, "saved: 'the model.part.met' is now 'new', 72 bytes\n");
        assert_eq!(studio.bytes("the model.part.met"), new);
        assert_eq!(fs::metadata(&stored).unwrap().permissions().mode() & 0o777, 0o640);
        assert_eq!(studio.names(), ["new", "old copy", "the model.part.met"]);
    }
}

/// The words of a save of either kind.
fn save_words<'a>(strict: bool, opened: &'a str, new: &'a str, stored: &'a str) -> Vec<&'a str> {
    let words = ["save", "--strict", "--opened", opened, "--new", new, stored];
    words.into_iter().filter(|word| strict || *word != "--strict").collect()
}

#[test]
fn a_save_that_cannot_be_reported_says_that_it_is_saved() {
    let studio = Studio::new();
    let new = packets::part_met(2, 0, 100, &[]);
    studio.file("new", &new);
    let words = ["save", "--opened", "none", "--new", "new", "stored"];
    let mut command = studio.command(&words.map(OsStr::new));
    command.stdout(full_output());
    let run = finish(command).expect(2);
    assert!(run.stderr.ends_with("\n'stored' is saved.\n"), "{}", run.stderr);
    assert_eq!(studio.bytes("stored"), new);
}

#[test]
fn a_first_save_needs_both_to_be_empty_or_missing() {
    let new = packets::part_met(2, 0, 100, &[]);
    for strict in [true, false] {
        let studio = Studio::new();
        let save = |opened, stored| studio.run(&save_words(strict, opened, "new", stored));
        studio.file("new", &new);
        studio.file("empty", b"");
        save("new", "stored").expect(1);
        assert!(!studio.path("stored").exists());
        save("not there", "stored").expect(0);
        assert_eq!(studio.bytes("stored"), new);
        save("not there", "stored").expect(1);
        save("empty", "second").expect(0);
        save("/dev/null", "third").expect(0);
        save("not there", "empty").expect(0);
        for stored in ["second", "third", "empty"] {
            assert_eq!(studio.bytes(stored), new);
        }
    }
}

#[test]
fn save_checks_the_new_file_first() {
    let studio = Studio::new();
    studio.file("old", b"anything");
    studio.file("stored", b"anything else");
    let damaged = samples().join("overlapping_gaps.part.met");
    let damaged = damaged.to_str().unwrap();
    for (strict, opened) in [(true, "old"), (false, "old"), (false, "none")] {
        let run = studio.run(&save_words(strict, opened, damaged, "stored")).expect(1);
        let refused = format!("ed2k: '{damaged}' is refused 8: a start, end or gap breaks its rule\n");
        assert_eq!(run.stderr, format!("{refused}Nothing was saved: 'stored' is as it was.\n"));
        assert_eq!(studio.bytes("stored"), b"anything else");
    }
}

#[test]
fn neither_the_opened_nor_the_new_file_is_the_stored_one() {
    let studio = Studio::new();
    let stored = packets::part_met(1, 0, 100, &[]);
    studio.file("stored", &stored);
    studio.file("old", &stored);
    studio.file("new", &packets::part_met(2, 0, 100, &[]));
    fs::hard_link(studio.path("stored"), studio.path("second name")).unwrap();
    symlink("stored", studio.path("link")).unwrap();
    let number = fs::metadata(studio.path("stored")).unwrap().ino();
    for itself in ["stored", "./stored", "../studio/stored", "second name", "link"] {
        let run = studio.run(&["save", "--opened", itself, "--new", "new", "stored"]).expect(2);
        assert!(run.stderr.contains("--opened is STORED itself"), "{}", run.stderr);
        let run = studio.run(&["save", "--opened", "old", "--new", itself, "stored"]).expect(2);
        assert!(run.stderr.contains("--new is STORED itself"), "{}", run.stderr);
        assert!(run.stderr.ends_with("\nFor help: ed2k save --help\n"), "{}", run.stderr);
    }
    studio.run(&["save", "--opened", "old", "--new", "stored", "link"]).expect(2);
    assert_eq!(
        (studio.bytes("stored"), fs::metadata(studio.path("stored")).unwrap().ino()),
        (stored, number)
    );
}

/// Files that are no part.met are equal or not as any others are; where they are not, they cannot be merged.
#[test]
fn files_of_any_length_are_compared_to_their_end() {
    let studio = Studio::new();
    let new = packets::part_met(2, 0, 100, &[]);
    studio.file("new", &new);
    for length in [ed2k::MET_CEILING, ed2k::MET_CEILING + 1, 3 * ed2k::MET_CEILING] {
        let same = vec![7; length];
        let others = [[&same[1..], &[8]].concat(), same[1..].to_vec(), [&same[..], &[7]].concat()];
        for strict in [true, false] {
            studio.file("stored", &same);
            for other in &others {
                studio.file("old", other);
                let run = studio.run(&save_words(strict, "old", "new", "stored")).expect(1);
                let own = if other.len() > ed2k::MET_CEILING { 6 } else { 2 };
                let refused = match strict {
                    true => "ed2k: the save of 'new' is refused 11: ".into(),
                    false => format!("ed2k: the opened file 'old' is refused {own}: "),
                };
                assert!(run.stderr.starts_with(&refused), "{}", run.stderr);
            }
            studio.file("old", &same);
            studio.run(&save_words(strict, "old", "new", "stored")).expect(0);
            assert_eq!(studio.bytes("stored"), new);
        }
    }
}

/// One that is longer than the stored file, and than any part.met.
#[test]
fn of_an_opened_file_no_more_is_read_than_is_needed() {
    let studio = Studio::new();
    let new = packets::part_met(2, 0, 100, &[]);
    studio.file("new", &new);
    studio.file("stored", b"anything");
    for stored in ["stored", "not there"] {
        let run = studio.run(&save_words(true, "/dev/zero", "new", stored)).expect(1);
        assert!(run.stderr.starts_with("ed2k: the save of 'new' is refused 11: "), "{}", run.stderr);
        let run = studio.run(&save_words(false, "/dev/zero", "new", stored)).expect(1);
        assert!(run.stderr.starts_with("ed2k: the opened file '/dev/zero' is refused 6: "), "{}", run.stderr);
    }
    for strict in [true, false] {
        let run = studio.run(&save_words(strict, "/dev/zero", "stored", "new")).expect(1);
        assert!(run.stderr.starts_with("ed2k: 'stored' is refused 2: "), "{}", run.stderr);
    }
    assert_eq!((studio.bytes("stored"), studio.bytes("new")), (b"anything".to_vec(), new));
}

#[test]
fn what_a_killed_save_left_does_no_harm_and_is_removed() {
    let studio = Studio::new();
    let (old, new) = (packets::part_met(1, 0, 100, &[]), packets::part_met(2, 0, 100, &[]));
    studio.file("old", &old);
    studio.file("stored", &old);
    studio.file("new", &new);
    studio.file(".stored.saving", b"half a fi");
    studio.file(".stored.lock", b"");
    studio.run(&["save", "--strict", "--opened", "new", "--new", "new", "stored"]).expect(1);
    assert_eq!(studio.names(), ["new", "old", "stored"]);
    studio.file(".stored.saving", b"half a fi");
    studio.run(&["save", "--opened", "old", "--new", "new", "stored"]).expect(0);
    assert_eq!(studio.bytes("stored"), new);
    assert_eq!(studio.names(), ["new", "old", "stored"]);
}

#[test]
fn a_link_stays_a_link_and_its_file_is_saved() {
    let studio = Studio::new();
    let (old, new) = (packets::part_met(1, 0, 100, &[]), packets::part_met(2, 0, 100, &[]));
    fs::create_dir(studio.path("models")).unwrap();
    studio.file("models/stored", &old);
    studio.file("old", &old);
    studio.file("new", &new);
    symlink("models/stored", studio.path("link")).unwrap();
    studio.run(&["save", "--opened", "old", "--new", "new", "link"]).expect(0);
    assert!(studio.path("link").is_symlink());
    assert_eq!(studio.bytes("models/stored"), new);
    symlink("nowhere", studio.path("dangling")).unwrap();
    studio.run(&["save", "--opened", "not there", "--new", "new", "dangling"]).expect(2);
}

#[test]
fn read_only_files_and_folders_are_left_alone() {
    let studio = Studio::new();
    let (old, new) = (packets::part_met(1, 0, 100, &[]), packets::part_met(2, 0, 100, &[]));
    let stored = studio.file("stored", &old);
    studio.file("old", &old);
    studio.file("new", &new);
    let save = ["save", "--opened", "old", "--new", "new", "stored"];
    fs::set_permissions(&stored, fs::Permissions::from_mode(0o444)).unwrap();
    assert!(studio.run(&save).expect(2).stderr.contains("is read-only"));
    fs::set_permissions(&stored, fs::Permissions::from_mode(0o644)).unwrap();
    let command = studio.bound_command(&save);
    fs::set_permissions(&studio.folder, fs::Permissions::from_mode(0o555)).unwrap();
    let run = finish(command);
    let command = studio.bound_command(&["read", "p", "stored"]);
    fs::set_permissions(&stored, fs::Permissions::from_mode(0o000)).unwrap();
    let unreadable = finish(command);
    fs::set_permissions(&studio.folder, fs::Permissions::from_mode(0o755)).unwrap();
    fs::set_permissions(&stored, fs::Permissions::from_mode(0o644)).unwrap();
    assert!(run.expect(2).stderr.contains("Permission denied"));
    assert!(unreadable.expect(2).stderr.contains("Permission denied"));
    assert_eq!(studio.bytes("stored"), old);
}

/// A folder that may be written and not read takes the new file, but cannot be opened to be brought to the disk.
#[test]
fn a_save_whose_folder_cannot_be_synced_says_so() {
    let studio = Studio::new();
    let new = packets::part_met(2, 0, 100, &[]);
    studio.file("new", &new);
    fs::create_dir(studio.path("models")).unwrap();
    let command = studio.bound_command(&["save", "--opened", "none", "--new", "new", "models/stored"]);
    fs::set_permissions(studio.path("models"), fs::Permissions::from_mode(0o333)).unwrap();
    let run = finish(command);
    fs::set_permissions(studio.path("models"), fs::Permissions::from_mode(0o755)).unwrap();
    let run = run.expect(2);
    let tried = "ed2k: cannot bring the folder of 'models/stored' to the disk: Permission denied";
    assert!(run.stderr.starts_with(tried), "{}", run.stderr);
    let saved = "\n'models/stored' is saved, but a power cut might undo it.\n";
    assert!(run.stderr.ends_with(saved) && run.stdout.is_empty(), "{}{}", run.stdout, run.stderr);
    assert_eq!(studio.bytes("models/stored"), new);
}

/// A save of a larger file fails while it writes; the stored one must be as it was, and nothing left beside it.
fn assert_failed_write(studio: &Studio, run: Run, old: &[u8], beside: &[String]) {
    let run = run.expect(2);
    assert!(run.stderr.contains("cannot write"), "{}", run.stderr);
    let kept = "Nothing was lost: 'disk/stored' is as it was.\nYour work is still in 'new'.\n";
    assert!(run.stderr.ends_with(kept), "{}", run.stderr);
    assert_eq!(studio.bytes("disk/stored"), old);
    let names: Vec<String> = fs::read_dir(studio.path("disk"))
        .unwrap()
        .map(|entry| entry.unwrap().file_name().into_string().unwrap())
        .collect();
    assert_eq!(names, beside);
}

#[test]
#[cfg_attr(not(as_root), ignore = "only root can mount a small disk")]
fn a_full_disk_leaves_the_old_file() {
    let studio = Studio::new();
    fs::create_dir(studio.path("disk")).unwrap();
    let mut mount = Command::new("mount");
    mount.args(["-t", "tmpfs", "-o", "size=64k", "tmpfs"]).arg(studio.path("disk"));
    let mounted = mount.status().is_ok_and(|status| status.success());
    assert!(mounted, "a small disk must be mounted, which only root can do");
    let (old, new) = (packets::part_met(1, 1500, 100, &[]), packets::part_met(2, 3500, 100, &[]));
    studio.file("disk/stored", &old);
    studio.file("old", &old);
    studio.file("new", &new);
    let run = studio.run(&["save", "--opened", "old", "--new", "new", "disk/stored"]);
    let checked = std::panic::catch_unwind(|| assert_failed_write(&studio, run, &old, &["stored".into()]));
    let unmounted = Command::new("umount").arg(studio.path("disk")).status();
    assert!(unmounted.is_ok_and(|status| status.success()));
    assert!(checked.is_ok());
}

#[test]
fn a_file_that_may_not_grow_leaves_the_old_file() {
    let studio = Studio::new();
    fs::create_dir(studio.path("disk")).unwrap();
    let (old, new) = (packets::part_met(1, 0, 100, &[]), packets::part_met(2, 3500, 100, &[]));
    studio.file("disk/stored", &old);
    studio.file("old", &old);
    studio.file("new", &new);
    let mut command = Command::new("sh");
    command.args(["-c", "trap '' XFSZ; ulimit -f 8; exec \"$@\"", "sh", COMMAND]);
    command.args(["save", "--opened", "old", "--new", "new", "disk/stored"]).current_dir(&studio.folder);
    assert_failed_write(&studio, finish(command), &old, &["stored".into()]);
}
