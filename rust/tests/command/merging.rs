//! `merge`: what it makes of three files, what it says, and what it leaves in the folder.

mod refusals;

use std::ffi::OsStr;
use std::fs::{self, File};
use std::os::unix::fs::{PermissionsExt, symlink};
use std::process;

use ed2k::GapRecord;

use crate::models::{self, Model, merged};
use crate::packets;
use crate::studio::{PATIENT, Run, Studio, finish, full_output, samples, wait};

const MERGE: [&str; 6] = ["merge", "--opened", "opened", "first", "second", "out"];

/// A folder with the files `opened`, `first` and `second`.
fn studio(models: [&Model; 3]) -> Studio {
    models::folder(["opened", "first", "second"], models)
}

/// The same where each save has another range.
fn toe_and_heel() -> Studio {
    studio(models::toe_and_heel().each_ref())
}

/// The lines of a merge up to the empty one, of which the first is left out.
fn sources(run: Run) -> Vec<String> {
    let run = run.expect(0);
    assert_eq!(run.stderr, "");
    run.stdout.lines().skip(1).take_while(|line| !line.is_empty()).map(String::from).collect()
}

#[test]
fn two_saves_make_one_file_with_the_bytes_of_both() {
    let studio = toe_and_heel();
    let run = studio.run(&MERGE).expect(0);
    let expected = "\
merged   'out', 80 bytes
first    'first' brought 10 bytes
second   'second' brought 10 bytes
date     2009-09-17 22:10:04 UTC, unchanged
hashes   unchanged
tags     unchanged

model    left last.stl
size     40 bytes, 1 part
there    20 bytes, 50.0 %
missing  20 bytes, 50.0 %, in 1 gap

  [##########....................##########]
  # there   . missing   + some of both
";
    assert_eq!((run.stdout.as_str(), run.stderr.as_str()), (expected, ""));
    assert_eq!(studio.bytes("out"), merged());
    assert_eq!(studio.names(), ["first", "opened", "out", "second"]);
}

#[test]
fn out_may_hold_what_one_of_the_three_holds() {
    for out in ["opened", "first", "second", "copy", "./second", "link"] {
        let studio = toe_and_heel();
        studio.file("copy", &studio.bytes("opened"));
        symlink("first", studio.path("link")).unwrap();
        let names = studio.names();
        let before = ["opened", "first", "second", "copy"].map(|name| studio.bytes(name));
        let run = studio.run(&["merge", "--opened", "opened", "first", "second", out]).expect(0);
        assert!(run.stdout.starts_with(&format!("merged   '{out}', 80 bytes\n")), "{}", run.stdout);
        assert_eq!(studio.bytes(out), merged());
        let after = ["opened", "first", "second", "copy"].map(|name| studio.bytes(name));
        assert_eq!(before.iter().zip(&after).filter(|(before, after)| before != after).count(), 1);
        assert_eq!(studio.names(), names);
        assert!(studio.path("link").is_symlink());
    }
}

#[test]
fn any_other_file_is_left_alone() {
    let studio = toe_and_heel();
    for other in [Model::with_gaps(&[(5, 6)]).bytes(), b"a person's work".to_vec(), vec![]] {
        studio.file("out", &other);
        let expected = "\
ed2k: 'out' is there and is none of the three files: it is left alone
Nothing was written: 'out' is as it was, and your work is still in 'first' and
  'second'.
OUT is a file that is not there yet, or one with the bytes of OLD, FIRST or
  SECOND.
";
        studio.assert_fails(&MERGE, 2, expected);
    }
}

#[test]
fn permissions_are_kept_and_what_a_killed_save_left_is_removed() {
    let studio = toe_and_heel();
    fs::set_permissions(studio.path("first"), fs::Permissions::from_mode(0o640)).unwrap();
    studio.file(".first.saving", b"half a fi");
    studio.file(".first.lock", b"");
    studio.run(&["merge", "--opened", "opened", "first", "second", "first"]).expect(0);
    assert_eq!(studio.bytes("first"), merged());
    assert_eq!(fs::metadata(studio.path("first")).unwrap().permissions().mode() & 0o777, 0o640);
    assert_eq!(studio.names(), ["first", "opened", "second"]);
}

#[test]
fn it_is_said_from_whom_date_hashes_and_tags_came() {
    let opened = Model::with(|_| ());
    let newer = Model::with(|model| model.date += 86_400);
    let older = Model::with(|model| model.date -= 86_400);
    let hashed = Model::with(|model| model.parts = vec![0x5A]);
    let other_form = Model::with(|model| model.opening = 0xE1);
    let tagged = Model::with(|model| model.tags.push(packets::dword_tag(&[0x14], 1)));
    let moved = Model::with(|model| model.tags.reverse());
    let (day, next) = ("2009-09-17 22:10:04 UTC", "2009-09-18 22:10:04 UTC");
    let before = "2009-09-16 22:10:04 UTC";
    let unchanged = format!("{day}, unchanged");
    for (first, second, date, hashes, tags) in [
        (&newer, &opened, format!("{next}, from the first save"), "unchanged", "unchanged"),
        (&opened, &newer, format!("{next}, from the second save"), "unchanged", "unchanged"),
        (&newer, &newer, format!("{next}, the same in both"), "unchanged", "unchanged"),
        (&older, &older, format!("{before}, the same in both"), "unchanged", "unchanged"),
        (&opened, &older, format!("{day}, from the first save"), "unchanged", "unchanged"),
        (&hashed, &opened, unchanged.clone(), "from the first save", "unchanged"),
        (&opened, &other_form, unchanged.clone(), "from the second save", "unchanged"),
        (&hashed, &hashed, unchanged.clone(), "the same in both", "unchanged"),
        (&tagged, &opened, unchanged.clone(), "unchanged", "from the first save"),
        (&opened, &moved, unchanged.clone(), "unchanged", "from the second save"),
        (&tagged, &tagged, unchanged.clone(), "unchanged", "the same in both"),
        (&tagged, &hashed, unchanged.clone(), "from the second save", "from the first save"),
    ] {
        let studio = studio([&opened, first, second]);
        let said = sources(studio.run(&MERGE));
        let expected = [format!("date     {date}"), format!("hashes   {hashes}"), format!("tags     {tags}")];
        assert_eq!(said[2..], expected);
        let expected = Model::with(|model| {
            model.date = first.date.max(second.date);
            model.opening = changed([&opened, first, second].map(|model| &model.opening));
            model.parts = changed([&opened, first, second].map(|model| &model.parts));
            model.tags = changed([&opened, first, second].map(|model| &model.tags));
        });
        assert_eq!(studio.bytes("out"), expected.bytes());
    }
}

/// The value that is not the opened one, if there is such.
fn changed<T: Clone + PartialEq>([opened, first, second]: [&T; 3]) -> T {
    if first == opened { second.clone() } else { first.clone() }
}

#[test]
fn bytes_that_a_save_gave_up_are_missing_and_said() {
    let opened = Model::with_gaps(&[(20, 40)]);
    let first = Model::with_gaps(&[(0, 5), (20, 30)]);
    let second = Model::with_gaps(&[(20, 40)]);
    let studio = studio([&opened, &first, &second]);
    let said = sources(studio.run(&MERGE));
    let expected =
        ["first    'first' brought 10 bytes, and gave up 5 bytes", "second   'second' brought 0 bytes"];
    assert_eq!(said[..2], expected);
    assert_eq!(studio.bytes("out"), Model::with_gaps(&[(0, 5), (20, 30)]).bytes());
}

#[test]
fn a_model_that_is_whole_or_has_no_bytes_is_merged() {
    let [opened, first, second] = [&[(0, 40)][..], &[(0, 20)], &[(20, 40)]].map(Model::with_gaps);
    let studio = studio([&opened, &first, &second]);
    let run = studio.run(&MERGE).expect(0);
    let ending = "missing  0 bytes, 0 %\n\n  [########################################]\n  \
                  # there   . missing   + some of both\n";
    assert!(run.stdout.ends_with(ending), "{}", run.stdout);
    for name in ["opened", "first", "second"] {
        studio.file(name, &packets::part_met(7, 0, 0, &[]));
    }
    let run = studio.run(&["merge", "--opened", "opened", "first", "second", "none"]).expect(0);
    assert!(run.stdout.ends_with("there    0 bytes, 0 %\nmissing  0 bytes, 0 %\n"), "{}", run.stdout);
}

/// What `mark` saved of a stock client's file, in two windows.
#[test]
fn marked_copies_of_a_clients_file_are_merged() {
    let studio = Studio::new();
    for name in ["opened", "first", "second"] {
        fs::copy(samples().join("amule_003.part.met"), studio.path(name)).unwrap();
    }
    studio.run(&["mark", "first", "7,321,600", "9,728,000"]).expect(0);
    studio.run(&["mark", "second", "9,728,000", "19,456,000"]).expect(0);
    let said = sources(studio.run(&["merge", "--opened", "opened", "first", "second", "first"]));
    let expected = [
        "first    'first' brought 2,406,400 bytes (2.3 MiB)",
        "second   'second' brought 9,728,000 bytes (9.3 MiB)",
        "date     2026-11-15 16:01:32 UTC, unchanged",
        "hashes   unchanged",
        "tags     unchanged",
    ];
    assert_eq!(said, expected);
    assert_eq!(GapRecord::read(&studio.bytes("first")).unwrap().missing(), 0);
}

#[test]
fn merges_made_at_the_same_time_all_count() {
    const WINDOWS: u32 = 12;
    let studio = Studio::new();
    let opened = packets::part_met(9, 0, 2 * WINDOWS, &[(0, 2 * WINDOWS)]);
    studio.file("opened", &opened);
    studio.file("stored", &opened);
    let windows: Vec<String> = (0..WINDOWS).map(|window| format!("w{window}")).collect();
    for (name, window) in windows.iter().zip(0..) {
        let gaps = [(0, 2 * window), (2 * window + 1, 2 * WINDOWS)];
        studio.file(name, &packets::part_met(9, 0, 2 * WINDOWS, &gaps[usize::from(window == 0)..]));
    }
    let merge = |window: &String| {
        studio.spawn(&["merge", "--wait", PATIENT, "--opened", "opened", "stored", window, "stored"])
    };
    let merges: Vec<_> = windows.iter().map(merge).collect();
    for child in merges {
        wait(child).expect(0);
    }
    let record = GapRecord::read(&studio.bytes("stored")).unwrap();
    assert_eq!(record.missing(), u64::from(WINDOWS));
    assert!(record.gaps().all(|gap| gap.start % 2 == 1 && gap.byte_count() == 1));
    assert_eq!(studio.names().len(), 2 + windows.len());
}

#[test]
fn who_waited_for_the_lock_in_vain_is_told_who_holds_it() {
    let studio = toe_and_heel();
    let lock = File::create(studio.path(".out.lock")).unwrap();
    lock.lock().unwrap();
    let run = studio.run(&[&["merge", "--wait", "0"], &MERGE[1..]].concat()).expect(2);
    let (held, kept) = run.stderr.split_once('\n').unwrap();
    let holder = format!("ed2k: 'out' is being saved by process {} of user ", process::id());
    assert!(held.starts_with(&holder), "{held}");
    let expected = "\
Nothing was lost: 'out' is as it was.
Your work is still in 'first' and 'second'.
Waited 0 seconds for it. Try again, or wait longer with --wait SECONDS.
If that process hangs, end it: the lock is then free by itself.
";
    assert_eq!((run.stdout.as_str(), kept), ("", expected));
    assert_eq!(studio.names(), [".out.lock", "first", "opened", "second"]);
}

#[test]
fn a_merge_that_cannot_be_reported_says_that_it_is_saved() {
    let studio = toe_and_heel();
    let mut command = studio.command(&MERGE.map(OsStr::new));
    command.stdout(full_output());
    let run = finish(command).expect(2);
    assert!(run.stderr.ends_with("\n'out' is saved.\n"), "{}", run.stderr);
    assert_eq!(studio.bytes("out"), merged());
}

#[test]
fn wrong_words_are_said() {
    let studio = toe_and_heel();
    fs::hard_link(studio.path("first"), studio.path("second name")).unwrap();
    symlink("opened", studio.path("link")).unwrap();
    let opened_is_first = "--opened is FIRST itself: what FIRST changed could not be seen\n\
        It takes a copy that was made when the file was opened.";
    let opened_is_second = "--opened is SECOND itself: what SECOND changed could not be seen\n\
        It takes a copy that was made when the file was opened.";
    let first_is_second = "FIRST is SECOND itself: there would be nothing to merge\n\
        They are two files, each with the work of one window.";
    for (words, problem) in [
        (&["merge"][..], "needs FIRST, SECOND and OUT; 0 given"),
        (&["merge", "--opened", "opened", "first", "second"], "needs FIRST, SECOND and OUT; 2 given"),
        (&["merge", "first", "second", "out"], "--opened is needed"),
        (&["merge", "first", "second", "out", "--opened"], "--opened needs a value after it"),
        (&["merge", "--new", "x", "first", "second", "out"], "there is no option '--new'"),
        (
            &["merge", "--wait", "soon", "--opened", "opened", "first", "second", "out"],
            "--wait is a number of seconds in decimal, not 'soon'",
        ),
        (&["merge", "--opened", "link", "opened", "second", "out"], opened_is_first),
        (&["merge", "--opened", "opened", "first", "./opened", "out"], opened_is_second),
        (&["merge", "--opened", "opened", "first", "second name", "out"], first_is_second),
    ] {
        studio.assert_fails(words, 2, &format!("ed2k: {problem}\nFor help: ed2k merge --help\n"));
    }
}

#[test]
fn files_that_cannot_be_read_are_named() {
    let studio = toe_and_heel();
    let missing = |name: &str| {
        format!("ed2k: cannot read '{name}': No such file or directory (os error 2)\nNothing was written.\n")
    };
    studio.assert_fails(&["merge", "--opened", "none", "no", "second", "out"], 2, &missing("none"));
    studio.assert_fails(&["merge", "--opened", "opened", "no", "nor", "out"], 2, &missing("no"));
    studio.assert_fails(&["merge", "--opened", "opened", "first", "nor", "out"], 2, &missing("nor"));
    let run = studio.run(&["merge", "--opened", "opened", "first", "second", "no folder/out"]).expect(2);
    assert!(run.stderr.starts_with("ed2k: cannot find 'no folder/out': "), "{}", run.stderr);
    let run = studio.run(&["merge", "--opened", "opened", "first", "second", "/dev/null"]).expect(2);
    assert!(run.stderr.starts_with("ed2k: '/dev/null' is not a file\n"), "{}", run.stderr);
}

#[test]
fn json_has_the_numbers_of_the_merge_and_of_the_model() {
    let studio = toe_and_heel();
    let json = [&["merge", "--json"], &MERGE[1..]].concat();
    let expected = concat!(
        r#"{"number":0,"length":80,"owner_kept":true,"#,
        r#""first":{"brought":10,"given_up":0},"second":{"brought":10,"given_up":0},"#,
        r#""date_from":"unchanged","hashes_from":"unchanged","tags_from":"unchanged","#,
        r#""model":"left last.stl","hash":"A0A0A0A0A0A0A0A0A0A0A0A0A0A0A0A0","size":40,"parts":1,"#,
        r#""there":20,"missing":20,"gaps":[{"start":10,"end":30}]}"#,
        "\n"
    );
    assert_eq!(studio.run(&json).expect(0).stdout, expected);
    studio.file("second", &Model::with(|model| model.hash = 7).bytes());
    fs::remove_file(studio.path("out")).unwrap();
    let run = studio.run(&json).expect(1);
    assert_eq!(run.stdout, "{\"number\":12,\"meaning\":\"the files are not of one model\"}\n");
    assert!(run.stderr.starts_with("ed2k: the merge of 'first' and 'second' is refused 12: "));
    assert!(!studio.path("out").exists());
}
