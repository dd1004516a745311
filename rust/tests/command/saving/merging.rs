//! Saves over a file that was saved since it was opened: merged, unless they are strict or the merge is refused.

use std::ffi::OsStr;
use std::fs::{self, File};
use std::os::unix::fs::PermissionsExt;
use std::process::Command;

use ed2k::GapRecord;

use super::save_words;
use crate::models::{self, Model, SIZE, merged};
use crate::packets::{self, dword_tag};
use crate::studio::{Run, Studio, finish, full_output, samples};

const SAVE: [&str; 6] = ["save", "--opened", "opened", "--new", "new", "stored"];
const STRICT: [&str; 7] = ["save", "--strict", "--opened", "opened", "--new", "new", "stored"];

const CONFLICT: &str = "\
ed2k: the save of 'new' is refused 11: the stored file differs from the one
  opened
";
const SAVED_SINCE: &str = "\
'stored' is not what it was when 'opened' was opened: somebody has saved it
  since.
";
const KEPT: &str = "Nothing was lost: 'stored' is untouched, and your work is still in 'new'.\n";
const NOT_WRITTEN: &str = "Nothing was lost: nothing was written, and your work is still in 'new'.\n";
const WITHOUT_STRICT: &str = "To keep both, save without --strict, which merges them.\n";
const ADVICE: &str = "\
To keep the bytes of both, take the save that is right in this, and mark in it
  (ed2k mark) what the other has (ed2k gaps).
";

/// A folder with the files `opened`, `stored` and `new`.
fn studio(models: [&Model; 3]) -> Studio {
    models::folder(["opened", "stored", "new"], models)
}

/// The same where each save has another range.
fn toe_and_heel() -> Studio {
    studio(models::toe_and_heel().each_ref())
}

/// The save with its new file by standard input.
fn save_from_input(studio: &Studio, words: &[&str]) -> Command {
    let mut command = studio.command(&words.iter().map(OsStr::new).collect::<Vec<_>>());
    command.stdin(File::open(studio.path("new")).unwrap());
    command
}

/// The lines of a save that was merged, up to the empty one.
fn said(run: Run) -> Vec<String> {
    let run = run.expect(0);
    assert_eq!(run.stderr, "");
    run.stdout.lines().take_while(|line| !line.is_empty()).map(String::from).collect()
}

const MERGED: &str = "\
merged: 'stored' now holds your save and what was saved since, 80 bytes
stored   'stored' brought 10 bytes
new      'new' brought 10 bytes
date     2009-09-17 22:10:04 UTC, unchanged
hashes   unchanged
tags     unchanged

model    left last.stl
size     40 bytes, 1 part
there    20 bytes, 50.0 %
missing  20 bytes, 50.0 %, in 1 gap

  [##########....................##########]
  # there   . missing   + some of both
";

#[test]
fn a_save_over_what_was_saved_since_is_merged_and_says_what_each_brought() {
    let studio = toe_and_heel();
    fs::set_permissions(studio.path("stored"), fs::Permissions::from_mode(0o640)).unwrap();
    studio.file(".stored.saving", b"half a fi");
    studio.file(".stored.lock", b"");
    let run = studio.run(&SAVE).expect(0);
    assert_eq!((run.stdout.as_str(), run.stderr.as_str()), (MERGED, ""));
    assert_eq!(studio.bytes("stored"), merged());
    assert_eq!(fs::metadata(studio.path("stored")).unwrap().permissions().mode() & 0o777, 0o640);
    assert_eq!(studio.names(), ["new", "opened", "stored"]);
}

#[test]
fn a_save_by_standard_input_is_merged_too() {
    let studio = toe_and_heel();
    let words = ["save", "--opened", "opened", "--new", "-", "stored"];
    let run = finish(save_from_input(&studio, &words)).expect(0);
    assert_eq!(run.stdout, MERGED.replace("'new'", "standard input"));
    assert_eq!(studio.bytes("stored"), merged());
}

#[test]
fn a_merge_that_cannot_be_reported_says_that_it_is_saved() {
    let studio = toe_and_heel();
    let mut command = studio.command(&SAVE.map(OsStr::new));
    command.stdout(full_output());
    let run = finish(command).expect(2);
    assert!(run.stderr.ends_with("\n'stored' is saved.\n"), "{}", run.stderr);
    assert_eq!(studio.bytes("stored"), merged());
}

#[test]
fn it_is_said_from_which_file_each_thing_came() {
    let opened = Model::with_gaps(&[(20, 40)]);
    let stored = Model::with(|model| {
        model.date += 86_400;
        model.tags.push(dword_tag(&[0x14], 1));
        model.gaps = vec![(0, 5), (20, 30)];
    });
    let new = Model::with(|model| {
        model.parts = vec![0x5A];
        model.gaps = vec![(20, 40)];
    });
    let merged = Model::with(|model| {
        (model.date, model.parts) = (stored.date, new.parts.clone());
        (model.tags, model.gaps) = (stored.tags.clone(), stored.gaps.clone());
    });
    let studio = studio([&opened, &stored, &new]);
    let expected = [
        "merged: 'stored' now holds your save and what was saved since, 122 bytes",
        "stored   'stored' brought 10 bytes, and gave up 5 bytes",
        "new      'new' brought 0 bytes",
        "date     2009-09-18 22:10:04 UTC, from the stored file",
        "hashes   from the new file",
        "tags     from the stored file",
    ];
    assert_eq!(said(studio.run(&SAVE)), expected);
    assert_eq!(studio.bytes("stored"), merged.bytes());
}

/// The window's work is in the stored file already, as after a save whose answer did not arrive.
#[test]
fn a_save_that_was_made_before_is_merged_with_itself() {
    let [opened, saved] = [[(0, 40)], [(10, 40)]].map(|gaps| Model::with_gaps(&gaps));
    let studio = studio([&opened, &saved, &saved]);
    let lines = said(studio.run(&SAVE));
    assert_eq!(lines[0], "merged: 'stored' now holds your save and what was saved since, 80 bytes");
    assert_eq!(studio.bytes("stored"), saved.bytes());
}

/// A strict save of the same files says the same, whatever a merge would say.
fn assert_strict_conflict(studio: &Studio) {
    studio.assert_fails(&STRICT, 1, &format!("{CONFLICT}{SAVED_SINCE}{KEPT}{WITHOUT_STRICT}"));
}

/// What a refused strict save says to do, done.
#[test]
fn a_strict_save_is_in_conflict_with_what_was_saved_since() {
    let studio = toe_and_heel();
    assert_strict_conflict(&studio);
    let words = ["save", "--strict", "--opened", "opened", "--new", "-", "stored"];
    let by_input = "\
ed2k: the save of standard input is refused 11: the stored file differs from the
  one opened
'stored' is not what it was when 'opened' was opened: somebody has saved it
  since.
Nothing was lost: 'stored' is untouched, and your work is still with who sent it
  to standard input.
";
    let expected = format!("{by_input}{WITHOUT_STRICT}");
    studio.assert_command_fails(save_from_input(&studio, &words), 1, &expected);
    studio.run(&SAVE).expect(0);
    assert_eq!(studio.bytes("stored"), merged());
}

fn with_priority(priority: u32) -> Model {
    Model::with(|model| model.tags[2] = dword_tag(&[0x13], priority))
}

const PRIORITIES: &str = "\
Changed in two ways:
  priority (13)
    opened  DWORD 5
    stored  DWORD 6
    new     DWORD 7
";

#[test]
fn tags_that_were_changed_in_two_ways_are_a_conflict() {
    let studio = studio([5, 6, 7].map(with_priority).each_ref());
    let refused =
        "ed2k: the save of 'new' is refused 11: both saves changed the tags, in different\n  ways\n";
    let expected = format!("{refused}{SAVED_SINCE}{KEPT}{PRIORITIES}{ADVICE}");
    studio.assert_fails(&SAVE, 1, &expected);
    assert_strict_conflict(&studio);
    let words = ["save", "--opened", "opened", "--new", "-", "stored"];
    let refused = "\
ed2k: the save of standard input is refused 11: both saves changed the tags, in
  different ways
";
    let kept = "\
Nothing was lost: 'stored' is untouched, and your work is still with who sent it
  to standard input.
";
    let expected = format!("{refused}{SAVED_SINCE}{kept}{PRIORITIES}{ADVICE}");
    studio.assert_command_fails(save_from_input(&studio, &words), 1, &expected);
}

#[test]
fn hashes_that_were_changed_in_two_ways_are_a_conflict() {
    let both = |number: u8| {
        Model::with(|model| {
            model.parts = vec![number];
            model.tags[2] = dword_tag(&[0x13], number.into());
        })
    };
    let hashes = "\
Changed in two ways:
  Part hash list
    opened  1 hash
            part 1 05050505050505050505050505050505
    stored  1 hash
            part 1 06060606060606060606060606060606
    new     1 hash
            part 1 07070707070707070707070707070707
";
    let with_parts = |number: u8| Model::with(|model| model.parts = vec![number]);
    for (models, what, shown) in [
        ([5, 6, 7].map(with_parts), "the hashes, in\n  different ways", hashes.to_string()),
        (
            [5, 6, 7].map(both),
            "the hashes and the\n  tags, in different ways",
            format!("{hashes}{PRIORITIES}"),
        ),
    ] {
        let refused = format!("ed2k: the save of 'new' is refused 11: both saves changed {what}\n");
        let expected = format!("{refused}{SAVED_SINCE}{KEPT}{shown}{ADVICE}");
        studio(models.each_ref()).assert_fails(&SAVE, 1, &expected);
    }
}

/// aMule counts in its tag 23.
#[test]
fn two_saves_of_a_running_client_are_in_conflict() {
    let studio = Studio::new();
    let later = fs::read(samples().join("amule_001_later.part.met")).unwrap();
    let tag = dword_tag(&[0x23], 278);
    let at = later.windows(tag.len()).position(|bytes| bytes == tag).expect("the tag 23");
    let counted = [&later[..at], &dword_tag(&[0x23], 310), &later[at + tag.len()..]].concat();
    studio.file("opened", &fs::read(samples().join("amule_001_first.part.met")).unwrap());
    studio.file("stored", &later);
    studio.file("new", &counted);
    let run = studio.run(&SAVE).expect(1);
    for phrase in ["refused 11: both saves changed the tags", "Source exchange (23)", "new     DWORD 310"] {
        assert!(run.stderr.contains(phrase), "{}", run.stderr);
    }
    assert_eq!(studio.bytes("stored"), later);
}

#[test]
fn strangers_are_said_to_differ_in_which_files() {
    let model = |hash: u8, size: u32| {
        Model::with(|model| {
            model.hash = hash;
            model.tags[1] = dword_tag(&[0x02], size);
        })
    };
    let (one, saved, other) = (model(0xA0, SIZE), Model::with_gaps(&[(0, 9)]), model(0xB0, SIZE));
    let [a, b] = ["A0".repeat(16), "B0".repeat(16)];
    let hashes = |who: &str, [opened, stored, new]: [&str; 3]| {
        format!(
            "{who} file hash:\n  File hash\n    opened  {opened}\n    stored  {stored}\n    new     {new}\n"
        )
    };
    let sizes = "\
The stored file has another size:
  size (02)
    opened  40 bytes
    stored  50,000 bytes (48.8 KiB)
    new     40 bytes
";
    for (models, shown) in [
        ([&one, &saved, &other], hashes("The new file has another", [&a, &a, &b])),
        ([&one, &other, &saved], hashes("The stored file has another", [&a, &b, &a])),
        ([&other, &one, &saved], hashes("The opened file has another", [&b, &a, &a])),
        ([&one, &model(0xA0, 50_000), &saved], sizes.to_string()),
    ] {
        let refused = "ed2k: the save of 'new' is refused 12: the files are not of one model\n";
        let studio = studio(models);
        studio.assert_fails(&SAVE, 1, &format!("{refused}{SAVED_SINCE}{shown}{KEPT}"));
        assert_strict_conflict(&studio);
    }
}

#[test]
fn a_merge_above_the_limits_is_refused() {
    let gaps =
        |from: u32, to: u32| -> Vec<(u32, u32)> { (from..to).map(|gap| (gap * 4, gap * 4 + 1)).collect() };
    let model = |gaps: Vec<(u32, u32)>| packets::part_met(7, 0, 1000, &gaps);
    let studio = Studio::new();
    studio.file("opened", &model(vec![]));
    studio.file("stored", &model(gaps(0, 64)));
    studio.file("new", &model(gaps(64, 65)));
    let refused = "ed2k: the save of 'new' is refused 6: a ceiling is exceeded\n";
    let limits = "The merged file would have more than 64 gaps or more than 1,048,576 bytes.\n";
    studio.assert_fails(&SAVE, 1, &format!("{refused}{SAVED_SINCE}{limits}{KEPT}"));
    assert_strict_conflict(&studio);
    studio.file("new", &model(gaps(63, 64)));
    studio.run(&SAVE).expect(0);
    assert_eq!(studio.bytes("stored"), model(gaps(0, 64)));
}

/// NEW's own number comes first, then OLD's, then STORED's.
#[test]
fn a_file_that_is_refused_by_itself_is_named_with_its_number() {
    let sound = Model::with(|_| ());
    let saved = Model::with_gaps(&[(0, 9)]);
    let damaged = Model::with_gaps(&[(20, 10)]);
    let range = "a start, end or gap breaks its rule\n";
    let needed = "\
Your save would be merged with that, for which all three files must be accepted.
";
    for (models, refused) in [
        ([&damaged, &sound, &saved], "the opened file 'opened'"),
        ([&sound, &damaged, &saved], "the stored file 'stored'"),
    ] {
        let studio = studio(models);
        let expected = format!("ed2k: {refused} is refused 8: {range}{SAVED_SINCE}{needed}{KEPT}");
        studio.assert_fails(&SAVE, 1, &expected);
        assert_strict_conflict(&studio);
    }
    let studio = studio([&damaged, &sound, &damaged]);
    let kept = "Nothing was saved: 'stored' is as it was.\n";
    for words in [&SAVE[..], &STRICT] {
        studio.assert_fails(words, 1, &format!("ed2k: 'new' is refused 8: {range}{kept}"));
    }
    studio.file("stored", b"neither");
    studio.file("new", &sound.bytes());
    let run = studio.run(&SAVE).expect(1);
    assert!(run.stderr.starts_with("ed2k: the opened file 'opened' is refused 8: "), "{}", run.stderr);
}

/// Files that are no part.met are saved over where they are equal.
#[test]
fn what_is_equal_is_not_read() {
    for strict in [true, false] {
        let studio = Studio::new();
        studio.file("opened", b"no part.met");
        studio.file("stored", b"no part.met");
        studio.file("new", &merged());
        let run = studio.run(&save_words(strict, "opened", "new", "stored")).expect(0);
        assert_eq!(run.stdout, "saved: 'stored' is now 'new', 80 bytes\n");
        assert_eq!(studio.bytes("stored"), merged());
    }
}

/// How the refusal of a save begins over files of which only one is empty: strict, or of the file that is named.
fn refused(strict: bool, empty: &str) -> String {
    if strict {
        return CONFLICT.into();
    }
    format!("ed2k: {empty} is refused 1: the bytes end before the item being\n  read ends\n")
}

#[test]
fn a_stored_file_that_is_gone_or_empty_is_no_first_save_if_something_was_opened() {
    let advice = "For a first save, --opened names a file that is empty or not there.\n";
    for strict in [true, false] {
        let studio = toe_and_heel();
        let words = save_words(strict, "opened", "new", "stored");
        let refused = refused(strict, "the stored file 'stored'");
        fs::remove_file(studio.path("stored")).unwrap();
        let gone = "'stored' is not there, but 'opened', the copy of what was opened, is not empty.\n";
        studio.assert_fails(&words, 1, &format!("{refused}{gone}{NOT_WRITTEN}{advice}"));
        studio.file("stored", b"");
        let empty = "'stored' is empty, but 'opened', the copy of what was opened, is not.\n";
        studio.assert_fails(&words, 1, &format!("{refused}{empty}{KEPT}{advice}"));
    }
}

#[test]
fn a_stored_file_of_which_nothing_was_opened_is_left_alone() {
    let advice = "To keep both, open 'stored' again, make your change there, and save that.\n";
    for strict in [true, false] {
        let studio = toe_and_heel();
        let gone = "'stored' is there, but 'none', the copy of what was opened, is not.\n";
        let expected = format!("{}{gone}{KEPT}{advice}", refused(strict, "the opened file 'none'"));
        studio.assert_fails(&save_words(strict, "none", "new", "stored"), 1, &expected);
        studio.file("opened", b"");
        let empty = "'stored' is not empty, but 'opened', the copy of what was opened, is.\n";
        let expected = format!("{}{empty}{KEPT}{advice}", refused(strict, "the opened file 'opened'"));
        studio.assert_fails(&save_words(strict, "opened", "new", "stored"), 1, &expected);
    }
}

fn missing(studio: &Studio, name: &str) -> u64 {
    GapRecord::read(&studio.bytes(name)).unwrap().missing()
}

/// Each window goes on from what it has stored, which is what it opens next.
#[test]
fn windows_that_save_in_turn_go_on_from_what_is_stored() {
    let studio = Studio::new();
    let model = Model::with_gaps(&[(0, 40)]).bytes();
    studio.file("first window", &model);
    let save = |opened: &str, window: &str| {
        let run = studio.run(&["save", "--opened", opened, "--new", window, "stored"]).expect(0);
        run.stdout.split(':').next().unwrap().to_string()
    };
    let open = |window: &str| {
        studio.file(window, &studio.bytes("stored"));
        studio.file(&format!("{window}'s copy"), &studio.bytes("stored"));
    };
    let mark = |window: &str, start: u32| {
        studio.run(&["mark", window, &start.to_string(), &(start + 5).to_string()]).expect(0);
    };
    studio.run(&["save", "--strict", "--opened", "none", "--new", "first window", "stored"]).expect(0);
    open("one");
    open("other");
    for (start, missing_then) in [(0, 30), (10, 20), (20, 10), (30, 0)] {
        mark("one", start);
        mark("other", start + 5);
        // In the turn before, the other window saved after this one had opened the file again.
        assert_eq!(save("one's copy", "one"), if start == 0 { "saved" } else { "merged" });
        open("one");
        assert_eq!(save("other's copy", "other"), "merged");
        open("other");
        assert_eq!(missing(&studio, "stored"), missing_then);
    }
}

/// A mark of the stored file itself, between the opening and the saving of a window.
#[test]
fn a_mark_between_two_saves_is_kept() {
    let studio = Studio::new();
    for name in ["opened", "stored", "new"] {
        fs::copy(samples().join("amule_003.part.met"), studio.path(name)).unwrap();
    }
    studio.run(&["mark", "stored", "7,321,600", "9,728,000"]).expect(0);
    studio.run(&["mark", "new", "9,728,000", "19,456,000"]).expect(0);
    let expected = [
        "merged: 'stored' now holds your save and what was saved since, 245 bytes",
        "stored   'stored' brought 2,406,400 bytes (2.3 MiB)",
        "new      'new' brought 9,728,000 bytes (9.3 MiB)",
        "date     2026-11-15 16:01:32 UTC, unchanged",
        "hashes   unchanged",
        "tags     unchanged",
    ];
    assert_strict_conflict(&studio);
    assert_eq!(said(studio.run(&SAVE)), expected);
    assert_eq!(missing(&studio, "stored"), 0);
}
