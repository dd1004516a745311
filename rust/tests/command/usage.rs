//! Help, wrong words, and files that cannot be read or written.

use std::ffi::OsStr;
use std::fs;
use std::io::Read;
use std::os::unix::ffi::OsStrExt;
use std::process::Command;

use crate::packets;
use crate::studio::{Studio, finish, full_output};

#[test]
fn names_may_be_any_the_system_allows() {
    let studio = Studio::new();
    let new = packets::part_met(2, 0, 100, &[]);
    let strange = OsStr::from_bytes(b"last \xFF\n'x'");
    fs::write(studio.folder.join(strange), &new).unwrap();
    let run = finish(studio.command(&[OsStr::new("read"), OsStr::new("p"), strange])).expect(0);
    assert_eq!(run.stdout, format!("accepted 224 {}\n", new.len()));
    let stored = OsStr::from_bytes(b"\xFE stored");
    let [save, opened, none, as_new] = ["save", "--opened", "none", "--new"].map(OsStr::new);
    finish(studio.command(&[save, opened, none, as_new, strange, stored])).expect(0);
    assert_eq!(fs::read(studio.folder.join(stored)).unwrap(), new);
    studio.file("--new", &new);
    studio.run(&["read", "p", "--", "--new"]).expect(0);
}

#[test]
fn files_that_are_missing_or_no_files_are_errors() {
    let studio = Studio::new();
    let new = packets::part_met(2, 0, 100, &[]);
    studio.file("new", &new);
    fs::create_dir(studio.path("folder")).unwrap();
    for words in [
        &["read", "p", "not there"][..],
        &["show", "p", "folder"],
        &["why", "s", "not there"],
        &["why", "--json", "c", "folder"],
        &["gaps", "new/file"],
        &["mark", "folder", "0", "1"],
        &["search", "not there", "new"],
        &["save", "--opened", "none", "--new", "not there", "stored"],
        &["save", "--opened", "none", "--new", "new", "folder"],
        &["save", "--opened", "folder", "--new", "new", "stored"],
        &["save", "--opened", "none", "--new", "new", "new/stored"],
        &["save", "--opened", "none", "--new", "new", "no folder/stored"],
        &["save", "--opened", "none", "--new", "new", "/proc/stored.part.met"],
        &["save", "--opened", "none", "--new", "new", ".."],
        &["save", "--opened", "none", "--new", "new", "/"],
    ] {
        let run = studio.run(words).expect(2);
        assert!(run.stderr.starts_with("ed2k: "), "{}", run.stderr);
        assert_eq!(run.stdout, "");
    }
    assert_eq!(studio.bytes("new"), new);
    assert_eq!(studio.names(), ["folder", "new"]);
}

/// A pipe that nobody writes to would be waited for.
#[test]
fn a_stored_file_that_is_no_file_is_left_alone() {
    let studio = Studio::new();
    studio.file("new", &packets::part_met(2, 0, 100, &[]));
    let made = Command::new("mkfifo").arg(studio.path("pipe")).status();
    assert!(made.expect("mkfifo runs").success());
    for stored in ["pipe", "/dev/null"] {
        for words in [&["mark", stored, "0", "1"][..], &["save", "--opened", "none", "--new", "new", stored]]
        {
            assert!(studio.run(words).expect(2).stderr.contains("is not a file"), "{stored}");
        }
    }
    assert_eq!(studio.names(), ["new", "pipe"]);
}

#[test]
fn a_name_may_be_as_long_as_the_system_allows() {
    let studio = Studio::new();
    let (old, new) = (packets::part_met(1, 0, 100, &[]), packets::part_met(2, 0, 100, &[]));
    let (one, other) = (format!("{}1", "n".repeat(254)), format!("{}2", "n".repeat(254)));
    studio.file("old", &old);
    studio.file("new", &new);
    studio.file(&one, &old);
    studio.file(&other, &old);
    studio.run(&["save", "--opened", "old", "--new", "new", &one]).expect(0);
    assert_eq!((studio.bytes(&one), studio.bytes(&other)), (new, old));
    assert_eq!(studio.names(), ["new", &one, &other, "old"]);
}

#[test]
fn wrong_usage_gives_2_and_says_where_help_is() {
    let studio = Studio::new();
    studio.file("file", b"");
    for words in [
        &[][..],
        &["unheard-of"],
        &["--unheard-of"],
        &["help", "unheard-of"],
        &["help", "read", "show"],
        &["read"],
        &["read", "s"],
        &["read", "s", "file", "file"],
        &["read", "x", "file"],
        &["read", "sc", "file"],
        &["show", "", "file"],
        &["why"],
        &["why", "s"],
        &["why", "s", "file", "file"],
        &["why", "x", "file"],
        &["why", "--json=yes", "s", "file"],
        &["gaps"],
        &["gaps", "--unheard-of", "file"],
        &["gaps", "--unheard-of=file", "file"],
        &["gaps", "--json=yes", "file"],
        &["mark", "--dry-run=", "file", "1", "2"],
        &["mark", "file", "1"],
        &["mark", "file", "one", "2"],
        &["mark", "file", "-1", "2"],
        &["mark", "file", "1", "99999999999999999999"],
        &["search", "file"],
        &["save", "stored"],
        &["save", "--opened", "file", "stored"],
        &["save", "--opened", "file", "--new"],
        &["save", "--opened", "file", "--opened", "file", "--new", "file", "stored"],
        &["save", "--opened=file", "--opened", "file", "--new", "file", "stored"],
        &["save", "--strict=yes", "--opened", "none", "--new", "file", "stored"],
    ] {
        let run = studio.run(words).expect(2);
        assert!(run.stderr.contains("For help: ed2k "), "{words:?}: {}", run.stderr);
        assert_eq!(run.stdout, "");
    }
    assert_eq!(studio.names(), ["file"]);
}

const SUBCOMMANDS: [&str; 8] = ["read", "show", "why", "gaps", "mark", "search", "save", "merge"];

/// The first line that is too long.
fn long_line(printed: &str) -> Option<&str> {
    printed.lines().find(|line| line.chars().count() > 80)
}

#[test]
fn every_subcommand_has_help_within_80_columns() {
    let studio = Studio::new();
    let all = SUBCOMMANDS.map(|name| vec![name, "--help"]);
    for words in all.iter().map(|words| &words[..]).chain([&["--help"][..], &["save", "--opened", "a", "-h"]])
    {
        let run = studio.run(words).expect(0);
        assert!(run.stdout.contains("Exit status: 0"), "{}", run.stdout);
        assert_eq!(long_line(&run.stdout), None);
        assert_eq!(run.stderr, "");
    }
    let overview = studio.run(&["--help"]).expect(0).stdout;
    for name in SUBCOMMANDS {
        assert!(overview.contains(&format!("  ed2k {name} ")), "{name}");
    }
    assert!(studio.run(&["--version"]).expect(0).stdout.starts_with("ed2k "));
}

#[test]
fn help_about_a_subcommand_is_its_help() {
    let studio = Studio::new();
    for name in SUBCOMMANDS {
        let help = studio.run(&["help", name]).expect(0).stdout;
        assert_eq!(help, studio.run(&[name, "--help"]).expect(0).stdout);
        assert!(help.starts_with(&format!("ed2k {name} ")), "{help}");
    }
    let overview = studio.run(&["--help"]).expect(0).stdout;
    for words in [&["help"][..], &["-h"], &["help", "--help"]] {
        assert_eq!(studio.run(words).expect(0).stdout, overview);
    }
}

#[test]
fn a_value_may_stand_after_an_equals_sign() {
    let studio = Studio::new();
    let (old, new) = (packets::part_met(1, 0, 100, &[]), packets::part_met(2, 0, 100, &[]));
    studio.file("old=1", &old);
    studio.file("stored", &old);
    studio.file("new", &new);
    studio.run(&["save", "--opened=old=1", "--new=new", "stored"]).expect(0);
    assert_eq!(studio.bytes("stored"), new);
    studio.file("--new=stored", &old);
    let run = studio.run(&["read", "p", "--", "--new=stored"]).expect(0);
    assert_eq!(run.stdout, format!("accepted 224 {}\n", old.len()));
    studio.file("a=b", &old);
    studio.run(&["read", "p", "a=b"]).expect(0);
    assert!(
        studio.run(&["save", "--opened=", "--new=", "stored"]).expect(2).stderr.contains("cannot read ''")
    );
}

/// What people read is within 80 columns, however long the texts of a file are.
#[test]
fn what_is_printed_is_within_80_columns() {
    let studio = Studio::new();
    let long =
        [vec![b'x'; 700], b" y".repeat(300), "größe ".repeat(90).into_bytes(), vec![0xFF; 200]].concat();
    let tags = packets::list(&[
        packets::text_tag(&[0x01], &long),
        packets::text_tag(&[b'n'; 255], b"short"),
        packets::dword_tag(&[0x02], 100),
    ]);
    studio.file("tags", &tags);
    studio.file("part.met", &[&[0xE0, 0, 0, 0, 0][..], &packets::HASH, &[0, 0], &tags].concat());
    let deep = [[0u8, 1].repeat(23), packets::keyword(&long).repeat(24)].concat();
    studio.file("query", &deep);
    let bits = [packets::HASH.to_vec(), packets::word(800), vec![0b0101_0101; 100]].concat();
    studio.file("status", &packets::packet(ed2k::Link::Client, 0x50, &bits));
    for words in [
        &["show", "t", "tags"][..],
        &["show", "p", "part.met"],
        &["gaps", "part.met"],
        &["show", "q", "query"],
        &["show", "c", "status"],
    ] {
        let shown = studio.run(words).expect(0).stdout;
        assert_eq!(long_line(&shown), None, "{words:?}");
        assert!(shown.lines().count() > 15, "{shown}");
    }
    let overlong = "a name of a file that is not there ".repeat(9);
    for words in [
        &["show", "p", "tags"][..],
        &["show", "k", "tags"],
        &["show", "s", "status"],
        &["read", "x", "tags"],
        &["read", "s", &overlong],
        &["why", "s", &overlong],
        &["search", "tags"],
        &["save", "--opened", "tags", "--new", "part.met", "part.met"],
        &["save", "--opened", "tags", "--new", "query", &overlong],
        &["save", "--opened", "tags", "--new", "part.met", "query"],
        &["save", "--strict", "--opened", "tags", "--new", "part.met", "query"],
        &["mark", "part.met", "100", "200"],
    ] {
        let output = studio.command(&words.iter().map(OsStr::new).collect::<Vec<_>>()).output().unwrap();
        let printed = String::from_utf8(output.stderr).unwrap();
        assert!(printed.starts_with("ed2k: "), "{printed}");
        assert_eq!(long_line(&printed), None, "{words:?}");
    }
}

#[test]
fn new_may_be_standard_input() {
    let studio = Studio::new();
    let (old, new) = (packets::part_met(1, 0, 100, &[]), packets::part_met(2, 0, 100, &[]));
    studio.file("old", &old);
    studio.file("new", &new);
    studio.file("damaged", &new[..9]);
    let save = |opened: &str, input: &str| {
        let words = ["save", "--strict", "--opened", opened, "--new=-", "stored"];
        let mut command = studio.command(&words.map(OsStr::new));
        command.stdin(fs::File::open(studio.path(input)).unwrap());
        finish(command)
    };
    assert_eq!(
        save("none", "old").expect(0).stdout,
        format!("saved: 'stored' is now standard input, {} bytes\n", old.len())
    );
    save("old", "new").expect(0);
    assert_eq!(studio.bytes("stored"), new);
    let run = save("old", "old").expect(1);
    assert!(run.stderr.contains("the save of standard input is refused 11"), "{}", run.stderr);
    assert!(run.stderr.contains("your work is still with who sent it"), "{}", run.stderr);
    let run = save("new", "damaged").expect(1);
    assert!(run.stderr.contains("standard input is refused 1"), "{}", run.stderr);
    assert_eq!(studio.bytes("stored"), new);
    assert_eq!(studio.names(), ["damaged", "new", "old", "stored"]);
}

#[test]
fn a_reader_that_goes_away_is_no_error() {
    let studio = Studio::new();
    let entry = |n: u32| packets::dword_tag(&[0x01], n);
    studio.file("tags", &packets::list(&(0..8000).map(entry).collect::<Vec<_>>()));
    let mut child = studio.spawn(&["show", "t", "tags"]);
    let mut first = [0; 8];
    child.stdout.take().unwrap().read_exact(&mut first).unwrap();
    assert_eq!(&first, b"tags, 64");
    let mut printed = String::new();
    child.stderr.take().unwrap().read_to_string(&mut printed).unwrap();
    assert_eq!((printed.as_str(), child.wait().unwrap().code()), ("", Some(0)));
    let mut refused = studio.command(&["read", "s", "tags"].map(OsStr::new));
    let (reader, writer) = std::io::pipe().unwrap();
    drop(reader);
    refused.stdout(writer);
    finish(refused).expect(1);
}

#[test]
fn an_output_that_is_full_is_an_error() {
    let studio = Studio::new();
    studio.file("tags", &packets::list(&packets::four_tags()));
    let mut command = studio.command(&["show", "t", "tags"].map(OsStr::new));
    command.stdout(full_output());
    let run = finish(command).expect(2);
    assert!(run.stderr.contains("cannot write to standard output"), "{}", run.stderr);
}
