//! What `search` finds by its options.

use std::ffi::OsStr;
use std::fs::File;
use std::os::unix::ffi::OsStrExt;

use crate::packets;
use crate::studio::{Run, Studio, finish, samples};

/// A known.met of four models: name, size and type; the last has no type.
fn models() -> Vec<u8> {
    let entry = |name: &[u8], size: u32, kind: Option<&[u8]>| {
        let mut tags = vec![packets::text_tag(&[0x01], name), packets::dword_tag(&[0x02], size)];
        tags.extend(kind.map(|kind| packets::text_tag(&[0x03], kind)));
        [packets::dword(0), packets::HASH.to_vec(), packets::word(0), packets::list(&tags)].concat()
    };
    let entries = [
        entry(b"left last, ball girth 23.stl", 7_321_600, Some(b"Doc")),
        entry(b"girth of the ball.stl", 100, Some(b"Doc")),
        entry(b"ball girth.png", 5_000, Some(b"Image")),
        entry(b"heel \xFF.stl", u32::MAX, None),
    ];
    [vec![0x0E], packets::list(&entries)].concat()
}

/// A folder with those models, and what is found there: the letters a to d of the models.
fn found(words: &[&str]) -> String {
    let studio = Studio::new();
    studio.file("known.met", &models());
    let run = studio.run(&[&["search"], words, &["known.met"]].concat()).expect(0);
    letters(&run)
}

fn letters(run: &Run) -> String {
    let names = ["left last, ball girth 23.stl", "girth of the ball.stl", "ball girth.png", r"heel \xFF.stl"];
    let letter = |line: &str| names.iter().zip('a'..).find(|(name, _)| **name == line).expect("a model").1;
    let letters: String = run.stdout.lines().map(letter).collect();
    assert!(run.stderr.starts_with(&format!("{} of 4 models found", letters.len())), "{}", run.stderr);
    letters
}

#[test]
fn each_option_is_a_condition() {
    assert_eq!(found(&["--name", "ball girth"]), "ac");
    assert_eq!(found(&["--name", "Ball Girth"]), "");
    assert_eq!(found(&["--name", ""]), "abcd");
    assert_eq!(found(&["--type", "Doc"]), "ab");
    assert_eq!(found(&["--type", "Do"]), "");
    assert_eq!(found(&["--min", "5000"]), "acd");
    assert_eq!(found(&["--min", "7,321,600"]), "ad");
    assert_eq!(found(&["--min", "7,321,601"]), "d");
    assert_eq!(found(&["--max", "5,000"]), "bc");
    assert_eq!(found(&["--max", "0"]), "");
    assert_eq!(found(&["--max", "4294967295"]), "abcd");
}

#[test]
fn several_options_must_all_hold() {
    assert_eq!(found(&["--name", "ball", "--type", "Doc"]), "ab");
    assert_eq!(found(&["--name=ball", "--type=Doc", "--min=101"]), "a");
    assert_eq!(found(&["--max", "5,000", "--min", "100", "--name", "girth"]), "bc");
    assert_eq!(found(&["--max=4,999", "--min=100", "--name", "girth", "--type", "Doc"]), "b");
    assert_eq!(found(&["--min", "2", "--max", "1"]), "");
}

#[test]
fn a_query_file_stands_alone_or_beside_options() {
    let studio = Studio::new();
    studio.file("known.met", &models());
    studio.file("stl", &packets::keyword(b".stl"));
    let search = |words: &[&str]| letters(&studio.run(&[&["search"], words].concat()).expect(0));
    assert_eq!(search(&["stl", "known.met"]), "abd");
    assert_eq!(search(&["--min", "101", "stl", "known.met"]), "ad");
    assert_eq!(search(&["stl", "--type=Doc", "known.met", "--name", "last"]), "a");
    let mut command = studio.command(&["search", "--max=100", "-", "known.met"].map(OsStr::new));
    command.stdin(File::open(studio.path("stl")).unwrap());
    assert_eq!(letters(&finish(command).expect(0)), "b");
}

#[test]
fn a_name_may_be_any_bytes() {
    let studio = Studio::new();
    studio.file("known.met", &models());
    let words =
        [OsStr::new("search"), OsStr::new("--name"), OsStr::from_bytes(b"\xFF"), OsStr::new("known.met")];
    assert_eq!(letters(&finish(studio.command(&words)).expect(0)), "d");
    let words = [OsStr::new("search"), OsStr::from_bytes(b"--name=l \xFF"), OsStr::new("known.met")];
    assert_eq!(letters(&finish(studio.command(&words)).expect(0)), "d");
}

#[test]
fn what_a_stock_client_wrote_is_found() {
    let studio = Studio::new();
    let known = samples().join("amule_known_0E.met");
    let search = |words: &[&str]| {
        studio.run(&[&["search"], words, &[known.to_str().unwrap()]].concat()).expect(0).stdout
    };
    assert_eq!(search(&["--name", "last"]), "small last model.stl\nlast_one_byte.stl\n");
    assert_eq!(search(&["--name", "last", "--max", "1"]), "last_one_byte.stl\n");
    assert_eq!(search(&["--name", "größe"]), "Schuhleisten-äöü-größe.obj\n");
}

#[test]
fn queries_that_cannot_be_composed_are_refused() {
    let studio = Studio::new();
    studio.file("known.met", &models());
    let long = "n".repeat(65_534);
    let run = studio.run(&["search", "--name", &long, "known.met"]).expect(1);
    assert!(run.stderr.contains("the text of --name is refused 6"), "{}", run.stderr);
    let deep = [[0u8, 1].repeat(23), packets::keyword(b"last").repeat(24)].concat();
    studio.file("deep", &deep);
    studio.run(&["search", "deep", "known.met"]).expect(0);
    let run = studio.run(&["search", "--min=1", "deep", "known.met"]).expect(1);
    assert!(run.stderr.contains("the query with all conditions is refused 6"), "{}", run.stderr);
    studio.file("wrong", &[9]);
    let run = studio.run(&["search", "--min=1", "wrong", "known.met"]).expect(1);
    assert!(run.stderr.contains("'wrong' is refused 5"), "{}", run.stderr);
}

#[test]
fn wrong_options_are_wrong_usage() {
    let studio = Studio::new();
    studio.file("known.met", &models());
    for (words, problem) in [
        (&["--min", "1K", "known.met"][..], "--min is a number of bytes in decimal, not '1K'"),
        (&["--max=-1", "known.met"], "--max is a number of bytes"),
        (&["--max=", "known.met"], "--max is a number of bytes"),
        (&["--min", "4,294,967,296", "known.met"], "--min is at most 4,294,967,295, not 4,294,967,296"),
        (&["--name", "a", "--name", "b", "known.met"], "--name is given twice"),
        (&["--name"], "--name needs a value"),
        (&["--name", "a"], "needs KNOWN-MET"),
        (&["--name", "a", "one", "two", "three"], "3 given"),
        (&["--size", "1", "known.met"], "there is no option '--size'"),
        (&["known.met"], "needs --name, --type, --min, --max or QUERY-FILE, and KNOWN-MET; 1 given"),
    ] {
        let run = studio.run(&[&["search"], words].concat()).expect(2);
        let printed = run.stderr;
        assert!(printed.contains(problem) && printed.contains("\nFor help: ed2k search --help"), "{printed}");
        assert_eq!(run.stdout, "");
    }
}
