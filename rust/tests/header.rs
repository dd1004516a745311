//! include/ed2k.h: its names have the numbers of the archive and of the crate, and its words are the crate's. C programs made with it are
//! run: one reads by its names alone, one lends slices of no elements as NULL.

#[path = "support/packets.rs"]
mod packets;

use std::collections::HashMap;
use std::fs::{self, File};
use std::io::Write;
use std::path::{Path, PathBuf};
use std::process::{Command, Stdio};

// Links the archive.
use ed2k::{Bound, Kind, Link, Operator, Refusal, Rule};

fn repository(path: &str) -> PathBuf {
    Path::new(env!("CARGO_MANIFEST_DIR")).join("..").join(path)
}

/// A folder for what is compiled, removed in the end.
struct Folder(PathBuf);

impl Folder {
    fn new(name: &str) -> Folder {
        let folder = std::env::temp_dir().join(format!("ed2k header {name} {}", std::process::id()));
        fs::create_dir(&folder).expect("a folder for the test");
        Folder(folder)
    }

    /// Compiles a program against the header and the archive that this test is linked with.
    fn compiled(&self, source: &Path) -> PathBuf {
        let program = self.0.join("program");
        let mut cc = Command::new("cc");
        cc.args(["-std=c11", "-Wall", "-Wextra", "-Wpedantic", "-Werror", "-O2", "-I"]);
        cc.arg(repository("include")).arg("-o").arg(&program).arg(source);
        cc.arg(Path::new(env!("OUT_DIR")).join("libed2k_proved.a"));
        let made = cc.output().expect("cc runs");
        assert!(made.status.success(), "{}", String::from_utf8_lossy(&made.stderr));
        program
    }
}

impl Drop for Folder {
    fn drop(&mut self) {
        let _ = fs::remove_dir_all(&self.0);
    }
}

/// What a program prints of this input.
fn printed(program: &Path, words: &[String], input: &[u8]) -> String {
    let mut command = Command::new(program);
    command.args(words).stdin(Stdio::piped()).stdout(Stdio::piped()).stderr(Stdio::piped());
    let mut child = command.spawn().expect("the program starts");
    child.stdin.take().unwrap().write_all(input).expect("the program reads");
    let run = child.wait_with_output().expect("the program ends");
    assert!(run.status.success(), "{:?} {}", run.status, String::from_utf8_lossy(&run.stderr));
    String::from_utf8(run.stdout).expect("ASCII")
}

/// The names of the header and their numbers.
fn names() -> HashMap<String, u64> {
    let header = fs::read_to_string(repository("include/ed2k.h")).expect("the header");
    let enumerated = header.lines().filter_map(|line| {
        let (name, number) = line.trim().split_once(" = ")?;
        let digits: String = number.chars().take_while(char::is_ascii_digit).collect();
        Some((name.to_string(), digits.parse().ok()?))
    });
    let defined = header.lines().filter_map(|line| {
        let (name, number) = line.strip_prefix("#define ")?.split_once(' ')?;
        Some((name.to_string(), number.parse().ok()?))
    });
    enumerated.chain(defined).collect()
}

#[test]
fn names_have_the_numbers_of_the_crate() {
    let names = names();
    let number = |name: &str| *names.get(name).unwrap_or_else(|| panic!("no {name}"));
    assert_eq!(number("ED2K_ACCEPTED"), 0);
    for refusal in Refusal::ALL {
        let name = format!("ED2K_REFUSED_{refusal:?}").to_uppercase();
        assert_eq!(number(&name), refusal.number().into(), "{name}");
    }
    let refusals = names.keys().filter(|name| name.starts_with("ED2K_REFUSED_")).count();
    assert_eq!(refusals, Refusal::ALL.len());
    let kinds = [
        ("SERVER_LINK", Kind::ServerLink),
        ("CLIENT_LINK", Kind::ClientLink),
        ("UDP_LINK", Kind::Udp),
        ("KNOWN_MET", Kind::KnownMet),
        ("SERVER_MET", Kind::ServerMet),
        ("PART_MET", Kind::PartMet),
        ("LONE_QUERY", Kind::Query),
        ("LONE_TAGS", Kind::Tags),
    ];
    assert_eq!(kinds.map(|(_, kind)| kind), Kind::ALL);
    for (name, kind) in kinds {
        assert_eq!(number(&format!("ED2K_{name}")), kind as u64, "{name}");
    }
    for (name, operator) in [("AND", Operator::And), ("OR", Operator::Or), ("AND_NOT", Operator::AndNot)] {
        assert_eq!(number(&format!("ED2K_OPERATOR_{name}")), operator as u64, "{name}");
    }
    for (name, bound) in [("MIN", Bound::Min), ("MAX", Bound::Max)] {
        assert_eq!(number(&format!("ED2K_BOUND_{name}")), bound as u64, "{name}");
    }
    assert_eq!(names.len(), 173);
}

/// What the header calls a rule, after ED2K_RULE_.
fn rule_name(rule: Rule) -> &'static str {
    match rule {
        Rule::Short => "SHORT",
        Rule::Opening => "OPENING",
        Rule::Length => "LENGTH",
        Rule::Kind => "KIND",
        Rule::Choice => "CHOICE",
        Rule::StatusBit => "STATUS_BIT",
        Rule::ByteCeiling => "BYTES",
        Rule::DepthCeiling => "DEPTH",
        Rule::NameCeiling => "NAME",
        Rule::GapCeiling => "GAPS",
        Rule::Rest => "REST",
        Rule::Order => "ORDER",
        Rule::Data => "DATA",
        Rule::SizeTag => "SIZE",
        _ => panic!("the header has no name for {rule:?}"),
    }
}

#[test]
fn rules_have_the_numbers_of_the_crate() {
    let names = names();
    for rule in Rule::ALL {
        let name = format!("ED2K_RULE_{}", rule_name(*rule));
        assert_eq!(names.get(&name), Some(&u64::from(rule.number())), "{name}");
    }
    assert_eq!(names.keys().filter(|name| name.starts_with("ED2K_RULE_")).count(), Rule::ALL.len());
}

/// What a program of this name prints that has these statements.
fn printed_by(name: &str, statements: &str) -> String {
    let folder = Folder::new(name);
    let source = folder.0.join("program.c");
    let program =
        format!("#include <stdio.h>\n#include \"ed2k.h\"\nint main(void) {{\n{statements}\nreturn 0;\n}}\n");
    File::create(&source).and_then(|mut file| file.write_all(program.as_bytes())).expect("a program");
    printed(&folder.compiled(&source), &[], b"")
}

#[test]
fn meanings_are_those_of_the_crate() {
    let printed = printed_by("meanings", "for (int n = 0; n < 256; n++) puts(ed2k_meaning((uint8_t)n));");
    let expected = |number: u8| match (number, Refusal::from_number(number)) {
        (0, _) => "accepted",
        (_, Some(refusal)) => refusal.meaning(),
        (_, None) => "a number that this header does not have",
    };
    assert!(printed.lines().eq((0..=255).map(expected)), "{printed}");
}

/// Rules are 64 bits wide, and no more of them are looked at than there are.
#[test]
fn meanings_of_rules_are_those_of_the_crate() {
    let printed = printed_by(
        "rules",
        "for (uint64_t n = 0; n < 256; n++) puts(ed2k_rule_meaning(n));\n\
        for (int bit = 8; bit < 64; bit++) puts(ed2k_rule_meaning((uint64_t)1 << bit | 1));",
    );
    let unknown = "a rule that this header does not have";
    let expected = |number: u8| match (number, Rule::from_number(number)) {
        (0, _) => "accepted",
        (_, Some(rule)) => rule.meaning(),
        (_, None) => unknown,
    };
    let expected = (0..=255).map(expected).chain((8..64).map(|_| unknown));
    assert!(printed.lines().eq(expected), "{printed}");
}

/// The four tags of [`packets::four_tags`].
const TAGS: &str = "count 4; tag 01.. of 1: String 'left last.stl'; tag 02.. of 1: DWORD 5000; \
    tag 67.. of 5: FLOAT 1102839808; tag 74.. of 4: HASH A0";

/// What the program prints of each shape of body, in the order of the header.
fn expected_bodies() -> Vec<String> {
    let record = format!("hash A0; client 16777343; port 4662; {TAGS}");
    let two = "count 2; address 80.10.10.3:4662; address 10.0.0.7:4672";
    let query = "depth 3; and not; or; keyword 'last'; field 'Doc'; name 03; min 100; name 02";
    vec![
        "14".into(),
        format!("16; {query}"),
        "19; hash A0".into(),
        "5C; number 17".into(),
        "34; number 3; number 5".into(),
        "38; text 'welcome'".into(),
        "A3; first 'server'; second 'a description'".into(),
        "35; address 80.10.10.3:4662".into(),
        format!("32; {two}"),
        format!("42; hash A0; {two}"),
        "9C; address 80.10.10.3:4662; number 77".into(),
        format!("41; hash A0; address 80.10.10.3:4662; {TAGS}"),
        format!("01; {record}"),
        format!("15; count 2; {record}; hash A0; client 16777343; port 4662; count 0"),
        format!("33; count 1; {record}; flag 1"),
        format!("4C; {record}; address 80.10.10.3:4662"),
        format!("01; {record}; address 80.10.10.3:4662"),
        "59; hash A0; text 'left last.stl'".into(),
        "52; hash A0; count 2; hash A0; hash 09".into(),
        "46; hash A0; start 10; end 14; data 'data'".into(),
        "47; hash A0; start 10; start 20; start 30; end 15; end 25; end 30".into(),
        "50; hash A0; parts 9; bits 05".into(),
        "96; extended 1; number 1521091073".into(),
        "97; number 9; users 3; files 5".into(),
        "97; byte 1; byte 2; users 3; files 5; most 8".into(),
    ]
}

#[test]
fn values_stand_in_the_slots_that_the_header_names() {
    let folder = Folder::new("slots");
    let program = folder.compiled(&repository("rust/tests/c/slots.c"));
    let read = |kind: Kind, bytes: &[u8]| {
        let lines = printed(&program, &[(kind as u8).to_string()], bytes);
        lines.trim_end().replace('\n', "; ")
    };
    let shapes = packets::packet_of_each_shape();
    assert_eq!(shapes.len(), expected_bodies().len());
    for ((link, bytes), expected) in shapes.iter().zip(expected_bodies()) {
        assert_eq!(read((*link).into(), bytes), format!("opening E3 opcode {expected}"));
    }
    let known = format!(
        "opening 0E; count 2; date 1253225404; hash A0; count 2; hash 5A; hash 5A; {TAGS}; \
        date 1253225404; hash A0; count 0; count 0"
    );
    assert_eq!(read(Kind::KnownMet, &packets::known_met()), known);
    let server = "opening 0E; count 1; server 80.10.10.11:4661; count 1; tag 0C.. of 1: DWORD 31; tail 'made by a client'";
    assert_eq!(read(Kind::ServerMet, &packets::server_met()), server);
    let part = "opening E1; size 972800; date 7; hash A0; count 4; tag 01.. of 1: String 'left last.stl'; \
        tag 02.. of 1: DWORD 972800; tag 09.. of 2: DWORD 0; tag 0A.. of 2: DWORD 10; \
        count 1; hash A0; count 2; hash 08; hash 09; gap 0; gap 10";
    assert_eq!(read(Kind::PartMet, &packets::part_met_with_blocks()), part);
    let counted = read(Kind::PartMet, &packets::part_met(9, 3, 100, &[(0, 40), (60, 80)]));
    assert!(
        counted.ends_with("count 3; hash 5A; hash 5A; hash 5A; gap 0; gap 40; gap 60; gap 80"),
        "{counted}"
    );
    let query = "depth 3; and not; or; keyword 'last'; field 'Doc'; name 03; min 100; name 02";
    assert_eq!(read(Kind::Query, &packets::query()), query);
    assert_eq!(read(Kind::Tags, &packets::list(&packets::four_tags())), TAGS);
    let refused = read(Kind::ServerLink, &packets::packet(Link::Server, 0x34, &[0; 7]));
    assert_eq!(refused, "refused 1: the bytes end before the item being read ends");
}

#[test]
fn a_reason_stands_in_the_slots_that_the_header_names() {
    let folder = Folder::new("reasons");
    let program = folder.compiled(&repository("rust/tests/c/reasons.c"));
    let why = |kind: Kind, bytes: &[u8]| {
        let lines = printed(&program, &[(kind as u8).to_string()], bytes);
        lines.trim_end().replace('\n', "; ")
    };
    let short = why(Kind::ServerLink, &packets::packet(Link::Server, 0x34, &[0; 7]));
    assert_eq!(short, "answer 1; rule 1; offset 10; size 4; the bytes end before the item being read ends");
    assert_eq!(why(Kind::Tags, &[9]), "no reason: the opcode is not listed for the link");
}

#[test]
fn a_slice_of_no_elements_may_be_null() {
    let folder = Folder::new("nothing");
    let program = folder.compiled(&repository("rust/tests/c/nothing.c"));
    assert_eq!(printed(&program, &[], b""), "282 calls answered\n");
    let tried = fs::read_to_string(repository("rust/tests/c/nothing.c")).expect("the program");
    let header = fs::read_to_string(repository("include/ed2k.h")).expect("the header");
    let calls: Vec<&str> = header
        .lines()
        .filter_map(|line| line.strip_prefix("uint8_t "))
        .filter_map(|line| line.split('(').next())
        .collect();
    assert_eq!(calls.len(), 32);
    let untried: Vec<&&str> = calls.iter().filter(|call| !tried.contains(&format!("{call}("))).collect();
    assert!(untried.is_empty(), "{untried:?}");
}

/// The header is C++ too, and can be included twice.
#[test]
fn the_header_serves_c_plus_plus() {
    let folder = Folder::new("plus");
    let source = folder.0.join("twice.cc");
    fs::write(&source, "#include \"ed2k.h\"\n#include \"ed2k.h\"\nint main() { return ed2k_meaning(ED2K_ACCEPTED)[0] != 'a'; }\n")
        .expect("a program");
    let mut compiler = Command::new("c++");
    compiler
        .args(["-std=c++11", "-Wall", "-Wextra", "-Werror", "-fsyntax-only", "-I"])
        .arg(repository("include"));
    let made = compiler.arg(&source).output().expect("c++ is needed for this test");
    assert!(made.status.success(), "{}", String::from_utf8_lossy(&made.stderr));
}
