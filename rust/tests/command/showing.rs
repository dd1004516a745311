//! What `read`, `show`, `gaps` and `search` print.

use std::ffi::OsStr;
use std::fs::{self, File};
use std::io::Write;
use std::process::Stdio;

use ed2k::Link;

use crate::packets;
use crate::studio::{Studio, finish, sample_lines, samples, wait};

fn letter(link: Link) -> &'static str {
    match link {
        Link::Server => "s",
        Link::Client => "c",
        Link::Udp => "u",
    }
}

#[test]
fn read_prints_the_line_of_each_sample() {
    let studio = Studio::new();
    let lines = sample_lines();
    assert_eq!(lines.len(), 26);
    for (letter, file, line) in lines {
        let status = if line.starts_with("accepted") { 0 } else { 1 };
        let run = studio.run(&["read", &letter, file.to_str().unwrap()]).expect(status);
        assert_eq!(run.stdout, format!("{line}\n"), "{}", file.display());
        assert_eq!(run.stderr.is_empty(), status == 0);
        if status == 1 {
            assert!(run.stderr.contains(&format!(" is {line}: ")), "{}", run.stderr);
        }
    }
}

#[test]
fn read_takes_words_and_letters_and_standard_input() {
    let studio = Studio::new();
    studio.file("status", &[0xE3, 9, 0, 0, 0, 0x34, 3, 0, 0, 0, 5, 0, 0, 0]);
    studio.file("query", &packets::query());
    studio.file("tags", &packets::list(&packets::four_tags()));
    for (kind, file, line) in [
        ("s", "status", "accepted 52 14\n"),
        ("server-link", "status", "accepted 52 14\n"),
        ("query", "query", "accepted 3 29\n"),
        ("tags", "tags", "accepted 4 66\n"),
    ] {
        assert_eq!(studio.run(&["read", kind, file]).expect(0).stdout, line);
    }
    let mut command = studio.command(&["read", "s", "-"].map(OsStr::new));
    command.stdin(File::open(studio.path("status")).unwrap());
    assert_eq!(finish(command).expect(0).stdout, "accepted 52 14\n");
    studio.file("empty", b"");
    assert_eq!(studio.run(&["read", "s", "empty"]).expect(1).stdout, "refused 1\n");
}

#[test]
fn files_above_the_ceiling_are_refused_and_not_read_whole() {
    let studio = Studio::new();
    File::create(studio.path("huge")).unwrap().set_len(1 << 34).unwrap();
    for kind in ["s", "c", "u", "k", "v", "p", "q", "t"] {
        assert_eq!(studio.run(&["read", kind, "huge"]).expect(1).stdout, "refused 6\n");
        assert_eq!(studio.run(&["read", kind, "/dev/zero"]).expect(1).stdout, "refused 6\n");
    }
    let run = studio.run(&["mark", "huge", "0", "1"]).expect(1);
    assert!(run.stderr.contains("refused 6"));
}

/// The offset of the last line, which says `end`.
fn end_offset(shown: &str) -> usize {
    let last = shown.lines().last().expect("something is shown");
    last.trim().strip_suffix("  end").expect("the last line is the end").parse().expect("an offset")
}

#[test]
fn show_reaches_the_end_of_all_that_is_accepted() {
    let studio = Studio::new();
    let mut all: Vec<(String, Vec<u8>)> = sample_lines()
        .into_iter()
        .filter(|(_, _, line)| line.starts_with("accepted"))
        .map(|(letter, file, _)| (letter, fs::read(file).unwrap()))
        .collect();
    all.extend(packets::packet_of_each_shape().into_iter().map(|(link, bytes)| (letter(link).into(), bytes)));
    all.push(("k".into(), packets::known_met()));
    all.push(("v".into(), packets::server_met()));
    all.push(("p".into(), packets::part_met_with_blocks()));
    all.push(("p".into(), packets::part_met(9, 3, 100, &[(0, 40), (60, 80)])));
    all.push(("q".into(), packets::query()));
    all.push(("t".into(), packets::list(&packets::four_tags())));
    for (kind, bytes) in all {
        studio.file("file", &bytes);
        let shown = studio.run(&["show", &kind, "file"]).expect(0).stdout;
        assert_eq!(end_offset(&shown), bytes.len(), "{shown}");
        let whole = shown.lines().all(|line| line == line.trim_end() && !line.contains('\u{1b}'));
        assert!(whole, "{shown}");
    }
}

#[test]
fn show_says_every_item_in_words() {
    let studio = Studio::new();
    studio.file("part.met", &packets::part_met_with_blocks());
    let shown = studio.run(&["show", "part.met", "part.met"]).expect(0).stdout;
    let expected = "\
part.met, 106 bytes

 offset  item                      value
      0  opening byte              (E1) part.met
      1  fixed byte                (02)
      2  Date                      1970-01-01 00:00:07 UTC
      6  File hash                 A00102030405060708090A0B0C0D0E0F
     22  Meta tag list             4 tags
     26    name (01)               String \"left last.stl\"
     45    size (02)               DWORD 972,800 bytes (950.0 KiB)
     53    gap start 0 (09)        DWORD 0
     62    gap end 0 (0A)          DWORD 10, a gap of 10 bytes
     71  B part hashes             1 hash
     72    part 1                  A00102030405060708090A0B0C0D0E0F
     88  S part hashes             2 hashes
     89    block 1                 0808080808080808
     97    block 2                 0909090909090909
    105  closing byte              (00)
    106  end
";
    assert_eq!(shown, expected);
}

#[test]
fn show_says_queries_and_floats_and_clients_in_words() {
    let studio = Studio::new();
    studio.file("query", &packets::query());
    let query = studio.run(&["show", "q", "query"]).expect(0).stdout;
    for phrase in [
        "and not: the first, but not the second, of",
        "or: one of",
        "name contains \"last\"",
        "type (03) is \"Doc\"",
        "size (02) is at least 100 bytes",
    ] {
        assert!(query.contains(phrase), "{query}");
    }
    studio.file("hello", &packets::packet(Link::Server, 0x01, &packets::record(&packets::four_tags())));
    let hello = studio.run(&["show", "s", "hello"]).expect(0).stdout;
    for phrase in
        ["(01) Hello server", "high ID, IP 127.0.0.1", "FLOAT 23.5 (bits 41BC0000)", "HASH A0010203"]
    {
        assert!(hello.contains(phrase), "{hello}");
    }
}

/// The lines of a packet after its opcode.
fn shown_body(studio: &Studio, kind: &str, packet: &[u8]) -> Vec<String> {
    studio.file("packet", packet);
    let shown = studio.run(&["show", kind, "packet"]).expect(0).stdout;
    shown.lines().skip_while(|line| !line.contains("  opcode  ")).skip(1).map(String::from).collect()
}

#[test]
fn show_tells_the_forms_of_a_status_request_and_the_ids_of_a_change() {
    let studio = Studio::new();
    let plain = packets::packet(Link::Udp, 0x96, &packets::dword(1_437_254_902));
    assert_eq!(
        shown_body(&studio, "u", &plain),
        ["      2  DWORD                     1,437,254,902", "      6  end"]
    );
    assert_eq!(
        shown_body(&studio, "u", &packets::packet(Link::Udp, 0x96, &[1, 2, 0xAA, 0x5A])),
        [
            "      2  BYTE                      (01)",
            "      3  BYTE                      (02)",
            "      4  fixed bytes               (AA 5A) extension",
            "      6  end"
        ]
    );
    let change = packets::packet(Link::Client, 0x4D, &[packets::dword(3), vec![80, 10, 10, 10]].concat());
    assert_eq!(
        shown_body(&studio, "c", &change),
        [
            "      6  Client ID, old            3 (low ID)",
            "     10  Client ID, new            168,430,160 (high ID, IP 80.10.10.10)",
            "     14  end"
        ]
    );
}

#[test]
fn show_lets_no_name_command_the_terminal() {
    let studio = Studio::new();
    studio.file("tags", &packets::list(&[packets::text_tag(&[0x01], b"\x1b[2J\n\xFFlast")]));
    let shown = studio.run(&["show", "t", "tags"]).expect(0).stdout;
    assert!(shown.contains(r#"String "\u{1b}[2J\n\xFFlast""#), "{shown}");
}

#[test]
fn show_and_gaps_say_why_they_refuse() {
    let studio = Studio::new();
    let file = samples().join("overlapping_gaps.part.met");
    for words in [&["show", "p"][..], &["gaps"]] {
        let run = studio.run(&[words, &[file.to_str().unwrap()]].concat()).expect(1);
        assert!(run.stderr.contains("is refused 8: a start, end or gap breaks its rule"));
        assert_eq!(run.stdout, "");
    }
}

#[test]
fn gaps_shows_a_plain_bar_within_80_columns_when_piped() {
    let studio = Studio::new();
    let file = samples().join("amule_003.part.met");
    let shown = studio.run(&["gaps", file.to_str().unwrap()]).expect(0).stdout;
    let expected = "\
model    song of twenty megs.mp3
size     20,000,000 bytes (19.1 MiB), 3 parts
there    7,865,600 bytes (7.5 MiB), 39.3 %
missing  12,134,400 bytes (11.6 MiB), 60.7 %, in 1 gap

  [###########################+...........................................+##]
  # there   . missing   + some of both

missing, by part (1 to 3, of 9,728,000 bytes each):

       part        from            to       bytes
          1   7,321,600 to  9,728,000   2,406,400
          2   9,728,000 to 19,456,000   9,728,000  all
";
    assert_eq!(shown, expected);
}

#[test]
fn gaps_of_the_largest_and_of_empty_and_whole_models_fit_the_page() {
    let studio = Studio::new();
    let top = u32::MAX;
    let many: Vec<(u32, u32)> = (0..64).map(|n| (n * 67_000_000, n * 67_000_000 + 9_000_000)).collect();
    for (size, gaps) in [(top, vec![(0, top)]), (top, many), (0, vec![]), (7, vec![]), (1, vec![(0, 1)])] {
        studio.file("file", &packets::part_met(0, 0, size, &gaps));
        let shown = studio.run(&["gaps", "file"]).expect(0).stdout;
        let fits = |line: &str| line.is_ascii() && line.len() <= 80 && line.trim_end() == line;
        assert!(shown.lines().all(fits), "{shown}");
        assert_eq!(shown.contains("missing, by part"), !gaps.is_empty());
    }
}

#[test]
fn search_prints_the_names_for_which_the_query_holds() {
    let studio = Studio::new();
    let known = samples().join("amule_known_0E.met");
    let search = |query: &[u8]| {
        studio.file("a query", query);
        studio.run(&["search", "a query", known.to_str().unwrap()])
    };
    let run = search(&packets::keyword(b"last")).expect(0);
    assert_eq!(run.stdout, "small last model.stl\nlast_one_byte.stl\n");
    assert_eq!(run.stderr, "2 of 8 models found\n");
    assert_eq!(
        search(&packets::keyword("größe".as_bytes())).expect(0).stdout,
        "Schuhleisten-äöü-größe.obj\n"
    );
    assert_eq!(search(&packets::keyword(b"nothing like it")).expect(0).stdout, "");
    assert!(search(&[9]).expect(1).stderr.contains("'a query' is refused 5"));
    studio.file("no name", &packets::known_met());
    studio.file("all", &[&[0, 1][..], &packets::keyword(b""), &packets::keyword(b"x")].concat());
    let run = studio.run(&["search", "all", "no name"]).expect(0);
    assert_eq!(run.stdout, "left last.stl\n");
    assert!(studio.run(&["search", "all", "all"]).expect(1).stderr.contains("'all' is refused 2"));
}

#[test]
fn standard_input_may_come_in_pieces() {
    let studio = Studio::new();
    let mut command = studio.command(&["read", "p", "-"].map(OsStr::new));
    let mut child =
        command.stdin(Stdio::piped()).stdout(Stdio::piped()).stderr(Stdio::piped()).spawn().unwrap();
    let bytes = packets::part_met(1, 3, 100, &[]);
    let mut input = child.stdin.take().unwrap();
    for piece in bytes.chunks(7) {
        input.write_all(piece).unwrap();
    }
    drop(input);
    assert_eq!(wait(child).expect(0).stdout, format!("accepted 224 {}\n", bytes.len()));
}

/// A known.met with an entry of so many tags between two with a name.
fn known_met_with_tags(count: u32) -> Vec<u8> {
    let entry = |tags: &[Vec<u8>]| {
        [packets::dword(0), packets::HASH.to_vec(), packets::word(0), packets::list(tags)].concat()
    };
    let tags: Vec<Vec<u8>> = (0..count).map(|number| packets::dword_tag(b"girth", number)).collect();
    [vec![0x0E], packets::list(&[entry(&packets::four_tags()), entry(&tags), entry(&packets::four_tags())])]
        .concat()
}

#[test]
fn long_lists_of_a_large_file_are_shown_whole_and_searched_within_the_ceiling() {
    let studio = Studio::new();
    let large = known_met_with_tags(84_999);
    assert!(large.len() > 1_000_000 && large.len() <= ed2k::MET_CEILING);
    studio.file("known.met", &large);
    studio.file("query", &packets::keyword(b"last"));
    let shown = studio.run(&["show", "k", "known.met"]).expect(0).stdout;
    assert_eq!(end_offset(&shown), large.len());
    assert!(shown.contains("\"girth\"               DWORD 84,998\n"));
    let run = studio.run(&["search", "query", "known.met"]).expect(1);
    assert_eq!(run.stdout, "left last.stl\nleft last.stl\n");
    assert!(run.stderr.contains("the tag list of entry 2 of 'known.met' is refused 6"), "{}", run.stderr);
    studio.file("known.met", &known_met_with_tags(5_000));
    studio.run(&["search", "query", "known.met"]).expect(0);
}
