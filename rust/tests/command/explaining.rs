//! What `why` prints: where and why a packet is refused. `show` and `read` point to it.

use std::ffi::OsStr;
use std::fs::File;
use std::io::Write;
use std::process::Stdio;

use ed2k::Link;

use crate::json::Json;
use crate::packets::{self, HASH, dword, dword_tag, list, packet, record, string, text_tag, word};
use crate::readme;
use crate::studio::{Run, Studio, finish, full_output, sample_lines, samples, wait};

/// All that `why` prints of a refused packet, which is all within 80 columns.
fn explained(kind: &str, bytes: &[u8]) -> String {
    let studio = Studio::new();
    studio.file("packet.bin", bytes);
    let run = studio.run(&["why", kind, "packet.bin"]).expect(1);
    assert_eq!(run.stderr, "");
    assert!(run.stdout.lines().all(|line| line.chars().count() <= 80 && line.trim_end() == line));
    run.stdout
}

/// The sentence below the first line, up to the first empty one.
fn sentence(kind: &str, bytes: &[u8]) -> String {
    let printed = explained(kind, bytes);
    let (answer, _) = printed.split_once("\n\n").expect("the bytes follow");
    let after_reason = answer.replace("\n  ", " ");
    let (_, sentence) = after_reason.split_once('\n').expect("a sentence");
    sentence.replace('\n', " ")
}

/// The lines of the bytes, without those of the reason and of the items.
fn marked(kind: &str, bytes: &[u8]) -> String {
    let printed = explained(kind, bytes);
    let after = printed.split_once("\n\n").expect("the bytes follow").1;
    after.split("\n\n").next().expect("the bytes").trim_end().into()
}

/// The lines of the items before the fault.
fn items(kind: &str, bytes: &[u8]) -> Vec<String> {
    let printed = explained(kind, bytes);
    let (_, items) = printed.split_once("  value\n").expect("the head of the items");
    items.lines().map(String::from).collect()
}

fn server(opcode: u8, body: &[u8]) -> Vec<u8> {
    packet(Link::Server, opcode, body)
}

fn client(opcode: u8, body: &[u8]) -> Vec<u8> {
    packet(Link::Client, opcode, body)
}

fn udp(opcode: u8, body: &[u8]) -> Vec<u8> {
    packet(Link::Udp, opcode, body)
}

/// A description of a server with the tag of a size and this one.
fn server_info(tag: &[u8]) -> Vec<u8> {
    let tags = list(&[dword_tag(&[0x02], 5), tag.to_vec()]);
    server(0x41, &[HASH.to_vec(), packets::address([80, 10, 10, 3], 4662), tags].concat())
}

#[test]
fn a_packet_that_ends_too_early() {
    let expected = "\
refused 1 at offset 10: the bytes end before the item being read ends
The item 'Nfiles' needs 4 bytes, and 2 are there.

 offset  bytes
      0  E3 07 00 00 00 34 03 00 00 00 05 00 -- --
                                       ^^ ^^ ^^ ^^

The items before it (server-link, 12 bytes):

 offset  item                      value
      0  Protocol                  (E3) eDonkey
      1  Packet data length        7 bytes after the header
      5  opcode                    (34) Server status
      6  Nusers                    3 users
";
    assert_eq!(explained("s", &server(0x34, &[3, 0, 0, 0, 5, 0])), expected);
}

#[test]
fn a_packet_with_another_opening_byte() {
    let expected = "\
refused 2 at offset 0: the first byte is not one of this link's or file's
The packet opens with (C5), and must open with (E3).

 offset  bytes
      0  C5 A2
         ^^
";
    assert_eq!(explained("u", &[0xC5, 0xA2]), expected);
}

#[test]
fn a_packet_with_another_length() {
    let expected = "\
refused 3 at offset 1: the header's length is 0 or is not the number of bytes
  after the header
The header says that 8 bytes follow it, and 9 do.

 offset  bytes
      0  E3 08 00 00 00 34 03 00 00 00 05 00 00 00
            ^^ ^^ ^^ ^^

The items before it (server-link, 14 bytes):

 offset  item                      value
      0  Protocol                  (E3) eDonkey
";
    assert_eq!(explained("server-link", &[0xE3, 8, 0, 0, 0, 0x34, 3, 0, 0, 0, 5, 0, 0, 0]), expected);
    let none = "The header says that 0 bytes follow it, and 0 do; there must be an opcode.";
    assert_eq!(sentence("s", &[0xE3, 0, 0, 0, 0]), none);
    let one = "The header says that 1 byte follows it, and 0 do.";
    assert_eq!(sentence("c", &[0xE3, 1, 0, 0, 0]), one);
    let large = "The header says that 4,294,967,295 bytes follow it, and 1 does.";
    assert_eq!(sentence("c", &[0xE3, 255, 255, 255, 255, 0x4A]), large);
}

#[test]
fn an_opcode_that_is_not_listed() {
    let expected = "\
refused 4 at offset 5: the opcode is not listed for the link
The opcode (46) is not listed for server-link; for client-link it is Sending
part.

 offset  bytes
      0  E3 01 00 00 00 46
                        ^^

The items before it (server-link, 6 bytes):

 offset  item                      value
      0  Protocol                  (E3) eDonkey
      1  Packet data length        1 byte after the header
";
    assert_eq!(explained("s", &server(0x46, &[])), expected);
    assert_eq!(sentence("u", &udp(0xFF, &[])), "The opcode (FF) is not listed for udp.");
    let on_two_links = "The opcode (01) is not listed for udp; for server-link it is Hello server; \
                        for client-link it is Hello client.";
    assert_eq!(sentence("u", &udp(0x01, &[])), on_two_links);
}

#[test]
fn a_byte_outside_its_list() {
    let expected = "\
refused 5 at offset 40: a byte is outside its list, or a name has length 0
The item 'type' of tag 2 is (09), and must be (01), (02), (03) or (04).

 offset  bytes
     16  0A 0B 0C 0D 0E 0F 50 0A 0A 03 36 12 02 00 00 00
     32  03 01 00 02 05 00 00 00 09 01 00 78 05 00 00 00
                                 ^^

The items before it (server-link, 48 bytes):

 offset  item                      value
      0  Protocol                  (E3) eDonkey
      1  Packet data length        43 bytes after the header
      5  opcode                    (41) Server info data
      6  Server hash               A00102030405060708090A0B0C0D0E0F
     22  Server address            80.10.10.3:4662
     28  Meta tag list             2 tags
     32    size (02)               DWORD 5 bytes
";
    assert_eq!(explained("s", &server_info(&[9, 1, 0, b'x', 5, 0, 0, 0])), expected);
    let limit = [vec![3], dword(7), vec![0], string(&[0x02])].concat();
    for (kind, bytes, words) in [
        ("s", server(0x16, &[4]), "'case' is (04), and must be (00), (01), (02) or (03)."),
        ("s", server(0x16, &[0, 3, 1, 0, 0]), "'operator' is (03), and must be (00), (01) or (02)."),
        ("u", udp(0x98, &limit), "'bound' is (00), and must be (01) or (02)."),
        ("s", server(0x33, &[0, 0, 0, 0, 2]), "'More' is (02), and must be (00) or (01)."),
        ("c", client(0x01, &[0x11]), "'fixed byte' is (11), and must be (10)."),
        ("u", udp(0x97, &[1, 2, 0xAB, 0x5A]), "'fixed byte' is (AB), and must be (AA)."),
        ("u", udp(0x97, &[1, 2, 0xAA, 0x5B]), "'fixed byte' is (5B), and must be (5A)."),
    ] {
        assert_eq!(sentence(kind, &bytes), format!("The item {words}"));
    }
}

#[test]
fn a_name_without_bytes_and_one_with_too_many() {
    let expected = "\
refused 5 at offset 41: a byte is outside its list, or a name has length 0
The item 'name, length' of tag 2 is 0, and must be 1 to 255.

 offset  bytes
     16  0A 0B 0C 0D 0E 0F 50 0A 0A 03 36 12 02 00 00 00
     32  03 01 00 02 05 00 00 00 02 00 00 01 00 61
                                    ^^ ^^

The items before it (server-link, 46 bytes):

 offset  item                      value
      0  Protocol                  (E3) eDonkey
      1  Packet data length        41 bytes after the header
      5  opcode                    (41) Server info data
      6  Server hash               A00102030405060708090A0B0C0D0E0F
     22  Server address            80.10.10.3:4662
     28  Meta tag list             2 tags
     32    size (02)               DWORD 5 bytes
     40    type                    (02) String
";
    assert_eq!(explained("s", &server_info(&text_tag(b"", b"a"))), expected);
    let long = explained("s", &server_info(&text_tag(&[b'n'; 300], b"a")));
    let reason = "\
refused 6 at offset 41: a name has more than 255 bytes
The item 'name, length' of tag 2 is 300, and may be at most 255.

 offset  bytes
     16  0A 0B 0C 0D 0E 0F 50 0A 0A 03 36 12 02 00 00 00
     32  03 01 00 02 05 00 00 00 02 2C 01 6E 6E 6E 6E 6E
                                    ^^ ^^
     48  6E 6E 6E 6E 6E 6E 6E 6E 6E 6E 6E 6E 6E 6E 6E 6E

The items before it (server-link, 346 bytes):
";
    assert!(long.starts_with(reason) && long.ends_with("\n     40    type                    (02) String\n"));
    let field = [vec![2], string(b""), string(b"")].concat();
    assert_eq!(
        items("s", &server(0x16, &field))[3..],
        [
            "      6  Search query",
            "      6    case                    (02) a text in a tag",
            "      7    text, length            0 bytes"
        ]
    );
}

#[test]
fn a_status_bit_that_belongs_to_no_part() {
    let expected = "\
refused 5 at offset 24: an unused status bit is set
The file has 9 parts, and a bit is set for part 10.

 offset  bytes
      0  E3 15 00 00 00 50 A0 01 02 03 04 05 06 07 08 09
     16  0A 0B 0C 0D 0E 0F 09 00 FF 03
                                 ^^ ^^

The items before it (client-link, 26 bytes):

 offset  item                      value
      0  Protocol                  (E3) eDonkey
      1  Packet data length        21 bytes after the header
      5  opcode                    (50) File status
      6  File hash                 A00102030405060708090A0B0C0D0E0F
     22  Part status list          9 parts
";
    let status = |parts: u16, bits: &[u8]| client(0x50, &[&HASH[..], &word(parts), bits].concat());
    assert_eq!(explained("c", &status(9, &[0xFF, 3])), expected);
    let several = "The file has 1 part, and bits are set for the parts 3, 5 and 8.";
    assert_eq!(sentence("c", &status(1, &[0b1001_0100])), several);
}

/// No more than is needed to refuse it is read of a packet.
#[test]
fn a_packet_with_too_many_bytes() {
    let expected = "\
refused 6 at offset 0: the packet has more than 65,536 bytes
The packet has at least 65,537 bytes, and may have 65,536.

 offset  bytes
      0  E3 00 00 00 00 00 00 00 00 00 00 00 00 00 00 00
         ^^ ^^ ^^ ^^ ^^ ^^ ^^ ^^ ^^ ^^ ^^ ^^ ^^ ^^ ^^ ^^
     16  00 00 00 00 00 00 00 00 00 00 00 00 00 00 00 00
         ^^ ^^ ^^ ^^ ^^ ^^ ^^ ^^ ^^ ^^ ^^ ^^ ^^ ^^ ^^ ^^
     32  00 00 00 00 00 00 00 00 00 00 00 00 00 00 00 00
         ^^ ^^ ^^ ^^ ^^ ^^ ^^ ^^ ^^ ^^ ^^ ^^ ^^ ^^ ^^ ^^
         and 65,489 bytes more of the item
";
    let mut bytes = vec![0; 70_000];
    bytes[0] = 0xE3;
    for kind in ["s", "c", "u"] {
        assert_eq!(explained(kind, &bytes), expected);
    }
    let studio = Studio::new();
    File::create(studio.path("huge")).unwrap().set_len(1 << 34).unwrap();
    for file in ["huge", "/dev/zero"] {
        let run = studio.run(&["why", "u", file]).expect(1);
        assert!(run.stdout.starts_with("refused 6 at offset 0: "), "{}", run.stdout);
    }
}

#[test]
fn a_query_that_is_too_deep() {
    let operators = [0, 1].repeat(24);
    let printed = explained("u", &udp(0x98, &operators));
    let expected = "\
refused 6 at offset 50: the query is deeper than 24
A query would begin here at depth 25, and the limit is 24.

 offset  bytes
     32  00 01 00 01 00 01 00 01 00 01 00 01 00 01 00 01
     48  00 01
               ^

The items before it (udp, 50 bytes):

 offset  item                      value
      0  Protocol                  (E3) eDonkey
      1  opcode                    (98) UDP Search file
      2  Search query
      2    or: one of
      4      or: one of
";
    assert!(printed.starts_with(expected), "{printed}");
    let last = format!("\n     48  {}or: one of\n", " ".repeat(48));
    assert!(printed.ends_with(&last), "{printed}");
    let more = udp(0x98, &[operators, packets::keyword(b"last").repeat(25)].concat());
    let place = " offset  bytes
     32  00 01 00 01 00 01 00 01 00 01 00 01 00 01 00 01
     48  00 01 01 04 00 6C 61 73 74 01 04 00 6C 61 73 74
               ^
     64  01 04 00 6C 61 73 74 01 04 00 6C 61 73 74 01 04";
    assert_eq!(marked("u", &more), place);
}

#[test]
fn bytes_that_are_left() {
    let expected = "\
refused 7 at offset 22: bytes are left after the last item
The packet should end at offset 22, and 4 bytes are left.

 offset  bytes
      0  E3 15 00 00 00 19 01 23 45 67 89 AB CD EF 01 23
     16  45 67 89 AB CD EF 15 EC 65 01
                           ^^

The items before it (server-link, 26 bytes):

 offset  item                      value
      0  Protocol                  (E3) eDonkey
      1  Packet data length        21 bytes after the header
      5  opcode                    (19) Get sources
      6  File hash                 0123456789ABCDEF0123456789ABCDEF
";
    let file = samples().join("amule_s_E3_19_01.bin");
    let studio = Studio::new();
    assert_eq!(studio.run(&["why", "s", file.to_str().unwrap()]).expect(1).stdout, expected);
    let query = [packets::query(), vec![0]].concat();
    assert_eq!(
        sentence("s", &server(0x16, &query)),
        "The packet should end at offset 35, and 1 byte is left."
    );
    assert_eq!(items("s", &server(0x16, &query))[3], "      6  Search query of depth 3");
    let no_parts = client(0x50, &[&HASH[..], &[0, 0, 9]].concat());
    assert_eq!(items("c", &no_parts).last().unwrap(), "     22  Part status list          0 parts");
}

#[test]
fn ranges_and_data_that_do_not_fit() {
    let expected = "\
refused 8 at offset 22: a start is above its end
The range starts at 20 and ends at 10.

 offset  bytes
      0  E3 19 00 00 00 46 A0 01 02 03 04 05 06 07 08 09
     16  0A 0B 0C 0D 0E 0F 14 00 00 00 0A 00 00 00
                           ^^ ^^ ^^ ^^ ^^ ^^ ^^ ^^

The items before it (client-link, 30 bytes):

 offset  item                      value
      0  Protocol                  (E3) eDonkey
      1  Packet data length        25 bytes after the header
      5  opcode                    (46) Sending part
      6  File hash                 A00102030405060708090A0B0C0D0E0F
";
    let sent = |start: u32, end: u32, data: &[u8]| {
        client(0x46, &[&HASH[..], &dword(start), &dword(end), data].concat())
    };
    assert_eq!(explained("c", &sent(20, 10, b"")), expected);
    let data = sent(10, 1_400, b"abc");
    let reason = "refused 8 at offset 22: the data is not as long as its start and end say\n";
    assert!(explained("c", &data).starts_with(reason));
    assert_eq!(sentence("c", &data), "The range from 10 to 1,400 has 1,390 bytes, and 3 are there.");
    assert_eq!(sentence("c", &sent(10, 11, b"")), "The range from 10 to 11 has 1 byte, and none is there.");
    assert_eq!(sentence("c", &sent(0, 0, b"x")), "The range from 0 to 0 has 0 bytes, and 1 is there.");

    let asked = |numbers: [u32; 6]| client(0x47, &[HASH.to_vec(), numbers.map(dword).concat()].concat());
    let two = asked([30, 3_000, 9, 10, 29, 9]);
    assert_eq!(
        sentence("c", &two),
        "Range 1 starts at 30 and ends at 10; range 2 starts at 3,000 and ends at 29."
    );
    let all_six = " offset  bytes
      0  E3 29 00 00 00 47 A0 01 02 03 04 05 06 07 08 09
     16  0A 0B 0C 0D 0E 0F 1E 00 00 00 B8 0B 00 00 09 00
                           ^^ ^^ ^^ ^^ ^^ ^^ ^^ ^^ ^^ ^^
     32  00 00 0A 00 00 00 1D 00 00 00 09 00 00 00
         ^^ ^^ ^^ ^^ ^^ ^^ ^^ ^^ ^^ ^^ ^^ ^^ ^^ ^^";
    assert_eq!(marked("c", &two), all_six);
    assert_eq!(sentence("c", &asked([0, 0, 1, 0, 0, 0])), "Range 3 starts at 1 and ends at 0.");
    // The order is judged once all six are there.
    let body = [HASH.to_vec(), [30, 3_000, 9, 10].map(dword).concat(), vec![0]].concat();
    let cut = client(0x47, &body);
    assert_eq!(sentence("c", &cut), "The item 'End offset 2' needs 4 bytes, and 1 is there.");
    assert_eq!(items("c", &cut).last().unwrap(), "     34  End offset 1              10, below its start");
}

#[test]
fn an_item_that_ends_far_behind_the_packet() {
    let expected = "\
refused 1 at offset 8: the bytes end before the item being read ends
The item 'String' needs 60,000 bytes, and 5 are there.

 offset  bytes
      0  E3 08 00 00 00 4E 60 EA 68 65 6C 6C 6F -- -- --
                                 ^^ ^^ ^^ ^^ ^^ ^^ ^^ ^^
     16  -- -- -- -- -- -- -- -- -- -- -- -- -- -- -- --
         ^^ ^^ ^^ ^^ ^^ ^^ ^^ ^^ ^^ ^^ ^^ ^^ ^^ ^^ ^^ ^^
     32  -- -- -- -- -- -- -- -- -- -- -- -- -- -- -- --
         ^^ ^^ ^^ ^^ ^^ ^^ ^^ ^^ ^^ ^^ ^^ ^^ ^^ ^^ ^^ ^^
         and 59,960 bytes more of the item

The items before it (client-link, 13 bytes):

 offset  item                      value
      0  Protocol                  (E3) eDonkey
      1  Packet data length        8 bytes after the header
      5  opcode                    (4E) Message
      6  String, length            60,000 bytes (58.6 KiB)
";
    assert_eq!(explained("c", &client(0x4E, &[&word(60_000)[..], b"hello"].concat())), expected);
}

#[test]
fn an_empty_packet() {
    let expected = "\
refused 1 at offset 0: the bytes end before the item being read ends
The item 'Protocol' needs 1 byte, and none is there.

 offset  bytes
      0  --
         ^^
";
    for kind in ["server-link", "client-link", "udp"] {
        assert_eq!(explained(kind, b""), expected);
    }
}

/// The items of a tag, an address and a query that are whole stand before the fault, each by itself.
#[test]
fn lines_that_are_not_whole_are_shown_item_by_item() {
    let text = [vec![2], string(&[0x01]), word(300), b"left last".to_vec()].concat();
    assert_eq!(
        items("s", &server_info(&text))[7..],
        [
            "     40    type                    (02) String",
            "     41    name, length            1 byte",
            "     43    name                    name (01)",
            "     44    String, length          300 bytes"
        ]
    );
    let servers = [vec![3], packets::address([80, 10, 10, 3], 4662), vec![10, 0, 0, 7, 1]].concat();
    assert_eq!(
        sentence("u", &udp(0xA1, &servers)),
        "The item 'Address, port' of address 2 needs 2 bytes, and 1 is there."
    );
    assert_eq!(
        items("u", &udp(0xA1, &servers))[2..],
        [
            "      2  Address list              3 addresses",
            "      3    Address                 80.10.10.3:4662",
            "      9    Address, IP             10.0.0.7"
        ]
    );
    let query = packets::query();
    let cut = server(0x16, &query[..query.len() - 1]);
    assert_eq!(
        items("s", &cut)[3..],
        [
            "      6  Search query",
            "      6    and not: the first, but not the second, of",
            "      8      or: one of",
            "     10        name contains \"last\"",
            "     17        type (03) is \"Doc\"",
            "     26      case                  (03) a limit of a tag",
            "     27      limit                 100",
            "     31      bound                 (01) at least",
            "     32      name, length          1 byte"
        ]
    );
}

/// Each entry of a list that is whole stands before the fault, and the faulty one has its number in the sentence.
#[test]
fn entries_of_lists_have_numbers() {
    let file = samples().join("amule_s_E3_15_01.bin");
    let printed = Studio::new().run(&["why", "s", file.to_str().unwrap()]).expect(1).stdout;
    let expected = "\
refused 1 at offset 545: the bytes end before the item being read ends
The item 'File hash' of File info 9 needs 16 bytes, and none is there.

 offset  bytes
    528  03 01 00 02 01 70 94 00 02 01 00 03 03 00 50 72
    544  6F -- -- -- -- -- -- -- -- -- -- -- -- -- -- --
            ^^ ^^ ^^ ^^ ^^ ^^ ^^ ^^ ^^ ^^ ^^ ^^ ^^ ^^ ^^
    560  --
         ^^

The items before it (server-link, 545 bytes):
";
    assert!(printed.starts_with(expected), "{printed}");
    assert!(printed.contains("  File info 8\n") && !printed.contains("  File info 9\n"), "{printed}");
    let records = list(&[record(&packets::four_tags()), record(&[dword_tag(b"", 1)])]);
    assert_eq!(
        sentence("c", &client(0x4B, &records)),
        "The item 'name, length' of tag 1 of File info 2 is 0, and must be 1 to 255."
    );
}

/// A list may say that it has more entries than any packet could: only what is there is looked at.
#[test]
fn a_hostile_count_is_answered_at_once() {
    let most = u32::MAX;
    let hostile = [
        ("s", server(0x15, &dword(most))),
        ("c", client(0x4B, &[dword(most), record(&packets::four_tags())].concat())),
        ("u", udp(0x99, &[&HASH[..], &[127, 0, 0, 1, 0, 0], &dword(most)].concat())),
        ("c", client(0x52, &[&HASH[..], &word(u16::MAX)].concat())),
    ];
    for (kind, bytes) in hostile {
        let printed = explained(kind, &bytes);
        assert!(printed.starts_with("refused 1 at offset ") && printed.lines().count() < 40, "{printed}");
    }
    let listed = items("s", &server(0x15, &dword(most)));
    assert_eq!(listed.last().unwrap(), "      6  File info list            4,294,967,295 entries");
}

#[test]
fn an_accepted_packet_is_told_to_be_accepted() {
    let studio = Studio::new();
    for (link, bytes) in packets::packet_of_each_shape() {
        studio.file("packet.bin", &bytes);
        let run = studio.run(&["why", ed2k::Kind::from(link).word(), "packet.bin"]).expect(0);
        assert_eq!((run.stdout.as_str(), run.stderr.as_str()), ("accepted: the packet breaks no rule\n", ""));
    }
}

/// Runs the command with these bytes on standard input.
fn given(words: &[&str], bytes: &[u8]) -> Run {
    let studio = Studio::new();
    let words: Vec<&OsStr> = words.iter().map(OsStr::new).collect();
    let mut command = studio.command(&words);
    command.stdin(Stdio::piped()).stdout(Stdio::piped()).stderr(Stdio::piped());
    let mut child = command.spawn().expect("the command starts");
    child.stdin.take().expect("an input").write_all(bytes).expect("it is read");
    wait(child)
}

#[test]
fn the_packet_may_come_on_standard_input() {
    let bytes = server(0x19, &[HASH.to_vec(), vec![0; 4]].concat());
    assert_eq!(given(&["why", "s", "-"], &bytes).expect(1).stdout, explained("s", &bytes));
    assert_eq!(
        given(&["why", "u", "-"], &udp(0xA4, &[])).expect(0).stdout,
        "accepted: the packet breaks no rule\n"
    );
}

/// Met files, queries and tag lists have the number that `read` gives.
#[test]
fn what_is_no_packet_has_its_number() {
    let studio = Studio::new();
    let damaged = samples().join("overlapping_gaps.part.met");
    let run = studio.run(&["why", "part.met", damaged.to_str().unwrap()]).expect(1);
    assert_eq!(
        (run.stdout.as_str(), run.stderr.as_str()),
        (
            "refused 8: a start, end or gap breaks its rule\nWhere and why is said of packets alone, for now.\n",
            ""
        )
    );
    studio.file("known.met", &packets::known_met());
    let run = studio.run(&["why", "k", "known.met"]).expect(0);
    assert_eq!(run.stdout, "accepted\nWhere and why is said of packets alone, for now.\n");
    studio.file("wrong", &[9]);
    for (kind, number) in [("q", 5), ("t", 1), ("v", 2)] {
        let stdout = studio.run(&["why", kind, "wrong"]).expect(1).stdout;
        assert!(stdout.starts_with(&format!("refused {number}: ")), "{stdout}");
        assert_eq!(studio.run(&["read", kind, "wrong"]).expect(1).stdout, format!("refused {number}\n"));
    }
}

#[test]
fn the_number_is_that_of_read_for_every_sample() {
    let studio = Studio::new();
    for (letter, file, line) in sample_lines() {
        let file = file.to_str().unwrap();
        let status = if line.starts_with("accepted") { 0 } else { 1 };
        let printed = studio.run(&["why", &letter, file]).expect(status).stdout;
        let said = line.split(' ').take(if status == 0 { 1 } else { 2 }).collect::<Vec<_>>().join(" ");
        assert!(printed.starts_with(&said), "{file}: {printed}");
        assert_eq!(printed.contains(" at offset "), status == 1 && "scu".contains(&letter), "{file}");
    }
}

#[test]
fn json_has_the_rule_and_its_place() {
    let object = |kind: &str, bytes: &[u8], status: i32| {
        let run = given(&["why", "--json", kind, "-"], bytes).expect(status);
        assert_eq!(run.stderr, "");
        let line = run.stdout.strip_suffix('\n').expect("a line").to_string();
        Json::parse(&line).unwrap_or_else(|offset| panic!("no JSON at {offset}: {line}"));
        line
    };
    let rest = server(0x19, &[HASH.to_vec(), vec![0; 4]].concat());
    assert_eq!(
        object("s", &rest, 1),
        r#"{"number":7,"meaning":"bytes are left after the last item","kind":"server-link","rule":"rest","offset":22,"size":1}"#
    );
    assert_eq!(
        object("u", &udp(0xA4, &[]), 0),
        r#"{"number":0,"kind":"udp","rule":null,"offset":null,"size":null}"#
    );
    assert_eq!(
        object("t", &[1, 0, 0, 0, 9], 1),
        concat!(
            r#"{"number":5,"meaning":"a byte is outside its list, an unused status bit is set, or a tag name has length 0","#,
            r#""kind":"tags","rule":null,"offset":null,"size":null}"#
        )
    );
    let sent = |start: u32, end: u32| client(0x46, &[&HASH[..], &dword(start), &dword(end)].concat());
    for (kind, bytes, number, rule, offset, size) in [
        ("s", vec![], 1, "short", 0, 1),
        ("c", vec![0xC5], 2, "opening", 0, 1),
        ("s", vec![0xE3, 0, 0, 0, 0], 3, "length", 1, 4),
        ("u", udp(0xFF, &[]), 4, "kind", 1, 1),
        ("s", server(0x16, &[4]), 5, "choice", 6, 1),
        ("c", client(0x50, &[&HASH[..], &[1, 0, 2]].concat()), 5, "status-bit", 24, 1),
        ("u", vec![0; 65_537], 6, "bytes", 0, 65_537),
        ("u", udp(0x98, &[0; 48]), 6, "depth", 50, 0),
        ("s", server(0x16, &[vec![2, 0, 0], word(256)].concat()), 6, "name", 9, 2),
        ("u", udp(0xA4, &[0]), 7, "rest", 2, 1),
        ("c", sent(1, 0), 8, "order", 22, 8),
        ("c", sent(0, 1), 8, "data", 22, 8),
    ] {
        let line = object(kind, &bytes, 1);
        let expected = format!(r#""rule":"{rule}","offset":{offset},"size":{size}}}"#);
        assert!(line.starts_with(&format!(r#"{{"number":{number},"meaning":""#)), "{line}");
        assert!(line.ends_with(&expected), "{line}");
    }
}

#[test]
fn show_and_read_point_to_it() {
    let studio = Studio::new();
    studio.file("last packet.bin", &server(0x34, &[3, 0, 0, 0, 5]));
    let expected = "\
ed2k: 'last packet.bin' is refused 1: the bytes end before the item being read
  ends
Where and why: ed2k why s 'last packet.bin'
";
    for (words, stdout) in [
        (&["show", "server-link", "last packet.bin"][..], ""),
        (&["read", "s", "last packet.bin"], "refused 1\n"),
    ] {
        let words: Vec<&OsStr> = words.iter().map(OsStr::new).collect();
        let output = studio.command(&words).output().expect("the command runs");
        assert_eq!(output.status.code(), Some(1));
        assert_eq!(String::from_utf8(output.stderr).unwrap(), expected);
        assert_eq!(String::from_utf8(output.stdout).unwrap(), stdout);
    }
    for (kind, letter) in [("s", 's'), ("client-link", 'c'), ("udp", 'u')] {
        for words in [["read", kind, "-"], ["show", kind, "-"]] {
            let stderr = given(&words, &[0]).expect(1).stderr;
            let line = format!("\nWhere and why: ed2k why {letter} - (with the same input)\n");
            assert!(stderr.ends_with(&line), "{stderr}");
        }
    }
    studio.file("wrong", &[0]);
    for kind in ["k", "v", "p", "q", "t"] {
        for words in [["read", kind, "wrong"], ["show", kind, "wrong"]] {
            assert!(!studio.run(&words).expect(1).stderr.contains("Where and why"));
        }
    }
    let run = studio.run(&["show", "--json", "s", "wrong"]).expect(1);
    assert!(run.stderr.ends_with("\nWhere and why: ed2k why s 'wrong'\n"), "{}", run.stderr);
}

#[test]
fn the_example_of_the_help_is_what_is_printed() {
    let studio = Studio::new();
    let help = studio.run(&["why", "--help"]).expect(0).stdout;
    let shown = readme::shown(&help);
    assert_eq!(shown.len(), 2, "{help}");
    readme::assert_printed(&studio, &shown);
}

#[test]
fn an_output_that_is_full_is_an_error() {
    let studio = Studio::new();
    studio.file("packet.bin", &[0xC5]);
    for words in [&["why", "s", "packet.bin"][..], &["why", "--json", "s", "packet.bin"]] {
        let words: Vec<&OsStr> = words.iter().map(OsStr::new).collect();
        let mut command = studio.command(&words);
        command.stdout(full_output());
        let run = finish(command).expect(2);
        assert!(run.stderr.contains("cannot write to standard output"), "{}", run.stderr);
    }
}
