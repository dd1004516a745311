//! What `--json` prints.

use std::collections::BTreeSet;
use std::fs;

use ed2k::Link;

use crate::json::Json;
use crate::packets;
use crate::studio::{Studio, sample_lines, samples};

/// The one object that is printed, on one line, in ASCII.
fn object(stdout: &str) -> Json {
    let line = stdout.strip_suffix('\n').expect("a line");
    assert!(line.starts_with('{') && line.bytes().all(|byte| (b' '..=b'~').contains(&byte)), "{line}");
    Json::parse(line).unwrap_or_else(|offset| panic!("no JSON at {offset}: {line}"))
}

/// What `show --json` prints of these bytes, which are accepted.
fn shown(studio: &Studio, kind: &str, bytes: &[u8]) -> Json {
    studio.file("file", bytes);
    let run = studio.run(&["show", "--json", kind, "file"]).expect(0);
    assert_eq!(run.stderr, "");
    object(&run.stdout)
}

#[test]
fn gaps_as_json_has_the_numbers_of_the_model() {
    let studio = Studio::new();
    let file = samples().join("amule_003.part.met");
    let run = studio.run(&["gaps", "--json", file.to_str().unwrap()]).expect(0);
    let expected = concat!(
        r#"{"number":0,"model":"song of twenty megs.mp3","hash":"90CE6A76E1AB157DE50AAC3B20EAEAEA","#,
        r#""size":20000000,"parts":3,"there":7865600,"missing":12134400,"#,
        r#""gaps":[{"start":7321600,"end":19456000}]}"#,
        "\n"
    );
    assert_eq!(run.stdout, expected);
    object(&run.stdout);
    studio.file("whole", &packets::part_met(0, 0, 7, &[]));
    let whole = object(&studio.run(&["gaps", "--json", "whole"]).expect(0).stdout);
    assert_eq!((whole.number("there"), whole.number("missing"), whole.list("gaps").len()), (7, 0, 0));
}

/// The names and types of values in a body: letters n number, s string, l list, o object, b truth, 0 null.
fn form(body: &Json) -> String {
    let Json::Object(members) = body else { panic!("no object: {body:?}") };
    let sign = |value: &Json| match value {
        Json::Null => '0',
        Json::Truth(_) => 'b',
        Json::Number(_) => 'n',
        Json::Text(_) => 's',
        Json::List(_) => 'l',
        Json::Object(_) => 'o',
    };
    members.iter().map(|(key, value)| format!("{key}:{}", sign(value))).collect::<Vec<_>>().join(" ")
}

#[test]
fn show_as_json_has_the_keys_of_each_body() {
    let forms = [
        "",
        "depth:n query:o",
        "hash:s",
        "rank:n",
        "users:n files:n",
        "text:s",
        "name:s description:s",
        "address:o",
        "addresses:l",
        "hash:s addresses:l",
        "address:o client_id:n",
        "hash:s address:o tags:l",
        "hash:s client_id:n port:n tags:l",
        "records:l",
        "records:l more:b",
        "hash:s client_id:n port:n tags:l server:o",
        "hash:s client_id:n port:n tags:l server:o",
        "hash:s name:s",
        "hash:s part_hashes:l",
        "hash:s start:n end:n data:s",
        "hash:s ranges:l",
        "hash:s parts:n held:l",
        "extended:b request:n",
        "extended:b request:n users:n files:n users_max:0",
        "extended:b request:n users:n files:n users_max:n",
    ];
    let studio = Studio::new();
    let shapes = packets::packet_of_each_shape();
    assert_eq!(shapes.len(), forms.len());
    for ((link, bytes), expected) in shapes.iter().zip(forms) {
        let kind = ed2k::Kind::from(*link).word();
        let packet = shown(&studio, kind, bytes);
        assert_eq!(packet.keys(), ["number", "kind", "length", "opening", "opcode", "name", "body"]);
        assert_eq!((packet.text("kind"), packet.number("length")), (kind, bytes.len() as u64));
        assert_eq!((packet.number("number"), packet.number("opening")), (0, 0xE3));
        assert_eq!(form(packet.get("body")), expected, "{packet:?}");
    }
    let change = packets::packet(Link::Client, 0x4D, &[packets::dword(3), packets::dword(7)].concat());
    assert_eq!(form(shown(&studio, "c", &change).get("body")), "old_client_id:n new_client_id:n");
    let id = packets::packet(Link::Server, 0x40, &packets::dword(3));
    assert_eq!(form(shown(&studio, "s", &id).get("body")), "client_id:n");
}

#[test]
fn show_as_json_has_the_values_of_packets() {
    let studio = Studio::new();
    let shapes = packets::packet_of_each_shape();
    let body = |shape: usize| {
        let (link, bytes) = &shapes[shape];
        let packet = shown(&studio, ed2k::Kind::from(*link).word(), bytes);
        packet.get("body").clone()
    };
    let parsed = |text: &str| Json::parse(text).expect("JSON");
    assert_eq!(body(4), parsed(r#"{"users":3,"files":5}"#));
    assert_eq!(body(8).list("addresses")[1], parsed(r#"{"ip":"10.0.0.7","port":4672}"#));
    let record = r#"{"hash":"A00102030405060708090A0B0C0D0E0F","client_id":16777343,"port":4662,"tags":[
        {"name":"\u0001","published":"name","type":"String","value":"left last.stl"},
        {"name":"\u0002","published":"size","type":"DWORD","value":5000},
        {"name":"girth","published":null,"type":"FLOAT","value":23.5,"bits":1102839808},
        {"name":"twin","published":null,"type":"HASH","value":"A00102030405060708090A0B0C0D0E0F"}]}"#;
    assert_eq!(body(12), parsed(record));
    assert_eq!(body(13).list("records")[0], parsed(record));
    assert_eq!(body(14).get("more"), &Json::Truth(true));
    assert_eq!(
        (body(19).number("start"), body(19).number("end"), body(19).text("data")),
        (10, 14, "64617461")
    );
    assert_eq!(body(20).list("ranges")[1], parsed(r#"{"start":20,"end":25}"#));
    assert_eq!(body(21).list("held"), [1.0, 3.0, 9.0].map(Json::Number));
    assert_eq!(body(22), parsed(r#"{"extended":true,"request":1521091073}"#));
    assert_eq!(body(24).number("request"), 1_521_091_073);
    let query = r#"{"depth":3,"query":{"case":"join","operator":"and not",
        "left":{"case":"join","operator":"or",
            "left":{"case":"keyword","text":"last"},
            "right":{"case":"field","text":"Doc","name":"\u0003","published":"type"}},
        "right":{"case":"limit","bound":"min","limit":100,"name":"\u0002","published":"size"}}}"#;
    assert_eq!(body(1), parsed(query));
}

#[test]
fn show_as_json_has_the_values_of_files() {
    let studio = Studio::new();
    let known = shown(&studio, "k", &packets::known_met());
    assert_eq!(known.keys(), ["number", "kind", "length", "opening", "entries"]);
    let entry = &known.list("entries")[0];
    assert_eq!(entry.keys(), ["date", "hash", "part_hashes", "tags"]);
    assert_eq!((entry.number("date"), entry.list("part_hashes").len()), (1_253_225_404, 2));
    let server = shown(&studio, "v", &packets::server_met());
    assert_eq!(server.text("tail"), "6D616465206279206120636C69656E74");
    assert_eq!(server.list("entries")[0].get("address").text("ip"), "80.10.10.11");
    let part = shown(&studio, "p", &packets::part_met_with_blocks());
    let keys = [
        "number",
        "kind",
        "length",
        "opening",
        "size",
        "date",
        "hash",
        "tags",
        "part_hashes",
        "block_hashes",
    ];
    assert_eq!(part.keys(), keys);
    assert_eq!(part.list("block_hashes")[1], Json::Text("0909090909090909".into()));
    let plain = shown(&studio, "p", &packets::part_met(1, 0, 100, &[]));
    assert_eq!((plain.list("part_hashes").len(), plain.get("block_hashes")), (0, &Json::Null));
    assert_eq!(shown(&studio, "q", &packets::query()).number("depth"), 3);
    assert_eq!(shown(&studio, "t", &packets::list(&packets::four_tags())).list("tags").len(), 4);
}

/// Names of all bytes there are: each is given, and none ends the string or the line.
#[test]
fn any_bytes_of_a_text_make_json() {
    let studio = Studio::new();
    let all: Vec<u8> = (0..=255).collect();
    let texts: [&[u8]; 7] = [
        b"",
        b"\"\\\x00\x1b\x7f\n",
        "größe \u{2028} 👞".as_bytes(),
        b"last \xFF",
        b"\xED\xA0\x80",
        &all,
        &all[..128],
    ];
    for text in texts {
        let tags = shown(&studio, "t", &packets::list(&[packets::text_tag(b"\xC3", text)]));
        let tag = &tags.list("tags")[0];
        assert_eq!(tag.get("name").text("hex"), "C3");
        match str::from_utf8(text) {
            Ok(text) => assert_eq!(tag.text("value"), text),
            Err(_) => {
                let digits: String = text.iter().map(|byte| format!("{byte:02X}")).collect();
                assert_eq!(tag.get("value").text("hex"), digits);
            }
        }
        let tags = [packets::text_tag(&[0x01], text), packets::dword_tag(&[0x02], 9)];
        let head = [vec![0xE0], packets::dword(0), packets::HASH.to_vec(), packets::word(0)].concat();
        studio.file("file", &[head, packets::list(&tags)].concat());
        let model = object(&studio.run(&["gaps", "--json", "file"]).expect(0).stdout);
        assert_eq!(model.get("model"), tag.get("value"));
    }
    for bits in [0u32, 1, 0x7F7F_FFFF, 0x7F80_0000, 0xFF80_0000, 0x7FC0_0000, 0x8000_0000, 0x0080_0000] {
        let float = [vec![4], packets::string(b"girth"), packets::dword(bits)].concat();
        let tags = shown(&studio, "t", &packets::list(&[float]));
        let tag = &tags.list("tags")[0];
        assert_eq!(tag.number("bits"), bits.into());
        match tag.get("value") {
            Json::Number(number) => assert_eq!((*number as f32).to_bits(), bits),
            other => assert!(*other == Json::Null && !f32::from_bits(bits).is_finite()),
        }
    }
}

#[test]
fn a_refused_file_has_its_number_in_json_too() {
    let studio = Studio::new();
    for (letter, file, line) in sample_lines() {
        let file = file.to_str().unwrap();
        let accepted = line.starts_with("accepted");
        let run = studio.run(&["show", "--json", &letter, file]).expect(if accepted { 0 } else { 1 });
        let printed = object(&run.stdout);
        let number = line.strip_prefix("refused ").map_or(0, |number| number.parse().unwrap());
        assert_eq!(printed.number("number"), number, "{file}");
        assert_eq!(run.stderr.contains("refused"), !accepted);
        if !accepted {
            assert_eq!(printed.keys(), ["number", "meaning"]);
            let refusal = ed2k::Refusal::from_number(number as u8).unwrap();
            assert_eq!(printed.text("meaning"), refusal.meaning());
        }
    }
    let damaged = samples().join("overlapping_gaps.part.met");
    let run = studio.run(&["gaps", "--json", damaged.to_str().unwrap()]).expect(1);
    assert_eq!(object(&run.stdout).number("number"), 8);
    assert_eq!(studio.run(&["gaps", "--json", "not there"]).expect(2).stdout, "");
}

/// A large file and a deep query are one object too.
#[test]
fn large_and_deep_files_make_json() {
    let studio = Studio::new();
    let deep = [[0u8, 1].repeat(23), packets::keyword(b"last").repeat(24)].concat();
    assert_eq!(shown(&studio, "q", &deep).number("depth"), 24);
    let tags: Vec<Vec<u8>> = (0..5_000).map(|number| packets::dword_tag(b"girth", number)).collect();
    assert_eq!(shown(&studio, "t", &packets::list(&tags)).list("tags").len(), 5_000);
}

/// Every key that is printed stands in the manual page, in quotes.
#[test]
fn the_manual_page_has_every_key() {
    let manual = fs::read_to_string(samples().join("../man/ed2k.1")).expect("the manual page");
    let studio = Studio::new();
    let mut keys = BTreeSet::new();
    for (link, bytes) in packets::packet_of_each_shape() {
        shown(&studio, ed2k::Kind::from(link).word(), &bytes).all_keys(&mut keys);
    }
    let change = packets::packet(Link::Client, 0x4D, &[packets::dword(3), packets::dword(7)].concat());
    let others: [(&str, Vec<u8>); 6] = [
        ("c", change),
        ("k", packets::known_met()),
        ("v", packets::server_met()),
        ("p", packets::part_met_with_blocks()),
        ("q", packets::query()),
        ("t", packets::list(&[packets::text_tag(b"x", b"\xFF")])),
    ];
    for (kind, bytes) in others {
        shown(&studio, kind, &bytes).all_keys(&mut keys);
    }
    for name in ["part", "first", "second"] {
        studio.file(name, &packets::part_met(0, 0, 9, &[(0, 4)]));
    }
    for words in [
        &["gaps", "--json", "part"][..],
        &["show", "--json", "k", "part"],
        &["merge", "--json", "--opened", "part", "first", "second", "out"],
        &["why", "--json", "s", "part"],
    ] {
        object(&studio.run(words).stdout).all_keys(&mut keys);
    }
    assert_eq!(keys.len(), 67, "{keys:?}");
    let missing: Vec<&String> = keys.iter().filter(|key| !manual.contains(&format!("\"{key}\""))).collect();
    assert!(missing.is_empty(), "{missing:?}");
}
