//! Why a packet is refused (02, No. 7): the archive is held to a second reading in plain Rust, to answers of an independent reading, to
//! chosen packets for each rule, and to what No. 7 says of a reason. Nothing after the item counts, and a change of the item does.

mod archive;
mod comparison;
#[path = "why/exact.rs"]
mod exact;
mod inputs;
#[path = "why/law.rs"]
mod law;
#[path = "support/packets.rs"]
#[allow(dead_code)]
mod packets;
mod plain;
#[path = "why/rows.rs"]
mod rows;
#[path = "why/shapes.rs"]
mod shapes;

use std::path::{Path, PathBuf};

use archive::ARCHIVE;
use comparison::Comparison;
use ed2k::{Kind, Link, Reason, Refusal, Rule};
use inputs::{reason_cases, vector_inputs};
use plain::{FIELDS, PLAIN, WHY_NUMBERS};

/// The links, by the numbers that `ed2k.h` gives their kinds.
const LINKS: [Link; 3] = [Link::Server, Link::Client, Link::Udp];

fn number_of(link: Link) -> u8 {
    Kind::from(link) as u8
}

/// Why the packet is refused: the same on both sides and in the crate, and with the number that the archive's reader has.
fn compare(comparison: &mut Comparison, link: u8, bytes: &[u8]) -> Option<Reason> {
    let numbers = comparison.why(link, bytes);
    let reason = ed2k::why(LINKS[usize::from(link)], bytes);
    let seed = comparison.seed();
    assert_eq!(reason.map_or([0; WHY_NUMBERS], numbers_of), numbers, "seed {seed}: what the crate has");
    let number = (ARCHIVE.read)(link, bytes, &mut [0; FIELDS]);
    assert_eq!(u64::from(number), numbers[0], "seed {seed}: the reader's number");
    reason
}

fn numbers_of(reason: Reason) -> [u64; WHY_NUMBERS] {
    let Reason { refusal, rule, offset, size, .. } = reason;
    assert_eq!(rule.refusal(), refusal);
    [refusal.number().into(), rule.number().into(), offset as u64, size as u64]
}

/// The name that the cases of the independent reading give a rule.
fn case_name(rule: Rule) -> &'static str {
    match rule {
        Rule::Short => "short",
        Rule::Opening => "opening",
        Rule::Length => "length",
        Rule::Kind => "kind",
        Rule::Choice => "choice",
        Rule::StatusBit => "status-bit",
        Rule::DepthCeiling => "depth",
        Rule::NameCeiling => "name",
        Rule::Rest => "rest",
        Rule::Order => "order",
        Rule::Data => "data",
        _ => panic!("no case is about {rule:?}"),
    }
}

/// Number, offset and rule of 800 packets, as an independent reading of 01 and 02 has them.
#[test]
fn cases_of_an_independent_reading() {
    let mut comparison = Comparison::new(0);
    let mut tried = 0;
    for case in reason_cases(include_str!("inputs/reasons.txt")) {
        let reason = compare(&mut comparison, case.link, &case.bytes);
        let told =
            reason.map(|reason| (reason.refusal.number(), reason.offset, case_name(reason.rule).to_string()));
        assert_eq!(told, case.reason, "line {}", case.line);
        tried += 1;
    }
    assert_eq!(tried, 800);
}

fn repository(path: &str) -> PathBuf {
    Path::new(env!("CARGO_MANIFEST_DIR")).join("..").join(path)
}

fn file(path: &str) -> Vec<u8> {
    std::fs::read(repository(path)).unwrap_or_else(|error| panic!("{path}: {error}"))
}

/// The packets among the inputs of the program `test_vectors` have the numbers that stand in its lines.
#[test]
fn vectors() {
    let mut comparison = Comparison::new(0);
    let expected = String::from_utf8(file("crates/test_vectors/stdout")).expect("the expected lines");
    let runs = ["vectors.bin", "samples.bin"].map(|name| file(&format!("crates/test_vectors/data/{name}")));
    let inputs = runs.iter().flat_map(|run| vector_inputs(run));
    let (mut accepted, mut refused) = (0, 0);
    for ((kind, bytes), line) in inputs.zip(expected.lines()) {
        if usize::from(kind) >= LINKS.len() {
            continue;
        }
        let reason = compare(&mut comparison, kind, bytes);
        let number = line.strip_prefix("refused ").map(|number| number.parse().expect("a number"));
        assert_eq!(reason.map(|reason| reason.refusal.number()), number, "{bytes:02X?}");
        *(if number.is_some() { &mut refused } else { &mut accepted }) += 1;
    }
    assert_eq!((accepted, refused), (228, 1_451));
}

/// What a stock client sent and 01 does not accept.
#[test]
fn refused_samples() {
    let mut comparison = Comparison::new(0);
    let mut refused = |link: Link, name: &str| {
        let packet = file(&format!("samples/amule_{name}.bin"));
        compare(&mut comparison, number_of(link), &packet).map(|reason| reason.to_string()).expect("a reason")
    };
    let another_opening = "refused 2 at offset 0: the first byte is not one of this link's or file's";
    assert_eq!(refused(Link::Client, "c_C5_01_01"), another_opening);
    assert_eq!(refused(Link::Client, "c_C5_02_01"), another_opening);
    // It counts nine records and has eight.
    let one_too_few = "refused 1 at offset 545: the bytes end before the item being read ends";
    assert_eq!(refused(Link::Server, "s_E3_15_01"), one_too_few);
    let left = |offset| format!("refused 7 at offset {offset}: bytes are left after the last item");
    assert_eq!(refused(Link::Server, "s_E3_19_01"), left(22));
    assert_eq!(refused(Link::Udp, "u_E3_A2_01"), left(2));
}

/// What the call itself refuses. Then it leaves every number as it was; else only those after the fourth.
#[test]
fn own_refusals_and_unused_numbers() {
    const LENT: u64 = 0x5E17_1E15;
    let packet = packets::packet(Link::Server, 0x05, &[7]);
    let reason = [7, u64::from(Rule::Rest.number()), 6, 1];
    for calls in [ARCHIVE, PLAIN] {
        let lent = |kind, bytes: &[u8], room| {
            let mut numbers = vec![LENT; room];
            ((calls.why)(kind, bytes, &mut numbers), numbers)
        };
        for room in 0..10 {
            for kind in 3..=255 {
                assert_eq!(lent(kind, &packet, room), (Refusal::Kind.number(), vec![LENT; room]));
            }
            if room < WHY_NUMBERS {
                assert_eq!(lent(0, &packet, room), (Refusal::Room.number(), vec![LENT; room]));
                continue;
            }
            let unused = vec![LENT; room - WHY_NUMBERS];
            assert_eq!(lent(0, &packet, room), (0, [&reason, &unused[..]].concat()));
            assert_eq!(lent(0, &packet[..0], room), (0, [&[1, 1, 0, 1], &unused[..]].concat()));
            let accepted = packets::packet(Link::Server, 0x05, &[]);
            assert_eq!(lent(0, &accepted, room), (0, [&[0; WHY_NUMBERS], &unused[..]].concat()));
        }
    }
}
