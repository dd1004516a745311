//! The walk prints what `ed2k show` prints, and ends at the fault; on made packets of every opcode, whole and damaged.

use std::collections::BTreeSet;

use ed2k::{Kind, Link, Reason, Rule};

use super::print_reason;
use super::walk::{Wanted, walk};
use crate::inputs::{self, Random, damaged};
use crate::show;

const LINKS: [Link; 3] = [Link::Server, Link::Client, Link::Udp];

/// Accepted packets of each opcode, and refused ones of each link.
const ACCEPTED: usize = 300;
const REFUSED: usize = 10_000;

/// Packets near the byte ceiling, and queries near the depth's, of each link.
const LONG: usize = 40;

/// A line of a sheet, with its offset. One that goes on below is one line.
#[derive(Debug, PartialEq)]
struct Line {
    offset: usize,
    words: String,
}

/// The lines of a sheet, after its head.
fn lines(printed: &str) -> Vec<Line> {
    let mut lines: Vec<Line> = Vec::new();
    for line in printed.lines().skip(2) {
        match (line[..7].trim().parse(), lines.last_mut()) {
            (Ok(offset), _) => lines.push(Line { offset, words: line[7..].into() }),
            (Err(_), Some(last)) => last.words.extend(["\n", line]),
            (Err(_), None) => panic!("a first line without an offset: {line}"),
        }
    }
    lines
}

/// What `show` prints of an accepted packet, without its first line and its last one.
fn shown(link: Link, bytes: &[u8]) -> Option<String> {
    let kind = Kind::from(link);
    let message = ed2k::read(kind, bytes).ok()?;
    let mut output = Vec::new();
    show::show(kind, &message, bytes.len(), &mut output).expect("a list takes all");
    let printed = String::from_utf8(output).expect("text");
    let items = printed.split_once('\n').expect("a first line").1;
    let end = items.trim_end().rfind('\n').expect("a last line");
    assert_eq!(items[end..].trim(), format!("{}  end", bytes.len()));
    Some(items[..=end].into())
}

fn walked(link: Link, bytes: &[u8], fault: Option<usize>) -> (String, Option<Wanted>) {
    let mut output = Vec::new();
    let wanted = walk(link, bytes, fault, &mut output).expect("a list takes all");
    (String::from_utf8(output).expect("text"), wanted)
}

/// The packet up to this length, which its header says too.
fn cut(link: Link, bytes: &[u8], length: usize) -> Vec<u8> {
    let mut bytes = bytes[..length].to_vec();
    if link != Link::Udp && length > 5 {
        bytes[1..5].copy_from_slice(&(length as u32 - 5).to_le_bytes());
    }
    bytes
}

#[test]
fn the_walk_through_an_accepted_packet_prints_what_show_prints() {
    for (number, link) in (0u8..).zip(LINKS) {
        let mut random = Random::new(7_000 + u64::from(number));
        for (opcode, _) in inputs::opcodes(number) {
            let mut accepted = 0;
            while accepted < ACCEPTED {
                let bytes = inputs::packet_of(&mut random, number, *opcode);
                let Some(shown) = shown(link, &bytes) else { continue };
                let (walked, wanted) = walked(link, &bytes, None);
                assert_eq!(walked, shown);
                assert!(wanted.is_none() && !shown.contains("no words for"), "{shown}");
                accepted += 1;
            }
        }
    }
}

/// The walk and the whole answer of a refused packet.
fn check_refused(link: Link, bytes: &[u8], reason: &Reason) {
    let (printed, wanted) = walked(link, bytes, Some(reason.offset));
    let before = lines(&printed);
    assert!(before.iter().all(|line| line.offset < reason.offset), "{reason}: {printed}");
    match (&wanted, reason.rule) {
        (None, Rule::Rest) => check_rest(link, bytes, reason, &before),
        (Some(wanted), Rule::Choice) => {
            let is_name = wanted.name == "name, length";
            assert_eq!((is_name, wanted.choices.is_empty()), (reason.size == 2, is_name), "{}", wanted.name);
            assert!(!wanted.choices.contains(&bytes[reason.offset]));
        }
        (Some(wanted), Rule::NameCeiling) => assert_eq!(wanted.name, "name, length"),
        (Some(_), rule) => assert_ne!(rule, Rule::Rest),
        (None, _) => panic!("{reason}: the walk does not come to the fault: {printed}"),
    }
    let mut output = Vec::new();
    print_reason(link, bytes, reason, &mut output).expect("a list takes all");
    let answer = String::from_utf8(output).expect("text");
    let long = answer.lines().find(|line| line.chars().count() > 80 || line.trim_end() != *line);
    assert_eq!(long, None);
    assert_eq!(answer.contains("The items before it"), reason.offset > 0);
    assert!(answer.contains('^') && answer.lines().nth(1).is_some_and(|line| !line.is_empty()), "{answer}");
}

/// Without the bytes that are left the packet is accepted, and its items are those before the fault.
fn check_rest(link: Link, bytes: &[u8], reason: &Reason, before: &[Line]) {
    let accepted = cut(link, bytes, reason.offset);
    let shown = lines(&shown(link, &accepted).expect("it is accepted without the rest"));
    let expected = shown.iter().filter(|line| line.offset < reason.offset && !says_the_length(line));
    assert!(before.iter().filter(|line| !says_the_length(line)).eq(expected));
}

/// Whether this is the line that another length changes.
fn says_the_length(line: &Line) -> bool {
    line.words.trim().starts_with(show::names::DATA_LENGTH)
}

/// A packet with a query of this depth, if the link has one.
fn packet_with_query(random: &mut Random, number: u8, depth: usize) -> Option<Vec<u8>> {
    let (opcode, _) = inputs::opcodes(number).iter().find(|(_, layout)| *layout == "q")?;
    let mut data = vec![*opcode];
    inputs::query(random, depth, &mut data);
    Some(inputs::framed(number, &data))
}

#[test]
fn the_walk_through_a_refused_packet_ends_at_the_fault() {
    let mut seen = BTreeSet::new();
    for (number, link) in (0u8..).zip(LINKS) {
        let mut random = Random::new(8_000 + u64::from(number));
        let mut check = |bytes: Vec<u8>| {
            let reason = ed2k::why(link, &bytes);
            match &reason {
                Some(reason) => check_refused(link, &bytes, reason),
                None => assert_eq!(Some(walked(link, &bytes, None).0), shown(link, &bytes)),
            }
            seen.extend(reason.map(|reason| reason.rule));
            reason.is_some()
        };
        let mut refused = 0;
        while refused < REFUSED {
            refused += usize::from(check(inputs::input(&mut random, number)));
        }
        for _ in 0..LONG {
            let length = inputs::long_length(&mut random, number);
            let long = inputs::grown(&mut random, number, length);
            check(damaged(&mut random, number, &long));
            let depth = random.within(23, 27);
            if let Some(deep) = packet_with_query(&mut random, number, depth) {
                assert_eq!(check(deep), depth > ed2k::QUERY_DEPTH);
            }
        }
    }
    let of_packets = |rule: &&Rule| !matches!(rule, Rule::GapCeiling | Rule::SizeTag);
    assert!(seen.iter().eq(Rule::ALL.iter().filter(of_packets)), "{seen:?}");
}

/// Whatever is at fault, the items that end before it are those of the packet before it was cut. The form of 97 follows from its
/// length, so that it is another packet then.
#[test]
fn the_items_before_a_cut_stay_as_they_were() {
    for (number, link) in (0u8..).zip(LINKS) {
        let mut random = Random::new(10_000 + u64::from(number));
        let mut compared = 0;
        while compared < REFUSED {
            let whole = inputs::packet(&mut random, number);
            let shorter = cut(link, &whole, random.below(whole.len()));
            let (Some(printed), Some(reason)) = (shown(link, &whole), ed2k::why(link, &shorter)) else {
                continue;
            };
            if link == Link::Udp && whole[1] == 0x97 {
                continue;
            }
            check_refused(link, &shorter, &reason);
            let before = lines(&printed);
            let ends = before.iter().skip(1).map(|line| line.offset).chain([whole.len()]);
            let is_passed =
                |(line, end): &(&Line, usize)| line.offset < reason.offset && *end <= reason.offset;
            let expected = before.iter().zip(ends).filter(is_passed).map(|(line, _)| line);
            let after = lines(&walked(link, &shorter, Some(reason.offset)).0);
            let mut stayed = after.iter().filter(|line| !is_changed_by_a_cut(line));
            for line in expected.filter(|line| !is_changed_by_a_cut(line)) {
                assert_eq!(stayed.next(), Some(line), "{reason}");
            }
            compared += 1;
        }
    }
}

/// The length is another one, and the depth of a query that is not whole is not known.
fn is_changed_by_a_cut(line: &Line) -> bool {
    says_the_length(line) || line.words.trim().starts_with("Search query")
}

/// A layout that comes later than the walk may put the fault where the walk sees the inside of an item. It then gives no name.
#[test]
fn a_fault_inside_of_an_item_has_no_name() {
    let packet = [0xE3, 9, 0, 0, 0, 0x34, 3, 0, 0, 0, 5, 0, 0, 0];
    let (printed, wanted) = walked(Link::Server, &packet, Some(12));
    assert!(wanted.is_none() && lines(&printed).last().is_some_and(|line| line.offset == 6), "{printed}");
    let (_, wanted) = walked(Link::Server, &packet, Some(10));
    assert_eq!(wanted.map(|wanted| wanted.name).as_deref(), Some("Nfiles"));
}
