//! The law of No. 7 on made packets: any other packet of the same length, equal up to the end of the item, is refused for the same
//! reason. If the item is cut short by the end of the packet, not even its own bytes count.

use std::collections::BTreeMap;

use ed2k::{Reason, Rule};

use crate::comparison::Comparison;
use crate::inputs::{Random, damaged, framed, input, long_input, long_length, query};
use crate::plain::{CLIENT_LINK, SERVER_LINK, UDP_LINK};
use crate::{compare, exact};

/// Packets that are refused, of each link.
const REFUSED: usize = 100_000;

/// Every rule that the link can break is broken by at least as many of them.
const OF_EACH_RULE: usize = 100;

#[test]
fn server_link() {
    let others = [Rule::Length, Rule::DepthCeiling];
    try_link(SERVER_LINK, 50_000_000, &others);
}

#[test]
fn client_link() {
    let others = [Rule::Length, Rule::StatusBit, Rule::Order, Rule::Data];
    try_link(CLIENT_LINK, 51_000_000, &others);
}

#[test]
fn udp_link() {
    try_link(UDP_LINK, 52_000_000, &[Rule::DepthCeiling]);
}

/// The rules that every link has.
const RULES: [Rule; 7] =
    [Rule::Short, Rule::Opening, Rule::Kind, Rule::Choice, Rule::ByteCeiling, Rule::NameCeiling, Rule::Rest];

fn try_link(link: u8, seed: u64, others: &[Rule]) {
    let mut comparison = Comparison::new(seed);
    let mut broken = BTreeMap::new();
    let mut refused = 0;
    while refused < REFUSED {
        let mut random = comparison.next_input();
        let packet = some_packet(&mut random, link);
        if let Some(reason) = compare(&mut comparison, link, &packet) {
            assert_nothing_after_counts(&mut comparison, &mut random, link, &packet, reason);
            exact::assert_exact(&mut comparison, link, &packet, reason);
            *broken.entry(reason.rule).or_insert(0) += 1;
            refused += 1;
        }
    }
    let mut rules = [&RULES, others].concat();
    rules.sort();
    assert_eq!(broken.keys().copied().collect::<Vec<_>>(), rules, "the rules that were broken");
    assert!(broken.values().all(|count| *count >= OF_EACH_RULE), "{broken:?}");
}

/// Valid, damaged, without a plan, near a ceiling, or with a deep query.
fn some_packet(random: &mut Random, link: u8) -> Vec<u8> {
    match random.below(200) {
        0 => {
            let length = long_length(random, link);
            long_input(random, link, length)
        }
        1..5 if link != CLIENT_LINK => deep_query(random, link),
        _ => input(random, link),
    }
}

fn deep_query(random: &mut Random, link: u8) -> Vec<u8> {
    let opcode = if link == UDP_LINK { 0x98 } else { random.pick(&[0x16, 0x1A]) };
    let depth = random.pick(&[24, 25, 25, 26, 40]);
    let mut data = vec![opcode];
    query(random, depth, &mut data);
    let packet = framed(link, &data);
    if random.once_in(3) { damaged(random, link, &packet) } else { packet }
}

/// The packet with other bytes from the offset on.
fn replaced(random: &mut Random, packet: &[u8], offset: usize) -> Vec<u8> {
    let others = random.bytes(packet.len() - offset);
    [&packet[..offset], &others].concat()
}

fn assert_nothing_after_counts(
    comparison: &mut Comparison,
    random: &mut Random,
    link: u8,
    packet: &[u8],
    reason: Reason,
) {
    let (end, seed) = (reason.offset + reason.size, comparison.seed());
    let is_cut = end > packet.len();
    assert_eq!(is_cut, reason.rule == Rule::Short, "seed {seed}, {reason:?}");
    let other = replaced(random, packet, if is_cut { reason.offset } else { end });
    assert_eq!(compare(comparison, link, &other), Some(reason), "seed {seed}");
}
