//! The item that a reason names is the one at fault: it alone is changed to bytes that are lawful there, and the packet is accepted or
//! refused for something after it. Where its bytes cannot matter, the length of the packet is changed instead.

use ed2k::{PACKET_CEILING, Reason, Rule};

use crate::comparison::Comparison;
use crate::inputs::framed;
use crate::plain::UDP_LINK;
use crate::{LINKS, compare};

pub fn assert_exact(comparison: &mut Comparison, link: u8, packet: &[u8], reason: Reason) {
    let seed = comparison.seed();
    let is_exact = match reason.rule {
        Rule::Short => is_short_by_so_much(comparison, link, packet, reason),
        Rule::Rest => compare(comparison, link, &of_length(link, packet, reason.offset)).is_none(),
        Rule::DepthCeiling => {
            let cut = of_length(link, packet, reason.offset);
            compare(comparison, link, &cut) == Some(reason)
        }
        Rule::ByteCeiling => {
            let longest = compare(comparison, link, &packet[..PACKET_CEILING]);
            reason.size == packet.len() && longest.is_none_or(|longest| longest.rule != reason.rule)
        }
        // No length is lawful where nothing is after it.
        Rule::Length if packet.len() == reason.offset + reason.size => {
            !has_lawful_bytes(link, packet, reason)
        }
        _ => has_lawful_bytes(link, packet, reason),
    };
    assert!(is_exact, "seed {seed}, {reason:?}");
}

/// As many bytes of the packet, filled up with 0, the length in its header put right.
fn of_length(link: u8, packet: &[u8], length: usize) -> Vec<u8> {
    let mut other = packet[..length.min(packet.len())].to_vec();
    other.resize(length, 0);
    let opcode = if link == UDP_LINK { 1 } else { 5 };
    if length > opcode { framed(link, &other[opcode..]) } else { other }
}

/// With all bytes that the item needs the answer is another one, and with one less it is the same.
fn is_short_by_so_much(comparison: &mut Comparison, link: u8, packet: &[u8], reason: Reason) -> bool {
    let end = reason.offset + reason.size;
    let whole = compare(comparison, link, &of_length(link, packet, end));
    let almost = compare(comparison, link, &of_length(link, packet, end - 1));
    let is_too_long = end - 1 > PACKET_CEILING;
    whole != Some(reason) && (is_too_long || almost == Some(reason))
}

/// Some bytes of the item's own size make the packet accepted, or refused for something after the item.
fn has_lawful_bytes(link: u8, packet: &[u8], reason: Reason) -> bool {
    let end = reason.offset + reason.size;
    candidates(packet.len() - end, reason).iter().any(|bytes| {
        let mut other = packet.to_vec();
        other[reason.offset..end].copy_from_slice(bytes);
        ed2k::why(LINKS[usize::from(link)], &other).is_none_or(|other| other.offset >= end)
    })
}

/// Bytes that may be lawful for the item, where so many bytes are after it: of a single byte, all.
fn candidates(left: usize, reason: Reason) -> Vec<Vec<u8>> {
    let dword = |number: usize| (number as u32).to_le_bytes();
    match (reason.rule, reason.size) {
        (_, 1) if reason.rule != Rule::StatusBit => (0..=255).map(|byte| vec![byte]).collect(),
        (Rule::Choice | Rule::NameCeiling, 2) => vec![vec![1, 0]],
        (Rule::Length, 4) => vec![dword(left).to_vec()],
        (Rule::Order | Rule::Data, 8) => vec![[dword(0), dword(left)].concat()],
        (Rule::Order, 24) | (Rule::StatusBit, _) => vec![vec![0; reason.size]],
        _ => panic!("no item has this rule and size: {reason:?}"),
    }
}
