//! A packet of each shape, its items counted by hand: cut within each of them, and with a byte too many.

use ed2k::{Link, Rule};

use crate::comparison::Comparison;
use crate::inputs::framed;
use crate::number_of;
use crate::packets::packet_of_each_shape;
use crate::rows::why;

/// The sizes of items, one after the other.
type Items = &'static [&'static [usize]];

const RECORD: &[usize] = &[16, 4, 2];
/// A count, and a text, a DWORD, a FLOAT and a HASH under their names.
const TAGS: &[usize] = &[4, 1, 2, 1, 2, 13, 1, 2, 1, 4, 1, 2, 5, 4, 1, 2, 4, 16];
const ADDRESS: &[usize] = &[4, 2];
const QUERY: &[usize] = &[1, 1, 1, 1, 1, 2, 4, 1, 2, 3, 2, 1, 1, 4, 1, 2, 1];

/// The items of the bodies of [`packet_of_each_shape`], in its order. The data of a part is no item that can be too short, and a plain
/// status that is cut is no plain one.
const BODIES: [Items; 25] = [
    &[],
    &[QUERY],
    &[&[16]],
    &[&[4]],
    &[&[4, 4]],
    &[&[2, 7]],
    &[&[2, 6, 2, 13]],
    &[ADDRESS],
    &[&[1], ADDRESS, ADDRESS],
    &[&[16, 1], ADDRESS, ADDRESS],
    &[ADDRESS, &[4]],
    &[&[16], ADDRESS, TAGS],
    &[RECORD, TAGS],
    &[&[4], RECORD, TAGS, RECORD, &[4]],
    &[&[4], RECORD, TAGS, &[1]],
    &[RECORD, TAGS, ADDRESS],
    &[&[1], RECORD, TAGS, ADDRESS],
    &[&[16, 2, 13]],
    &[&[16, 2, 16, 16]],
    &[&[16, 4, 4]],
    &[&[16, 4, 4, 4, 4, 4, 4]],
    &[&[16, 2, 2]],
    &[&[4]],
    &[],
    &[&[1, 1, 1, 1, 4, 4, 4]],
];

const SENDING_PART: usize = 19;
const PLAIN_STATUS: usize = 23;
const EXTENDED_STATUS: usize = 24;

/// How many bytes are before the body.
fn head(link: Link) -> usize {
    if link == Link::Udp { 2 } else { 6 }
}

/// As many bytes of the packet, the length in its header put right.
fn cut(link: Link, packet: &[u8], length: usize) -> Vec<u8> {
    match head(link) - 1 {
        opcode if length > opcode => framed(number_of(link), &packet[opcode..length]),
        _ => packet[..length].to_vec(),
    }
}

#[test]
fn every_item_that_is_cut() {
    let mut comparison = Comparison::new(0);
    let mut cuts = 0;
    for (shape, (link, packet)) in packet_of_each_shape().into_iter().enumerate() {
        let mut at = head(link);
        for size in BODIES[shape].iter().copied().flatten().copied() {
            for length in at..at + size {
                let cut = cut(link, &packet, length);
                let is_plain_status = shape == EXTENDED_STATUS && length == head(link) + 12;
                let expected = (!is_plain_status).then_some((1, Rule::Short, at, size));
                assert_eq!(why(&mut comparison, link, &cut), expected, "shape {shape}, {length} bytes");
                cuts += 1;
            }
            at += size;
        }
        if shape != SENDING_PART && shape != PLAIN_STATUS {
            assert_eq!(at, packet.len(), "all items of shape {shape}");
        }
    }
    assert_eq!(cuts, 908);
}

/// The opening byte, the length and the opcode.
#[test]
fn every_header_that_is_cut() {
    let mut comparison = Comparison::new(0);
    for (link, packet) in packet_of_each_shape() {
        let mut why = |length| why(&mut comparison, link, &packet[..length]);
        assert_eq!(why(0), Some((1, Rule::Short, 0, 1)));
        if link == Link::Udp {
            assert_eq!(why(1), Some((1, Rule::Short, 1, 1)));
            continue;
        }
        for length in 1..5 {
            assert_eq!(why(length), Some((1, Rule::Short, 1, 4)), "{length} bytes");
        }
        for length in 5..packet.len() {
            assert_eq!(why(length), Some((3, Rule::Length, 1, 4)), "{length} bytes");
        }
    }
}

/// A byte too many, or three. That of a part is data, and a plain status with it is an extended one.
#[test]
fn every_packet_that_is_too_long() {
    let mut comparison = Comparison::new(0);
    for (shape, (link, packet)) in packet_of_each_shape().into_iter().enumerate() {
        assert_eq!(why(&mut comparison, link, &packet), None, "shape {shape}");
        for more in [&[0][..], &[0xE3, 1, 0]] {
            let longer = [&packet, more].concat();
            let longer = cut(link, &longer, longer.len());
            let expected = match shape {
                SENDING_PART => (8, Rule::Data, 22, 8),
                PLAIN_STATUS => (5, Rule::Choice, 4, 1),
                _ => (7, Rule::Rest, packet.len(), 1),
            };
            assert_eq!(why(&mut comparison, link, &longer), Some(expected), "shape {shape}");
        }
    }
}
