//! Inputs of any kind, by the numbers that `ed2k.h` gives the kinds.

use super::Random;
use super::damage::damaged;
use super::grown::grown;
use super::messages::{packet, query, tag_list};
use super::met::{known_met, part_met, server_met};

/// A message of the kind, mostly valid.
pub fn message(random: &mut Random, kind: u8) -> Vec<u8> {
    match kind {
        0..=2 => packet(random, kind),
        3 => known_met(random),
        4 => server_met(random),
        5 => part_met(random),
        6 => lone_query(random),
        _ => lone_tags(random),
    }
}

pub fn lone_query(random: &mut Random) -> Vec<u8> {
    let depth = random.pick(&[1, 2, 3, 5, 23, 24, 24, 25]);
    let mut bytes = Vec::new();
    query(random, depth, &mut bytes);
    bytes
}

pub fn lone_tags(random: &mut Random) -> Vec<u8> {
    let mut tags = Vec::new();
    tag_list(random, &mut tags);
    tags
}

/// A message, a damaged one, or bytes without a plan.
pub fn input(random: &mut Random, kind: u8) -> Vec<u8> {
    let bytes = message(random, kind);
    match random.below(10) {
        0..=3 => bytes,
        4..=8 => damaged(random, kind, &bytes),
        _ => {
            let length = random.below(40);
            random.bytes(length)
        }
    }
}

/// A message grown to about this length and then, perhaps, damaged.
pub fn long_input(random: &mut Random, kind: u8, length: usize) -> Vec<u8> {
    let bytes = grown(random, kind, length);
    match random.below(3) {
        0 => damaged(random, kind, &bytes),
        _ => bytes,
    }
}

/// A length close to the kind's ceiling.
pub fn long_length(random: &mut Random, kind: u8) -> usize {
    let ceiling = if matches!(kind, 3..=5) { 1_048_576 } else { 65_536 };
    match random.below(4) {
        0 => random.within(1_000, ceiling),
        1 => ceiling,
        2 => ceiling + 1,
        _ => ceiling - random.below(20),
    }
}
