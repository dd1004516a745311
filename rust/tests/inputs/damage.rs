//! Damage to the bytes of a message.

use super::Random;

const BYTES: &[u8] = &[0, 1, 2, 3, 4, 5, 9, 10, 0x10, 0x5A, 0xAA, 0xC5, 0xD4, 0xE0, 0xE1, 0xE3, 0xFF];

/// The bytes with one to three injuries. A link's length is sometimes put right again.
pub fn damaged(random: &mut Random, kind: u8, bytes: &[u8]) -> Vec<u8> {
    let mut bytes = bytes.to_vec();
    for _ in 0..random.pick(&[1, 1, 1, 2, 3]) {
        injure(random, &mut bytes);
    }
    if kind < 2 && bytes.len() > 5 && !random.once_in(4) {
        let length = bytes.len() as u32 - 5;
        bytes[1..5].copy_from_slice(&length.to_le_bytes());
    }
    bytes
}

fn injure(random: &mut Random, bytes: &mut Vec<u8>) {
    if bytes.is_empty() {
        return bytes.push(random.byte());
    }
    let at = random.below(bytes.len());
    match random.below(9) {
        0 => bytes[at] ^= 1 << random.below(8),
        1 => bytes[at] = random.pick(BYTES),
        2 => bytes.truncate(at),
        3 => bytes.insert(at, random.pick(BYTES)),
        4 => drop(bytes.remove(at)),
        5 => bytes.extend(BYTES.iter().take(1 + at % 3)),
        6 => swap_runs(random, bytes),
        7 => alter_count(random, at, bytes),
        _ => repeat_run(random, at, bytes),
    }
}

/// Two runs of four bytes, as counts are, are exchanged.
fn swap_runs(random: &mut Random, bytes: &mut [u8]) {
    if bytes.len() < 8 {
        return bytes.reverse();
    }
    let one = random.below(bytes.len() - 7);
    let other = random.within(one + 4, bytes.len() - 4);
    let (front, back) = bytes.split_at_mut(other);
    front[one..one + 4].swap_with_slice(&mut back[..4]);
}

fn alter_count(random: &mut Random, at: usize, bytes: &mut [u8]) {
    let count = random.pick(&[0, 1, 2, 255, 256, 65_535, 65_536, u32::MAX]).to_le_bytes();
    let width = random.pick(&[1, 2, 4]).min(bytes.len() - at);
    bytes[at..at + width].copy_from_slice(&count[..width]);
}

fn repeat_run(random: &mut Random, at: usize, bytes: &mut Vec<u8>) {
    let end = random.within(at, bytes.len());
    let run = bytes[at..end].to_vec();
    bytes.splice(at..at, run);
}
