//! Ranges that are to be marked in a gap record.

use super::Random;

pub type Range = (u64, u64);

/// An edge of the record, one beside it, or any number.
fn edge(random: &mut Random, record: &[u64]) -> u64 {
    let near = record.get(random.below(130)).copied().unwrap_or_default();
    match random.below(8) {
        0 => near.wrapping_sub(1),
        1 => near.wrapping_add(1),
        2 => random.next() % (record.first().map_or(0, |size| *size).saturating_add(2)).max(1),
        3 => random.pick(&[0, 1, u64::MAX]),
        _ => near,
    }
}

/// A range between two edges, mostly in order, or one inside a gap.
pub fn some_range(random: &mut Random, record: &[u64]) -> Range {
    let (one, other) = (edge(random, record), edge(random, record));
    let gap = 2 + 2 * random.below(64);
    match (random.below(10), record.get(gap), record.get(gap + 1)) {
        (0, ..) => (one, other),
        (1..=3, Some(start), Some(end)) => (start.saturating_add(1), end.saturating_sub(1)),
        _ => (one.min(other), one.max(other)),
    }
}

/// Two of them; one is often the other one again, inside of it, across one of its ends or beside it.
pub fn two_ranges(random: &mut Random, record: &[u64]) -> [Range; 2] {
    let one = some_range(random, record);
    let (start, end) = one;
    let inside = start.saturating_add(random.next() % end.saturating_sub(start).max(1));
    let bytes = random.within(1, 4) as u64;
    let other = match random.below(16) {
        0 => one,
        1 => (start, inside),
        2 => (inside, end),
        3 => (start.saturating_add(bytes), end.saturating_sub(bytes)),
        4 => (inside, end.saturating_add(bytes)),
        5 => (start.saturating_sub(bytes), inside),
        6 => (end, end.saturating_add(bytes)),
        7 => (start.saturating_sub(bytes), start),
        _ => some_range(random, record),
    };
    if random.once_in(2) { [one, other] } else { [other, one] }
}
