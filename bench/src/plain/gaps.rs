//! Gap records: 130 numbers, the size, how many gaps, and 64 pairs of start and end.

use super::{Answer, GAP_CEILING, GAP_NUMBERS, Refusal};

const SIZE_CEILING: u64 = u32::MAX as u64;

pub type Gap = [u64; 2];

/// A lawful record: its size, its gaps, and how many bytes they miss.
pub struct Lawful<'a> {
    pub size: u64,
    pub gaps: &'a [Gap],
    pub missing: u64,
}

/// Each gap has bytes within the size, and bytes that are there stand between two gaps.
#[inline]
pub fn lawful(record: &[u64]) -> Answer<Lawful<'_>> {
    let [size, count, slots @ ..] = record.first_chunk::<GAP_NUMBERS>().ok_or(Refusal::Range)?;
    let gaps: &[Gap] = slots.as_chunks().0.get(..*count as usize).ok_or(Refusal::Range)?;
    if *size > SIZE_CEILING {
        return Err(Refusal::Range);
    }
    let (mut low, mut missing) = (0, 0);
    for &[start, end] in gaps {
        if start < low || end <= start || end > *size {
            return Err(Refusal::Range);
        }
        low = end + 1;
        missing += end - start;
    }
    Ok(Lawful { size: *size, gaps, missing })
}

/// Marks the bytes from start up to end as arrived and counts those left.
pub fn mark(record: &mut [u64], start: u64, end: u64) -> Answer<u64> {
    let Lawful { size, gaps, missing } = lawful(record)?;
    if start >= end || end > size {
        return Err(Refusal::Range);
    }
    let count = gaps.len();
    let first = gaps.partition_point(|gap| gap[1] <= start);
    let touched = &gaps[first..];
    let touched = &touched[..touched.partition_point(|gap| gap[0] < end)];
    let arrived: u64 = touched.iter().map(|gap| gap[1].min(end) - gap[0].max(start)).sum();
    let before = touched.first().filter(|gap| gap[0] < start).map(|gap| [gap[0], start]);
    let after = touched.last().filter(|gap| end < gap[1]).map(|gap| [end, gap[1]]);
    let kept = first + usize::from(before.is_some()) + usize::from(after.is_some());
    let next = first + touched.len();
    let outcome = kept + count - next;
    if outcome > GAP_CEILING {
        return Err(Refusal::Limit);
    }
    let slots: &mut [Gap] = record[2..GAP_NUMBERS].as_chunks_mut().0;
    slots.copy_within(next..count, kept);
    for (slot, gap) in slots[first..].iter_mut().zip(before.into_iter().chain(after)) {
        *slot = gap;
    }
    slots[outcome..].fill([0, 0]);
    record[1] = outcome as u64;
    Ok(missing - arrived)
}
