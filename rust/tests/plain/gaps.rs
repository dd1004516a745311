//! Gap records: 130 numbers, the size, how many gaps, and 64 pairs of start and end.

use super::{Answer, GAP_CEILING, Refusal};

pub const GAP_NUMBERS: usize = 2 + 2 * GAP_CEILING;
const SIZE_CEILING: u64 = u32::MAX as u64;

pub type GapNumbers = [u64; GAP_NUMBERS];
pub type Gap = [u64; 2];

/// The size and the gaps of a lawful record.
pub fn lawful(record: &[u64]) -> Answer<(u64, &[Gap])> {
    let [size, count, slots @ ..] = record.first_chunk::<GAP_NUMBERS>().ok_or(Refusal::Range)?;
    let count = usize::try_from(*count).map_err(|_| Refusal::Range)?;
    let gaps = slots.as_chunks().0.get(..count).ok_or(Refusal::Range)?;
    if *size <= SIZE_CEILING && in_order(*size, gaps) { Ok((*size, gaps)) } else { Err(Refusal::Range) }
}

/// Each gap has bytes within the size, and bytes that are there stand between two gaps.
fn in_order(size: u64, gaps: &[Gap]) -> bool {
    gaps.iter().all(|[start, end]| start < end && *end <= size)
        && gaps.windows(2).all(|pair| pair[0][1] < pair[1][0])
}

fn total(gaps: &[Gap]) -> u64 {
    gaps.iter().map(|[start, end]| end - start).sum()
}

/// The record with every byte missing.
pub fn all_missing(size: u64, record: &mut [u64]) -> Answer<()> {
    if size > SIZE_CEILING {
        return Err(Refusal::Range);
    }
    let record = record.first_chunk_mut::<GAP_NUMBERS>().ok_or(Refusal::Room)?;
    *record = [0; GAP_NUMBERS];
    record[0] = size;
    if size > 0 {
        record[1] = 1;
        record[3] = size;
    }
    Ok(())
}

pub fn count_missing(record: &[u64]) -> Answer<u64> {
    let (_, gaps) = lawful(record)?;
    Ok(total(gaps))
}

/// Marks the bytes from start up to end as arrived and counts those left.
pub fn mark(record: &mut [u64], start: u64, end: u64) -> Answer<u64> {
    let (size, gaps) = lawful(record)?;
    if start >= end || end > size {
        return Err(Refusal::Range);
    }
    let count = gaps.len();
    let first = gaps.partition_point(|gap| gap[1] <= start);
    let next = gaps.partition_point(|gap| gap[0] < end).max(first);
    let (left, right) = remains(&gaps[first..next], start, end);
    let kept = first + usize::from(left.is_some()) + usize::from(right.is_some());
    let outcome = kept + count - next;
    if outcome > GAP_CEILING {
        return Err(Refusal::Limit);
    }
    let slots: &mut [Gap] = record[2..GAP_NUMBERS].as_chunks_mut().0;
    slots.copy_within(next..count, kept);
    for (slot, gap) in slots[first..].iter_mut().zip(left.into_iter().chain(right)) {
        *slot = gap;
    }
    slots[outcome..].fill([0, 0]);
    let missing = total(&slots[..outcome]);
    record[1] = outcome as u64;
    Ok(missing)
}

/// What is left of touched gaps before the range and after it.
fn remains(touched: &[Gap], start: u64, end: u64) -> (Option<Gap>, Option<Gap>) {
    let left = touched.first().filter(|gap| gap[0] < start);
    let right = touched.last().filter(|gap| end < gap[1]);
    (left.map(|gap| [gap[0], start]), right.map(|gap| [end, gap[1]]))
}
