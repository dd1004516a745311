//! Gap records: which bytes of a file are missing.

use std::fmt;

use crate::kind::MET_CEILING;
use crate::owned::owned;
use crate::raw::{self, GapNumbers};
use crate::refusal::Refusal;

/// How many gaps a record has at most.
pub const GAP_CEILING: usize = 64;

/// How many bytes the tags of all gaps have at most, two tags for each gap: type, WORD, 0A or 09 with at most two digits, DWORD.
pub(crate) const GAP_TAGS_BYTES: usize = GAP_CEILING * 2 * 10;

/// A run of missing bytes, from `start` up to `end`, which is the first offset after it.
#[derive(Clone, Copy, Debug, PartialEq, Eq, Hash)]
pub struct Gap {
    /// Where it begins.
    pub start: u64,
    /// The first offset after it.
    pub end: u64,
}

impl Gap {
    /// How many bytes are missing in it.
    pub fn byte_count(self) -> u64 {
        self.end - self.start
    }
}

/// Which bytes of a file are missing: its size and at most [`GAP_CEILING`] gaps, in order, none touching the next.
/// Every record of this type keeps those rules.
///
/// ```
/// use ed2k::{Gap, GapRecord, Refusal};
///
/// let mut record = GapRecord::all_missing(100)?;
/// assert_eq!(record.mark(40, 60)?, 80);
/// let gaps: Vec<Gap> = record.gaps().collect();
/// assert_eq!(gaps, [Gap { start: 0, end: 40 }, Gap { start: 60, end: 100 }]);
/// assert_eq!(record.mark(60, 60), Err(Refusal::Range));
/// # Ok::<(), Refusal>(())
/// ```
#[derive(Clone, PartialEq, Eq)]
pub struct GapRecord {
    numbers: GapNumbers,
}

impl GapRecord {
    /// The record of a part.met, or the file's refusal.
    pub fn read(part_met: &[u8]) -> Result<GapRecord, Refusal> {
        raw::read_gaps(part_met).map(|numbers| GapRecord { numbers })
    }

    /// The record of a file of which every byte is missing. [`Refusal::Range`] for a size above 4,294,967,295.
    pub fn all_missing(size: u64) -> Result<GapRecord, Refusal> {
        raw::all_missing(size).map(|numbers| GapRecord { numbers })
    }

    /// The record with this size and these gaps. [`Refusal::Range`] if they break the rules.
    pub fn from_gaps(size: u64, gaps: &[Gap]) -> Result<GapRecord, Refusal> {
        if gaps.len() > GAP_CEILING {
            return Err(Refusal::Range);
        }
        let mut numbers = [0; raw::GAP_NUMBERS];
        numbers[0] = size;
        numbers[1] = gaps.len() as u64;
        for (pair, gap) in numbers[2..].chunks_exact_mut(2).zip(gaps) {
            pair.copy_from_slice(&[gap.start, gap.end]);
        }
        raw::count_missing(&numbers).map(|_| GapRecord { numbers })
    }

    /// How many bytes the file has.
    pub fn size(&self) -> u64 {
        self.numbers[0]
    }

    /// The gaps, in order.
    pub fn gaps(&self) -> impl ExactSizeIterator<Item = Gap> + '_ {
        let count = self.numbers[1] as usize;
        self.numbers[2..2 + 2 * count].chunks_exact(2).map(|pair| Gap { start: pair[0], end: pair[1] })
    }

    /// How many bytes are missing.
    pub fn missing(&self) -> u64 {
        raw::count_missing(&self.numbers).expect("every record made keeps the rules")
    }

    /// Marks the bytes from `start` up to `end` as arrived, and says how many are still missing.
    ///
    /// [`Refusal::Range`] unless start < end ≤ size; [`Refusal::Limit`] if more than [`GAP_CEILING`] gaps would be left.
    /// A refused record stays as it is.
    ///
    /// Two ranges may be marked in either order: if none of the calls is refused, the record and the number are the same at the
    /// end.
    pub fn mark(&mut self, start: u64, end: u64) -> Result<u64, Refusal> {
        raw::mark(&mut self.numbers, start, end)
    }
}

impl fmt::Debug for GapRecord {
    fn fmt(&self, f: &mut fmt::Formatter<'_>) -> fmt::Result {
        write!(f, "GapRecord {{ size: {}, gaps: ", self.size())?;
        f.debug_list().entries(self.gaps()).finish()?;
        f.write_str(" }")
    }
}

/// The part.met with the gaps of the record instead of its own: all but the gap tags kept, in order, then the gaps,
/// numbered from 0.
///
/// Refused with the file's own number; [`Refusal::Range`] if the record has another size; [`Refusal::Limit`] above the
/// byte ceiling.
///
/// ```
/// use ed2k::{GapRecord, put_gaps};
/// # let file = [&[0xE0, 0, 0, 0, 0][..], &[7; 16], &[0, 0], &[1, 0, 0, 0, 3, 1, 0, 2, 100, 0, 0, 0]].concat();
///
/// let mut record = GapRecord::all_missing(100)?;
/// record.mark(0, 30)?;
/// let changed = put_gaps(&file, &record)?;
/// assert_eq!(GapRecord::read(&changed)?, record);
/// # Ok::<(), ed2k::Refusal>(())
/// ```
pub fn put_gaps(part_met: &[u8], record: &GapRecord) -> Result<Vec<u8>, Refusal> {
    let room = MET_CEILING.min(part_met.len() + GAP_TAGS_BYTES);
    owned(room, |output| put_gaps_into(part_met, record, output))
}

/// [`put_gaps`] into a lent output; how many bytes were written at its front. [`Refusal::Room`] comes last.
pub fn put_gaps_into(part_met: &[u8], record: &GapRecord, output: &mut [u8]) -> Result<usize, Refusal> {
    raw::put_gaps(part_met, &record.numbers, output)
}
