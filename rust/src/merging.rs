//! Merging two saves of one part.met.

use crate::gaps::GAP_TAGS_BYTES;
use crate::kind::MET_CEILING;
use crate::owned::owned;
use crate::raw;
use crate::refusal::Refusal;

/// Merges two saves of one model: `opened` is the part.met that both windows opened, `first` and `second` are what they want to
/// save.
///
/// A byte that the opened file misses is missing in the outcome exactly when both saves miss it; a byte that it has, exactly when
/// either save misses it. The date is the later one of the two saves. The opening form with its hash lists, as one value, and the
/// tags other than gap tags, as one list, are those of the save that changed them; equal changes are one change. The gaps come
/// after the other tags, numbered from 0. If each of the three files is accepted by itself, the two saves may change places: the
/// outcome has the same bytes, or the refusal is the same.
///
/// Refused with the own number of `opened`, of `first`, of `second`; then as [`Refusal::Strangers`] if file hash or size differ in
/// any two; as [`Refusal::Conflict`] if the form with its hash lists, or the other tags, were changed in two different ways; as
/// [`Refusal::Limit`] above [`GAP_CEILING`](crate::GAP_CEILING) gaps or [`MET_CEILING`] bytes.
///
/// ```
/// use ed2k::{Gap, GapRecord, Refusal, merge, put_gaps};
/// # let file = |hash| [&[0xE0, 0, 0, 0, 0][..], &[hash; 16], &[0, 0], &[1, 0, 0, 0, 3, 1, 0, 2, 100, 0, 0, 0]].concat();
/// # let opened = put_gaps(&file(7), &GapRecord::all_missing(100)?)?;
/// # let another_model = file(8);
///
/// // Each window marks what arrived in it, and wants to save that.
/// let save = |start, end| {
///     let mut record = GapRecord::read(&opened)?;
///     record.mark(start, end)?;
///     put_gaps(&opened, &record)
/// };
/// let merged = merge(&opened, &save(0, 30)?, &save(60, 100)?)?;
/// assert_eq!(merge(&opened, &save(60, 100)?, &save(0, 30)?)?, merged);
/// let gaps: Vec<Gap> = GapRecord::read(&merged)?.gaps().collect();
/// assert_eq!(gaps, [Gap { start: 30, end: 60 }]);
/// assert_eq!(merge(&opened, &merged, &another_model), Err(Refusal::Strangers));
/// # Ok::<(), Refusal>(())
/// ```
pub fn merge(opened: &[u8], first: &[u8], second: &[u8]) -> Result<Vec<u8>, Refusal> {
    owned(room(first, second), |output| merge_into(opened, first, second, output))
}

/// How many bytes the merge of two saves has at most. The form may be of one save and the tags of the other.
pub(crate) fn room(first: &[u8], second: &[u8]) -> usize {
    MET_CEILING.min(first.len() + second.len() + GAP_TAGS_BYTES)
}

/// [`merge`] into a lent output; how many bytes were written at its front. [`Refusal::Room`] comes last.
pub fn merge_into(opened: &[u8], first: &[u8], second: &[u8], output: &mut [u8]) -> Result<usize, Refusal> {
    raw::merge(opened, first, second, output)
}
