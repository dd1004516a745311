//! Saving a part.met.

use crate::merging;
use crate::owned::owned;
use crate::raw;
use crate::refusal::Refusal;

/// Saves a part.met: what is to be stored from now on. That is the new file, if the stored file is still the one that was opened;
/// else it is the merge of both ([`merge`](crate::merge)), in which the stored file is the first save and the new one the second.
///
/// Refused with the reader's number for the new bytes. Then, if `stored` and `opened` differ anywhere, as the merge is: with the own
/// number of `opened`, of `stored`; as [`Refusal::Strangers`]; as [`Refusal::Conflict`] if something was changed in two different
/// ways; as [`Refusal::Limit`]. So an empty `stored` is [`Refusal::Short`] where something else was opened. Two that are equal are not
/// read: two empty ones are a first save.
///
/// Two windows that opened one part.met, and of which each wants to save another one, may save in either order: the one that saves
/// second gets the same bytes to store, or the same refusal.
///
/// Nothing is stored by this: [`crate::disk::save`] does that with a file on the disk.
///
/// ```
/// use ed2k::{Gap, GapRecord, put_gaps, save};
/// # let file = [&[0xE0, 0, 0, 0, 0][..], &[7; 16], &[0, 0], &[1, 0, 0, 0, 3, 1, 0, 2, 100, 0, 0, 0]].concat();
/// # let opened = put_gaps(&file, &GapRecord::all_missing(100)?)?;
///
/// // Two windows opened one file, and each marks what arrived in it.
/// let window = |start, end| {
///     let mut record = GapRecord::read(&opened)?;
///     record.mark(start, end)?;
///     put_gaps(&opened, &record)
/// };
/// let (first, second) = (window(0, 30)?, window(60, 100)?);
///
/// // The first one saves, and the second save is merged with it.
/// let stored = save(&opened, &opened, &first)?;
/// assert_eq!(stored, first);
/// let stored = save(&stored, &opened, &second)?;
/// let gaps: Vec<Gap> = GapRecord::read(&stored)?.gaps().collect();
/// assert_eq!(gaps, [Gap { start: 30, end: 60 }]);
///
/// // Had the other window been the first to save, the same would be stored now.
/// assert_eq!(save(&second, &opened, &first)?, stored);
/// # Ok::<(), ed2k::Refusal>(())
/// ```
pub fn save(stored: &[u8], opened: &[u8], new: &[u8]) -> Result<Vec<u8>, Refusal> {
    // A new file that is accepted is within the ceiling, so that it fits where the merge would.
    owned(merging::room(stored, new), |output| save_into(stored, opened, new, output))
}

/// [`save`] into a lent output; how many bytes were written at its front. [`Refusal::Room`] comes last.
pub fn save_into(stored: &[u8], opened: &[u8], new: &[u8], output: &mut [u8]) -> Result<usize, Refusal> {
    raw::save(stored, opened, new, output)
}

/// Saves a part.met and never merges: the new file is to be stored from now on, if the stored file is still the one that was opened.
/// The archive job, which must never store a file that no window wrote, and a model's first save ask for this one.
///
/// Refused with the reader's number for the new bytes; then as [`Refusal::Conflict`] if `stored` and `opened` differ
/// anywhere. Two empty ones are equal: a first save.
///
/// ```
/// # let new = [&[0xE0, 0, 0, 0, 0][..], &[7; 16], &[0, 0], &[1, 0, 0, 0, 3, 1, 0, 2, 100, 0, 0, 0]].concat();
/// assert_eq!(ed2k::save_strict(b"", b"", &new)?, new);
/// assert_eq!(ed2k::save_strict(b"another window's", b"", &new), Err(ed2k::Refusal::Conflict));
/// # Ok::<(), ed2k::Refusal>(())
/// ```
pub fn save_strict(stored: &[u8], opened: &[u8], new: &[u8]) -> Result<Vec<u8>, Refusal> {
    owned(new.len(), |output| save_strict_into(stored, opened, new, output))
}

/// [`save_strict`] into a lent output; how many bytes were written at its front. [`Refusal::Room`] comes last.
pub fn save_strict_into(
    stored: &[u8],
    opened: &[u8],
    new: &[u8],
    output: &mut [u8],
) -> Result<usize, Refusal> {
    raw::save_strict(stored, opened, new, output)
}
