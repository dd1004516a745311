//! Saving a part.met: the strict save of 01, and the one that meets a changed file with a merge (02, No. 8).

use super::merging::merge;
use super::met::part;
use super::writers::write;
use super::{Answer, MET_CEILING, Refusal, within};

/// The saved file, if it is one and the stored file is the one opened.
pub fn save_strict(stored: &[u8], opened: &[u8], saved: &[u8], output: &mut [u8]) -> Answer<usize> {
    within(saved, MET_CEILING, part)?;
    if stored != opened {
        return Err(Refusal::Conflict);
    }
    write(&[saved], output)
}

/// What the strict save answers, but where that is a conflict, what the merge does: the stored file is the first save of it.
pub fn save(stored: &[u8], opened: &[u8], saved: &[u8], output: &mut [u8]) -> Answer<usize> {
    match save_strict(stored, opened, saved, output) {
        Err(Refusal::Conflict) => merge(opened, stored, saved, output),
        answer => answer,
    }
}
