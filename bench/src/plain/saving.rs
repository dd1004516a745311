//! The strict save, and the one that merges: the stored file and the one opened are compared once,
//! and each file that is read is read once.

use super::merging::{Read, merge_read};
use super::part::read;
use super::{Answer, Refusal};

/// The saved file, if it is one and the stored file is the one opened.
pub fn save_strict(stored: &[u8], opened: &[u8], saved: &[u8], output: &mut [u8]) -> Answer<usize> {
    read(saved, |_, _| ())?;
    if stored != opened {
        return Err(Refusal::Conflict);
    }
    put(saved, output)
}

/// The saved file over the one opened. Over another one, the merge of it and the saved file, which
/// is read first.
pub fn save(stored: &[u8], opened: &[u8], saved: &[u8], output: &mut [u8]) -> Answer<usize> {
    if stored == opened {
        read(saved, |_, _| ())?;
        return put(saved, output);
    }
    let saved = Read::new(saved)?;
    let opened = Read::new(opened)?;
    let stored = Read::new(stored)?;
    merge_read(&opened, &stored, &saved, output)
}

fn put(saved: &[u8], output: &mut [u8]) -> Answer<usize> {
    output.get_mut(..saved.len()).ok_or(Refusal::Room)?.copy_from_slice(saved);
    Ok(saved.len())
}
