//! From a call that writes into a lent output to one that gives the bytes.

use crate::refusal::Refusal;

/// The bytes that a call writes into an output of so many bytes, which must be enough for every input that it accepts.
pub(crate) fn owned(
    room: usize,
    call: impl FnOnce(&mut [u8]) -> Result<usize, Refusal>,
) -> Result<Vec<u8>, Refusal> {
    let mut output = vec![0; room];
    let written = call(&mut output)?;
    output.truncate(written);
    Ok(output)
}
