//! Writers of single entries, of which lists are composed. An entry by itself has no byte ceiling.

use crate::items::{Address, FileEntry, Record, ServerEntry};
use crate::owned::owned;
use crate::raw;
use crate::refusal::Refusal;
use crate::source::Gathered;

/// An address.
///
/// ```
/// use ed2k::{Address, write};
///
/// let server = Address { ip: u32::from_le_bytes([80, 10, 10, 11]), port: 4661 };
/// assert_eq!(write::address(server), [80, 10, 10, 11, 0x35, 0x12]);
/// ```
pub fn address(address: Address) -> [u8; 6] {
    let mut output = [0; 6];
    raw::write_address(address.ip, address.port, &mut output).expect("six bytes are room for an address");
    output
}

/// [`address`] into a lent output.
pub fn address_into(address: Address, output: &mut [u8]) -> Result<usize, Refusal> {
    raw::write_address(address.ip, address.port, output)
}

/// A record: a file or a client.
///
/// ```
/// use ed2k::{Hash, Record, Records, Tags, write};
///
/// let file = Record { hash: Hash([7; 16]), client: 0, port: 4662, tags: Tags::new(&[], 0)? };
/// let bytes = write::record(&file)?;
/// assert_eq!(Records::new(&bytes, 1)?.next().unwrap().port, 4662);
/// # Ok::<(), ed2k::Refusal>(())
/// ```
pub fn record(record: &Record<'_>) -> Result<Vec<u8>, Refusal> {
    owned(26 + record.tags.byte_count(), |output| record_into(record, output))
}

/// [`record`] into a lent output.
pub fn record_into(record: &Record<'_>, output: &mut [u8]) -> Result<usize, Refusal> {
    let mut source = Gathered::default();
    let hash = source.run(&record.hash.0);
    let tags = source.list(&record.tags);
    raw::write_record(source.bytes(), hash, record.client, record.port, tags, output)
}

/// An entry of a known.met. [`Refusal::Limit`] for more than 65,535 part hashes.
///
/// ```
/// use ed2k::{FileEntries, FileEntry, Hash, Hashes, Tags, write};
///
/// let part_hashes = Hashes::new(&[8; 32], 2)?;
/// let file = FileEntry { date: 0, hash: Hash([7; 16]), part_hashes, tags: Tags::new(&[], 0)? };
/// let bytes = write::file_entry(&file)?;
/// assert_eq!(FileEntries::new(&bytes, 1)?.next().unwrap().part_hashes.len(), 2);
/// # Ok::<(), ed2k::Refusal>(())
/// ```
pub fn file_entry(entry: &FileEntry<'_>) -> Result<Vec<u8>, Refusal> {
    let room = 26 + entry.part_hashes.byte_count() + entry.tags.byte_count();
    owned(room, |output| file_entry_into(entry, output))
}

/// [`file_entry`] into a lent output.
pub fn file_entry_into(entry: &FileEntry<'_>, output: &mut [u8]) -> Result<usize, Refusal> {
    let mut source = Gathered::default();
    let hash = source.run(&entry.hash.0);
    let hashes = source.list(&entry.part_hashes);
    let tags = source.list(&entry.tags);
    raw::write_file_entry(source.bytes(), entry.date, hash, hashes, tags, output)
}

/// An entry of a server.met.
///
/// ```
/// use ed2k::{Address, ServerEntries, ServerEntry, Tags, write};
///
/// let address = Address { ip: 0x0B0A_0A50, port: 4661 };
/// let bytes = write::server_entry(&ServerEntry { address, tags: Tags::new(&[], 0)? })?;
/// assert_eq!(ServerEntries::new(&bytes, 1)?.next().unwrap().address, address);
/// # Ok::<(), ed2k::Refusal>(())
/// ```
pub fn server_entry(entry: &ServerEntry<'_>) -> Result<Vec<u8>, Refusal> {
    owned(10 + entry.tags.byte_count(), |output| server_entry_into(entry, output))
}

/// [`server_entry`] into a lent output.
pub fn server_entry_into(entry: &ServerEntry<'_>, output: &mut [u8]) -> Result<usize, Refusal> {
    let mut source = Gathered::default();
    let tags = source.list(&entry.tags);
    raw::write_server_entry(source.bytes(), entry.address.ip, entry.address.port, tags, output)
}
