//! Writers of packets and met files, from what the readers answer or what was composed.

use crate::kind::{Kind, Link};
use crate::message::Message;
use crate::met::{KnownMet, PartMet, ServerMet};
use crate::packet::Packet;
use crate::refusal::Refusal;
use crate::write;

/// A packet of the link. Its parts may be in different buffers.
///
/// Refused as [`Refusal::Kind`] if the link lists the opcode with another body, as [`Refusal::Limit`] for a text or list that
/// its count cannot hold, as [`Refusal::Choice`] if the bytes would be another packet (a 96 that says of itself to be
/// extended and is not, or the other way round), and else as the reader would refuse the bytes. Status bytes are
/// [`Refusal::Short`] if they are fewer than the parts need, [`Refusal::Rest`] if they are more.
///
/// ```
/// use ed2k::{Body, Link, Packet, Refusal, write};
///
/// let bytes = write::packet(Link::Server, &Packet::new(0x34, Body::TwoDwords(3, 5)))?;
/// assert_eq!(bytes, [0xE3, 9, 0, 0, 0, 0x34, 3, 0, 0, 0, 5, 0, 0, 0]);
/// let wrong = Packet::new(0x34, Body::Text(b"three users"));
/// assert_eq!(write::packet(Link::Server, &wrong), Err(Refusal::Kind));
/// # Ok::<(), Refusal>(())
/// ```
pub fn packet(link: Link, packet: &Packet<'_>) -> Result<Vec<u8>, Refusal> {
    packet.source()?.write(link.into())
}

/// [`packet`] into a lent output.
///
/// ```
/// use ed2k::{Body, Link, Packet, Refusal, write};
///
/// let mut output = [0; 8];
/// let written = write::packet_into(Link::Udp, &Packet::new(0xA2, Body::Nothing), &mut output)?;
/// assert_eq!(output[..written], [0xE3, 0xA2]);
/// # Ok::<(), Refusal>(())
/// ```
pub fn packet_into(link: Link, packet: &Packet<'_>, output: &mut [u8]) -> Result<usize, Refusal> {
    packet.source()?.write_into(link.into(), output)
}

/// A known.met. Refused as the reader would refuse the bytes: [`Refusal::Limit`], then [`Refusal::Opening`].
///
/// ```
/// use ed2k::{FileEntries, FileEntry, Hash, Hashes, KnownMet, Refusal, write};
///
/// let tags = write::TagList::new().text(&[0x01], b"left last.stl")?.finish()?;
/// let file = FileEntry {
///     date: 1_253_225_404,
///     hash: Hash([7; 16]),
///     part_hashes: Hashes::new(&[], 0)?,
///     tags: ed2k::read_tags(&tags)?,
/// };
/// let entries = write::file_entry(&file)?;
/// let bytes = write::known_met(&KnownMet { opening: 0x0E, entries: FileEntries::new(&entries, 1)? })?;
/// let read = ed2k::read_known_met(&bytes)?.entries.next().unwrap();
/// assert_eq!((read.date, read.hash, read.tags.file_name()), (file.date, file.hash, Some(&b"left last.stl"[..])));
/// # Ok::<(), Refusal>(())
/// ```
pub fn known_met(met: &KnownMet<'_>) -> Result<Vec<u8>, Refusal> {
    met.source().write(Kind::KnownMet)
}

/// [`known_met`] into a lent output.
pub fn known_met_into(met: &KnownMet<'_>, output: &mut [u8]) -> Result<usize, Refusal> {
    met.source().write_into(Kind::KnownMet, output)
}

/// A server.met. Refused as the reader would refuse the bytes: [`Refusal::Limit`], then [`Refusal::Opening`].
///
/// ```
/// use ed2k::{Address, Refusal, ServerEntries, ServerEntry, ServerMet, Tags, write};
///
/// let server = ServerEntry { address: Address { ip: 0x0B0A_0A50, port: 4661 }, tags: Tags::new(&[], 0)? };
/// let entries = [write::server_entry(&server)?, write::server_entry(&server)?].concat();
/// let met = ServerMet { opening: 0x0E, entries: ServerEntries::new(&entries, 2)?, tail: b"tail" };
/// let bytes = write::server_met(&met)?;
/// assert_eq!(ed2k::read_server_met(&bytes)?.tail, b"tail");
/// # Ok::<(), Refusal>(())
/// ```
pub fn server_met(met: &ServerMet<'_>) -> Result<Vec<u8>, Refusal> {
    met.source().write(Kind::ServerMet)
}

/// [`server_met`] into a lent output.
pub fn server_met_into(met: &ServerMet<'_>, output: &mut [u8]) -> Result<usize, Refusal> {
    met.source().write_into(Kind::ServerMet, output)
}

/// A part.met. Its size is the one that its tags give; [`PartMet::size`] is not checked.
///
/// Refused as [`Refusal::Choice`] if it opens with neither E0 nor E1, if one that opens with E0 has not just a list of part
/// hashes, or if the bytes would be another file, as those of two block hashes alone for 972,800 bytes;
/// as [`Refusal::Limit`] for part hashes that the count of an E0 cannot hold; and else as the reader would refuse the bytes.
///
/// ```
/// use ed2k::{BlockHashes, Hash, Hashes, PartMet, Refusal, write};
///
/// let tags = write::TagList::new().dword(&[0x02], 972_800)?.finish()?;
/// let mut met = PartMet {
///     opening: 0xE1,
///     size: 972_800,
///     date: 0,
///     hash: Hash([7; 16]),
///     tags: ed2k::read_tags(&tags)?,
///     part_hashes: Some(Hashes::new(&[8; 16], 1)?),
///     block_hashes: Some(BlockHashes::new(&[9; 16], 2)?),
/// };
/// let bytes = write::part_met(&met)?;
/// assert_eq!(ed2k::read_part_met(&bytes)?.block_hashes.unwrap().len(), 2);
/// met.part_hashes = None;
/// assert_eq!(write::part_met(&met), Err(Refusal::Choice));
/// # Ok::<(), Refusal>(())
/// ```
pub fn part_met(met: &PartMet<'_>) -> Result<Vec<u8>, Refusal> {
    met.source().write(Kind::PartMet)
}

/// [`part_met`] into a lent output.
pub fn part_met_into(met: &PartMet<'_>, output: &mut [u8]) -> Result<usize, Refusal> {
    met.source().write_into(Kind::PartMet, output)
}

/// A message of any kind: what [`read`](crate::read) answers, written by the writer of its kind.
///
/// ```
/// use ed2k::{Kind, write};
///
/// let bytes = [0xE3, 0x96, 0x01, 0x02, 0xAA, 0x5A];
/// assert_eq!(write::message(&ed2k::read(Kind::Udp, &bytes)?)?, bytes);
/// # Ok::<(), ed2k::Refusal>(())
/// ```
pub fn message(message: &Message<'_>) -> Result<Vec<u8>, Refusal> {
    match message {
        Message::Packet(link, one) => packet(*link, one),
        Message::KnownMet(met) => known_met(met),
        Message::ServerMet(met) => server_met(met),
        Message::PartMet(met) => part_met(met),
        Message::Query(query) => write::query(query.encoded(), 0),
        Message::Tags(tags) => {
            let (entries, count) = tags.whole();
            write::tag_list(entries, 0, count as u32)
        }
    }
}
