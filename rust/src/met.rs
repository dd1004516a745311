//! Met files.

use crate::items::{BlockHashes, FileEntries, Hash, Hashes, ServerEntries, Tags};
use crate::kind::Kind;
use crate::raw;
use crate::refusal::Refusal;
use crate::source::Source;
use crate::values::Values;

/// How many bytes a part of a file has; the last one may have fewer.
pub const PART_SIZE: u64 = 9_728_000;

/// How many bytes a block of a file has; the last one may have fewer.
pub const BLOCK_SIZE: u64 = 486_400;

/// A known.met: the files that a client knows.
#[derive(Clone, Debug)]
pub struct KnownMet<'a> {
    /// The opening byte, 0E.
    pub opening: u8,
    /// The files.
    pub entries: FileEntries<'a>,
}

/// A server.met: the servers that a client knows.
#[derive(Clone, Debug)]
pub struct ServerMet<'a> {
    /// The opening byte, 0E.
    pub opening: u8,
    /// The servers.
    pub entries: ServerEntries<'a>,
    /// What stands after the servers: any bytes.
    pub tail: &'a [u8],
}

/// A part.met: a file that is arriving. [`GapRecord::read`](crate::GapRecord::read) has its gaps.
#[derive(Clone, Debug)]
pub struct PartMet<'a> {
    /// The opening byte: E0 or E1.
    pub opening: u8,
    /// How many bytes the whole file has. A writer does not check it: the tags give the size.
    pub size: u32,
    /// Seconds since the beginning of 1970.
    pub date: u32,
    /// The file's hash.
    pub hash: Hash,
    /// What is said of the file, its size and gaps among it.
    pub tags: Tags<'a>,
    /// The hashes of its parts. A file that opens with E0 always has this list, of any length.
    pub part_hashes: Option<Hashes<'a>>,
    /// The hashes of its blocks. Only a file that opens with E1 may have them.
    pub block_hashes: Option<BlockHashes<'a>>,
}

impl KnownMet<'_> {
    /// What the writing call takes.
    pub(crate) fn source(&self) -> Source {
        let mut source = Source::default();
        source.number(self.opening);
        source.list(&self.entries);
        source
    }
}

impl ServerMet<'_> {
    /// What the writing call takes.
    pub(crate) fn source(&self) -> Source {
        let mut source = Source::default();
        source.number(self.opening);
        source.list(&self.entries);
        source.text(self.tail);
        source
    }
}

impl PartMet<'_> {
    /// Which hash lists it has, by the numbers of ED2K_HASHES_.. in ed2k.h. An E0 that has not just the list of part hashes
    /// gets the number that an E1 with its lists has, and is refused for it.
    fn hash_lists(&self) -> u8 {
        match (self.opening, &self.part_hashes, &self.block_hashes) {
            (0xE0, Some(_), None) => 4,
            (_, None, None) => 0,
            (_, Some(_), None) => 1,
            (_, None, Some(_)) => 2,
            (_, Some(_), Some(_)) => 3,
        }
    }

    /// What the writing call takes.
    pub(crate) fn source(&self) -> Source {
        let mut source = Source::default();
        source.number(self.opening);
        source.numbers([self.size, self.date]);
        source.hash(self.hash);
        source.list(&self.tags);
        source.number(self.hash_lists());
        source.list_if_any(self.part_hashes.as_ref());
        source.list_if_any(self.block_hashes.as_ref());
        source
    }
}

/// Reads a known.met.
///
/// ```
/// let met = ed2k::read_known_met(&[0x0E, 0, 0, 0, 0])?;
/// assert_eq!(met.entries.len(), 0);
/// # Ok::<(), ed2k::Refusal>(())
/// ```
pub fn read_known_met(bytes: &[u8]) -> Result<KnownMet<'_>, Refusal> {
    let mut values = Values::read(Kind::KnownMet, bytes)?;
    Ok(KnownMet { opening: values.byte(), entries: values.list() })
}

/// Reads a server.met.
///
/// ```
/// let met = ed2k::read_server_met(b"\x0E\0\0\0\0made by a client")?;
/// assert_eq!(met.entries.len(), 0);
/// assert_eq!(met.tail, b"made by a client");
/// # Ok::<(), ed2k::Refusal>(())
/// ```
pub fn read_server_met(bytes: &[u8]) -> Result<ServerMet<'_>, Refusal> {
    let mut values = Values::read(Kind::ServerMet, bytes)?;
    Ok(ServerMet { opening: values.byte(), entries: values.list(), tail: values.text() })
}

/// Reads a part.met.
///
/// ```
/// use ed2k::write::TagList;
///
/// let tags = TagList::new().dword(&[0x02], 972_800)?.finish()?;
/// let file = [&[0xE1, 0x02, 0, 0, 0, 0][..], &[7; 16], &tags, &[0x00]].concat();
/// let met = ed2k::read_part_met(&file)?;
/// assert_eq!((met.opening, met.size), (0xE1, 972_800));
/// assert!(met.part_hashes.is_none());
/// # Ok::<(), ed2k::Refusal>(())
/// ```
pub fn read_part_met(bytes: &[u8]) -> Result<PartMet<'_>, Refusal> {
    let mut values = Values::read(Kind::PartMet, bytes)?;
    let opening = values.byte();
    let size = values.dword();
    let date = values.dword();
    let hash = values.hash();
    let tags = values.list();
    let lists = values.byte();
    let parts: Hashes<'_> = values.list();
    let blocks: BlockHashes<'_> = values.list();
    // The numbers are those of ED2K_HASHES_.. in ed2k.h: 1 parts, 2 blocks, 3 both, 4 the counted list of an E0.
    let part_hashes = matches!(lists, 1 | 3 | 4).then_some(parts);
    let block_hashes = matches!(lists, 2 | 3).then_some(blocks);
    Ok(PartMet { opening, size, date, hash, tags, part_hashes, block_hashes })
}

/// How many parts of [`PART_SIZE`] bytes a file of this size has begun.
///
/// ```
/// assert_eq!(ed2k::part_count(9_728_000), 1);
/// assert_eq!(ed2k::part_count(9_728_001), 2);
/// ```
pub fn part_count(size: u32) -> u32 {
    raw::part_count(size)
}

/// How many blocks of [`BLOCK_SIZE`] bytes a file of this size has begun.
///
/// ```
/// assert_eq!(ed2k::block_count(9_728_000), 20);
/// assert_eq!(ed2k::block_count(9_728_001), 21);
/// ```
pub fn block_count(size: u32) -> u32 {
    raw::block_count(size)
}
