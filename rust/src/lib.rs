//! Packets, queries and met files of the eDonkey protocol: read, written, marked, saved and merged by proved code.
//!
//! The work is done by an archive of proved code; this crate gives it types and names. Bytes are lent, and what is read
//! are values and parts of those bytes; nothing is copied. Every call either does all that it says, or refuses with a
//! [`Refusal`] and changes nothing. Any bytes may be lent; no check is needed before.
//!
//! - [`read_packet`], [`read_known_met`], [`read_server_met`], [`read_part_met`], [`read_query`], [`read_tags`], or [`read`] for a
//!   [`Kind`] that is known only when the program runs;
//! - [`why`]: the rule that a refused packet breaks, and where;
//! - [`GapRecord`]: what is missing of a file, and marking what arrived; [`put_gaps`];
//! - [`save`]: the new file, merged with what was saved since it was opened; [`save_strict`]: the new file, unless something was;
//!   [`disk::save`]: either with a file on the disk, from the lock to the renaming;
//! - [`merge`]: one file of two saves and the file that both windows opened;
//! - [`truth`]: whether a query holds on a tag list;
//! - [`mod@write`]: writers of packets, met files, queries and tag lists.
//!
//! ```
//! use ed2k::{Kind, Message, Refusal};
//!
//! let packet = [0xE3, 0x96, 0x01, 0x02, 0xAA, 0x5A];
//! assert!(matches!(ed2k::read(Kind::Udp, &packet)?, Message::Packet(..)));
//! assert_eq!(ed2k::read(Kind::ServerLink, &packet).unwrap_err(), Refusal::Length);
//! # Ok::<(), Refusal>(())
//! ```

#![deny(missing_docs, unsafe_code)]

pub mod disk;
mod gaps;
mod items;
mod kind;
mod list;
mod merging;
mod message;
mod met;
mod names;
mod owned;
mod packet;
mod query;
#[allow(unsafe_code)]
mod raw;
mod refusal;
mod saving;
mod shape;
mod source;
mod values;
mod why;
pub mod write;

pub use gaps::{GAP_CEILING, Gap, GapRecord, put_gaps, put_gaps_into};
pub use items::{
    Address, Addresses, BlockHash, BlockHashes, FileEntries, FileEntry, Hash, Hashes, Record, Records,
    ServerEntries, ServerEntry, Tag, TagValue, Tags, dotted,
};
pub use kind::{Kind, Link, MET_CEILING, PACKET_CEILING, UnknownKind};
pub use list::{Entry, List};
pub use merging::{merge, merge_into};
pub use message::{Message, read, read_tags};
pub use met::{
    BLOCK_SIZE, KnownMet, PART_SIZE, PartMet, ServerMet, block_count, part_count, read_known_met,
    read_part_met, read_server_met,
};
pub use names::{opcode_name, special_tag_name};
pub use packet::{Body, Packet, PartStatus, read_packet};
pub use query::{Bound, Node, Nodes, Operator, QUERY_DEPTH, Query, Step, read_query, truth};
pub use refusal::Refusal;
pub use saving::{save, save_into, save_strict, save_strict_into};
pub use why::{Reason, Rule, why};
