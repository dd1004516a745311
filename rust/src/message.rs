//! Reading bytes of any kind.

use crate::items::Tags;
use crate::kind::{Kind, Link};
use crate::met::{KnownMet, PartMet, ServerMet, read_known_met, read_part_met, read_server_met};
use crate::packet::{Packet, read_packet};
use crate::query::{Query, read_query};
use crate::refusal::Refusal;
use crate::values::Values;

/// What was read, of any kind.
#[derive(Clone, Debug)]
pub enum Message<'a> {
    /// A packet of this link.
    Packet(Link, Packet<'a>),
    /// A known.met.
    KnownMet(KnownMet<'a>),
    /// A server.met.
    ServerMet(ServerMet<'a>),
    /// A part.met.
    PartMet(PartMet<'a>),
    /// A lone query.
    Query(Query<'a>),
    /// A lone tag list.
    Tags(Tags<'a>),
}

/// Reads bytes of any kind.
pub fn read(kind: Kind, bytes: &[u8]) -> Result<Message<'_>, Refusal> {
    Ok(match kind {
        Kind::ServerLink => Message::Packet(Link::Server, read_packet(Link::Server, bytes)?),
        Kind::ClientLink => Message::Packet(Link::Client, read_packet(Link::Client, bytes)?),
        Kind::Udp => Message::Packet(Link::Udp, read_packet(Link::Udp, bytes)?),
        Kind::KnownMet => Message::KnownMet(read_known_met(bytes)?),
        Kind::ServerMet => Message::ServerMet(read_server_met(bytes)?),
        Kind::PartMet => Message::PartMet(read_part_met(bytes)?),
        Kind::Query => Message::Query(read_query(bytes)?),
        Kind::Tags => Message::Tags(read_tags(bytes)?),
    })
}

/// Reads a lone tag list.
pub fn read_tags(bytes: &[u8]) -> Result<Tags<'_>, Refusal> {
    Ok(Values::read(Kind::Tags, bytes)?.list())
}
