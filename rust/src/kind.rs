//! The kinds of bytes that are read, and their ceilings.

use std::fmt;
use std::str::FromStr;

/// How many bytes a packet, a lone query or a lone tag list has at most.
pub const PACKET_CEILING: usize = 65_536;

/// How many bytes a met file has at most.
pub const MET_CEILING: usize = 1_048_576;

/// The links on which packets go. A packet's opcode means something only on its link.
#[derive(Clone, Copy, Debug, PartialEq, Eq, Hash)]
pub enum Link {
    /// TCP between a client and a server.
    Server,
    /// TCP between two clients.
    Client,
    /// UDP between a client and a server.
    Udp,
}

/// What lent bytes are. The caller names it; bytes alone do not say.
///
/// More kinds may come with later requests, so a `match` outside of this crate needs an arm `_`. A program meets a kind that
/// it does not know only if it takes kinds from [`Kind::ALL`] or from text.
#[derive(Clone, Copy, Debug, PartialEq, Eq, Hash)]
#[non_exhaustive]
#[repr(u8)]
pub enum Kind {
    /// A packet of the server link.
    ServerLink = 0,
    /// A packet of the client link.
    ClientLink = 1,
    /// A UDP packet.
    Udp = 2,
    /// A known.met: the files that a client knows.
    KnownMet = 3,
    /// A server.met: the servers that a client knows.
    ServerMet = 4,
    /// A part.met: a file that is arriving, and its gaps.
    PartMet = 5,
    /// A search query by itself.
    Query = 6,
    /// A tag list by itself.
    Tags = 7,
}

impl Kind {
    /// All kinds.
    pub const ALL: &'static [Kind] = &[
        Kind::ServerLink,
        Kind::ClientLink,
        Kind::Udp,
        Kind::KnownMet,
        Kind::ServerMet,
        Kind::PartMet,
        Kind::Query,
        Kind::Tags,
    ];

    /// Its letter: s, c, u, k, v and p are the reading program's; q and t are added here.
    pub fn letter(self) -> char {
        match self {
            Kind::ServerLink => 's',
            Kind::ClientLink => 'c',
            Kind::Udp => 'u',
            Kind::KnownMet => 'k',
            Kind::ServerMet => 'v',
            Kind::PartMet => 'p',
            Kind::Query => 'q',
            Kind::Tags => 't',
        }
    }

    /// Its word.
    pub fn word(self) -> &'static str {
        match self {
            Kind::ServerLink => "server-link",
            Kind::ClientLink => "client-link",
            Kind::Udp => "udp",
            Kind::KnownMet => "known.met",
            Kind::ServerMet => "server.met",
            Kind::PartMet => "part.met",
            Kind::Query => "query",
            Kind::Tags => "tags",
        }
    }

    /// How many bytes it has at most; more are refused as [`Refusal::Limit`](crate::Refusal::Limit).
    pub fn ceiling(self) -> usize {
        match self {
            Kind::KnownMet | Kind::ServerMet | Kind::PartMet => MET_CEILING,
            _ => PACKET_CEILING,
        }
    }

    /// The link, if this is a kind of packet.
    pub fn link(self) -> Option<Link> {
        match self {
            Kind::ServerLink => Some(Link::Server),
            Kind::ClientLink => Some(Link::Client),
            Kind::Udp => Some(Link::Udp),
            _ => None,
        }
    }
}

impl From<Link> for Kind {
    fn from(link: Link) -> Kind {
        match link {
            Link::Server => Kind::ServerLink,
            Link::Client => Kind::ClientLink,
            Link::Udp => Kind::Udp,
        }
    }
}

impl fmt::Display for Kind {
    fn fmt(&self, f: &mut fmt::Formatter<'_>) -> fmt::Result {
        f.write_str(self.word())
    }
}

/// Text that is neither the letter nor the word of a kind.
#[derive(Clone, Copy, Debug, PartialEq, Eq)]
pub struct UnknownKind;

impl fmt::Display for UnknownKind {
    fn fmt(&self, f: &mut fmt::Formatter<'_>) -> fmt::Result {
        f.write_str("no such kind")
    }
}

impl std::error::Error for UnknownKind {}

impl FromStr for Kind {
    type Err = UnknownKind;

    /// The kind with this letter or word.
    fn from_str(text: &str) -> Result<Kind, UnknownKind> {
        let named = |kind: &Kind| text == kind.word() || text.chars().eq([kind.letter()]);
        Kind::ALL.iter().copied().find(named).ok_or(UnknownKind)
    }
}
