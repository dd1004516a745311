//! The published names of opcodes and special tags.

use crate::kind::Link;

const SERVER_LINK: &[(u8, &str)] = &[
    (0x01, "Hello server"),
    (0x05, "Bad protocol"),
    (0x14, "Get server list"),
    (0x15, "Offer files"),
    (0x16, "Search file"),
    (0x18, "Disconnect"),
    (0x19, "Get sources"),
    (0x1A, "Search user"),
    (0x1C, "Client cb request"),
    (0x21, "More results"),
    (0x32, "Server list"),
    (0x33, "Search file results"),
    (0x34, "Server status"),
    (0x35, "Server cb request"),
    (0x36, "Callback fail"),
    (0x38, "Server message"),
    (0x40, "ID change"),
    (0x41, "Server info data"),
    (0x42, "Found sources"),
    (0x43, "Search user results"),
];

const CLIENT_LINK: &[(u8, &str)] = &[
    (0x01, "Hello client"),
    (0x46, "Sending part"),
    (0x47, "Request parts"),
    (0x48, "No such file"),
    (0x49, "End of download"),
    (0x4A, "View files"),
    (0x4B, "View files answer"),
    (0x4C, "Hello answer"),
    (0x4D, "New client ID"),
    (0x4E, "Message"),
    (0x4F, "File status request"),
    (0x50, "File status"),
    (0x51, "Hashset request"),
    (0x52, "Hashset answer"),
    (0x54, "Slot request"),
    (0x55, "Slot given"),
    (0x56, "Slot release"),
    (0x57, "Slot taken"),
    (0x58, "File request"),
    (0x59, "File request answer"),
    (0x5C, "Queue rank"),
];

const UDP_LINK: &[(u8, &str)] = &[
    (0x96, "UDP Server status request"),
    (0x97, "UDP Server status"),
    (0x98, "UDP Search file"),
    (0x99, "UDP Search file result"),
    (0x9A, "UDP Get sources"),
    (0x9B, "UDP Found sources"),
    (0x9C, "UDP Callback request"),
    (0x9E, "UDP Callback fail"),
    (0xA1, "UDP Server list"),
    (0xA2, "UDP Get server info"),
    (0xA3, "UDP Server info"),
    (0xA4, "UDP Get server list"),
];

/// 000's special tags, and those in the example of 002 (19, 27, 50, 51, 52, 54).
const SPECIAL_TAGS: &[(u8, &str)] = &[
    (0x01, "name"),
    (0x02, "size"),
    (0x03, "type"),
    (0x04, "format"),
    (0x05, "Collection"),
    (0x06, "Part Path"),
    (0x07, "Part Hash"),
    (0x08, "copied"),
    (0x09, "gap start"),
    (0x0A, "gap end"),
    (0x0B, "description"),
    (0x0C, "ping"),
    (0x0D, "fail"),
    (0x0E, "preference"),
    (0x0F, "port"),
    (0x10, "ip"),
    (0x11, "version"),
    (0x12, "tempfile"),
    (0x13, "priority"),
    (0x14, "status"),
    (0x15, "availability"),
    (0x16, "QTime"),
    (0x17, "Parts"),
    (0x19, "priu"),
    (0x20, "Compression"),
    (0x21, "UDP client port"),
    (0x22, "UDP version"),
    (0x23, "Source exchange"),
    (0x24, "Comments"),
    (0x25, "Extended request"),
    (0x26, "Compatible client"),
    (0x27, "aich"),
    (0x50, "xfdl"),
    (0x51, "rqed"),
    (0x52, "accd"),
    (0x54, "xfdh"),
];

fn named(table: &[(u8, &'static str)], code: u8) -> Option<&'static str> {
    table.iter().find(|(listed, _)| *listed == code).map(|(_, name)| *name)
}

/// The published name of an opcode that is listed for the link.
///
/// ```
/// assert_eq!(ed2k::opcode_name(ed2k::Link::Client, 0x46), Some("Sending part"));
/// assert_eq!(ed2k::opcode_name(ed2k::Link::Server, 0x46), None);
/// ```
pub fn opcode_name(link: Link, opcode: u8) -> Option<&'static str> {
    match link {
        Link::Server => named(SERVER_LINK, opcode),
        Link::Client => named(CLIENT_LINK, opcode),
        Link::Udp => named(UDP_LINK, opcode),
    }
}

/// The published name of a special tag. 09 and 0A, which begin the names of gap tags, are among them.
///
/// ```
/// assert_eq!(ed2k::special_tag_name(0x02), Some("size"));
/// ```
pub fn special_tag_name(name: u8) -> Option<&'static str> {
    named(SPECIAL_TAGS, name)
}
