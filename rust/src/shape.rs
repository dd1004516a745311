//! The shapes of bodies by their numbers: ED2K_BODY_.. in ed2k.h.

pub const NOTHING: u8 = 0;
pub const QUERY: u8 = 1;
pub const HASH: u8 = 2;
pub const DWORD: u8 = 3;
pub const TWO_DWORDS: u8 = 4;
pub const TEXT: u8 = 5;
pub const TWO_TEXTS: u8 = 6;
pub const ADDRESS: u8 = 7;
pub const ADDRESSES: u8 = 8;
pub const HASH_ADDRESSES: u8 = 9;
pub const ADDRESS_DWORD: u8 = 10;
pub const HASH_ADDRESS_TAGS: u8 = 11;
pub const RECORD: u8 = 12;
pub const RECORDS: u8 = 13;
pub const RECORDS_FLAG: u8 = 14;
pub const RECORD_ADDRESS: u8 = 15;
pub const HELLO: u8 = 16;
pub const HASH_TEXT: u8 = 17;
pub const HASHSET: u8 = 18;
pub const SENDING_PART: u8 = 19;
pub const REQUEST_PARTS: u8 = 20;
pub const FILE_STATUS: u8 = 21;
pub const STATUS_REQUEST: u8 = 22;
pub const STATUS: u8 = 23;
pub const EXTENDED_STATUS: u8 = 24;
