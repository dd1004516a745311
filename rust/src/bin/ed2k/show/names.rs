//! The names of the items of packets. They are those of document 000.

pub const PROTOCOL: &str = "Protocol";
pub const DATA_LENGTH: &str = "Packet data length";
pub const OPCODE: &str = "opcode";

pub const FILE_HASH: &str = "File hash";
pub const CLIENT_HASH: &str = "Client hash";
pub const SERVER_HASH: &str = "Server hash";

pub const CLIENT_ID: &str = "Client ID";
pub const OLD_CLIENT_ID: &str = "Client ID, old";
pub const NEW_CLIENT_ID: &str = "Client ID, new";
pub const PORT: &str = "Port";

pub const ADDRESS: &str = "Address";
pub const CLIENT_ADDRESS: &str = "Client address";
pub const SERVER_ADDRESS: &str = "Server address";

pub const STRING: &str = "String";
pub const SERVER_NAME: &str = "String, name";
pub const SERVER_DESCRIPTION: &str = "String, description";
pub const FILE_NAME: &str = "File name";

pub const USERS: &str = "Nusers";
pub const FILES: &str = "Nfiles";
pub const USERS_MAX: &str = "Nusersmax";
pub const RANK: &str = "rank";

pub const ADDRESS_LIST: &str = "Address list";
pub const TAG_LIST: &str = "Meta tag list";
pub const PART_HASH_LIST: &str = "Part hash list";
pub const PART_STATUS_LIST: &str = "Part status list";
pub const PARTS_HELD: &str = "parts held";
pub const MORE: &str = "More";

pub const START: &str = "Start offset";
pub const END: &str = "End offset";
pub const DATA: &str = "DATA";

pub const BYTE: &str = "BYTE";
pub const DWORD: &str = "DWORD";
pub const FIXED_BYTE: &str = "fixed byte";
pub const FIXED_BYTES: &str = "fixed bytes";
