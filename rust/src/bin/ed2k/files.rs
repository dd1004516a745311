//! Reading files, never more of them than is needed to check them.

use std::ffi::OsStr;
use std::fs::{self, File};
use std::io::{self, ErrorKind, Read};
use std::os::unix::fs::MetadataExt;

use ed2k::Kind;

use crate::failure::Failure;
use crate::text;

/// The bytes of a file of this kind. Of a file above the kind's ceiling one byte too many is read and no more: it is
/// refused for that whatever follows.
pub fn read(kind: Kind, name: &OsStr) -> Result<Vec<u8>, Failure> {
    let bytes = File::open(name).and_then(|mut file| read_up_to(kind.ceiling() + 1, &mut file));
    bytes.map_err(Failure::file(format!("read {}", text::file_name(name))))
}

/// The same, where `-` is standard input.
pub fn read_input(kind: Kind, name: &OsStr) -> Result<Vec<u8>, Failure> {
    if name != "-" {
        return read(kind, name);
    }
    read_up_to(kind.ceiling() + 1, &mut io::stdin().lock()).map_err(Failure::file("read standard input"))
}

/// So many bytes of a file, or all if it has fewer; one that is not there counts as empty.
pub fn read_or_empty(limit: usize, name: &OsStr) -> Result<Vec<u8>, Failure> {
    match File::open(name).and_then(|mut file| read_up_to(limit, &mut file)) {
        Err(error) if error.kind() == ErrorKind::NotFound => Ok(vec![]),
        bytes => bytes.map_err(Failure::file(format!("read {}", text::file_name(name)))),
    }
}

/// Whether these are one file, by whatever names it is found.
pub fn are_one(one: &OsStr, other: &OsStr) -> bool {
    match (fs::metadata(one), fs::metadata(other)) {
        (Ok(one), Ok(other)) => (one.dev(), one.ino()) == (other.dev(), other.ino()),
        _ => false,
    }
}

/// So many bytes, or all if there are fewer.
fn read_up_to(limit: usize, source: &mut dyn Read) -> io::Result<Vec<u8>> {
    let mut bytes = Vec::new();
    source.take(limit as u64).read_to_end(&mut bytes)?;
    Ok(bytes)
}
