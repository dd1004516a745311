//! Extended attributes and access control lists of files.

use std::ffi::{CString, c_char, c_int, c_void};
use std::io;
use std::os::unix::ffi::OsStrExt;
use std::path::Path;

unsafe extern "C" {
    fn setxattr(
        path: *const c_char,
        name: *const c_char,
        value: *const c_void,
        length: usize,
        flags: c_int,
    ) -> c_int;
    fn getxattr(path: *const c_char, name: *const c_char, value: *mut c_void, room: usize) -> isize;
}

pub const ACCESS_LIST: &str = "system.posix_acl_access";
pub const LIST_OF_NEW_FILES: &str = "system.posix_acl_default";

fn text(bytes: &[u8]) -> CString {
    CString::new(bytes).expect("a name has no 0")
}

pub fn set(path: &Path, name: &str, value: &[u8]) {
    let (file, name) = (text(path.as_os_str().as_bytes()), text(name.as_bytes()));
    // SAFETY: two texts that end with 0 and a slice, all of which the call only reads.
    let set = unsafe { setxattr(file.as_ptr(), name.as_ptr(), value.as_ptr().cast(), value.len(), 0) };
    assert_eq!(set, 0, "{name:?} of {}: {}", path.display(), io::Error::last_os_error());
}

/// The value, if the file has it.
pub fn get(path: &Path, name: &str) -> Option<Vec<u8>> {
    let (file, name) = (text(path.as_os_str().as_bytes()), text(name.as_bytes()));
    let mut value = vec![0; 1024];
    // SAFETY: two texts that end with 0 and a slice that is borrowed mutably, outside of which the call writes nothing.
    let length = unsafe { getxattr(file.as_ptr(), name.as_ptr(), value.as_mut_ptr().cast(), value.len()) };
    value.truncate(usize::try_from(length).ok()?);
    Some(value)
}

/// An access control list: what the owner, one more user, the group, and all others may do; 4 read, 2 write, 1 run.
pub fn access_list(owner: u16, (user, user_may): (u32, u16), group: u16, others: u16) -> Vec<u8> {
    const NOBODY_ELSE: u32 = u32::MAX;
    let most = user_may | group;
    let entries = [
        (0x01, owner, NOBODY_ELSE),
        (0x02, user_may, user),
        (0x04, group, NOBODY_ELSE),
        (0x10, most, NOBODY_ELSE),
        (0x20, others, NOBODY_ELSE),
    ];
    let entry = |(kind, may, who): (u16, u16, u32)| {
        [&kind.to_le_bytes()[..], &may.to_le_bytes(), &who.to_le_bytes()].concat()
    };
    [vec![2, 0, 0, 0], entries.map(entry).concat()].concat()
}
