//! The calls of Linux that the standard library does not have, each in a safe function.

use std::ffi::{CStr, CString, c_char, c_int, c_void};
use std::fs::File;
use std::io;
use std::os::fd::AsRawFd;
use std::os::unix::ffi::OsStrExt;
use std::path::Path;

unsafe extern "C" {
    fn flistxattr(file: c_int, names: *mut c_char, room: usize) -> isize;
    fn fgetxattr(file: c_int, name: *const c_char, value: *mut c_void, room: usize) -> isize;
    fn fsetxattr(
        file: c_int,
        name: *const c_char,
        value: *const c_void,
        length: usize,
        flags: c_int,
    ) -> c_int;
    fn fremovexattr(file: c_int, name: *const c_char) -> c_int;
    fn linkat(
        folder: c_int,
        path: *const c_char,
        new_folder: c_int,
        new_path: *const c_char,
        flags: c_int,
    ) -> c_int;
}

const AT_FDCWD: c_int = -100;
const AT_SYMLINK_FOLLOW: c_int = 0x400;

const ENOSYS: i32 = 38;
const ENODATA: i32 = 61;
const EOPNOTSUPP: i32 = 95;

/// The most bytes that Linux lets the names of a file's attributes have together, and one value.
const MOST: usize = 65_536;

/// The names of a file's extended attributes; none where its disk has no such thing.
pub(super) fn attribute_names(file: &File) -> io::Result<Vec<CString>> {
    let mut names = vec![0; MOST];
    // SAFETY: the pointer and length of a slice that is borrowed mutably; the call writes nothing outside of it.
    let length = unsafe { flistxattr(file.as_raw_fd(), names.as_mut_ptr().cast(), names.len()) };
    match counted(length) {
        Ok(length) => {
            let each = names[..length].split_inclusive(|byte| *byte == 0);
            Ok(each.filter_map(|name| CStr::from_bytes_with_nul(name).ok()).map(CString::from).collect())
        }
        Err(error) if matches!(error.raw_os_error(), Some(EOPNOTSUPP | ENOSYS)) => Ok(vec![]),
        Err(error) => Err(error),
    }
}

/// The value of an extended attribute, if the file has it.
pub(super) fn attribute(file: &File, name: &CStr) -> io::Result<Option<Vec<u8>>> {
    let mut value = vec![0; MOST];
    // SAFETY: a text that ends with 0, and the pointer and length of a slice that is borrowed mutably; the call writes
    // nothing outside of it.
    let length =
        unsafe { fgetxattr(file.as_raw_fd(), name.as_ptr(), value.as_mut_ptr().cast(), value.len()) };
    match counted(length) {
        Ok(length) => {
            value.truncate(length);
            Ok(Some(value))
        }
        Err(error) if error.raw_os_error() == Some(ENODATA) => Ok(None),
        Err(error) => Err(error),
    }
}

pub(super) fn set_attribute(file: &File, name: &CStr, value: &[u8]) -> io::Result<()> {
    // SAFETY: a text that ends with 0, and the pointer and length of a slice; the call only reads them.
    done(unsafe { fsetxattr(file.as_raw_fd(), name.as_ptr(), value.as_ptr().cast(), value.len(), 0) })
}

pub(super) fn remove_attribute(file: &File, name: &CStr) -> io::Result<()> {
    // SAFETY: a text that ends with 0, which the call only reads.
    done(unsafe { fremovexattr(file.as_raw_fd(), name.as_ptr()) })
}

/// Gives a file that has no name yet this one, unless something has it already.
pub(super) fn name_file(file: &File, path: &Path) -> io::Result<()> {
    let unnamed = CString::new(format!("/proc/self/fd/{}", file.as_raw_fd()))?;
    let path = CString::new(path.as_os_str().as_bytes())?;
    // SAFETY: two texts that end with 0, which the call only reads.
    done(unsafe { linkat(AT_FDCWD, unnamed.as_ptr(), AT_FDCWD, path.as_ptr(), AT_SYMLINK_FOLLOW) })
}

fn done(answer: c_int) -> io::Result<()> {
    if answer == 0 { Ok(()) } else { Err(io::Error::last_os_error()) }
}

fn counted(answer: isize) -> io::Result<usize> {
    usize::try_from(answer).map_err(|_| io::Error::last_os_error())
}
