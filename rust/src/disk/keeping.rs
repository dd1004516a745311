//! What the new file keeps of the old one: owner, group, permissions and extended attributes.

use std::ffi::{CStr, CString};
use std::fmt;
use std::fs::{File, Metadata};
use std::io;
use std::os::unix::fs::{MetadataExt, fchown};

use super::system;
use super::users;

/// What the new file could not keep of the old one, so that somebody would lose or gain a right by the save.
#[derive(Debug)]
pub enum Unkept {
    /// Neither the owner nor the group: the owner could not write the file any more.
    OwnerAndGroup {
        /// The old file's owner.
        owner: u32,
        /// The old file's group.
        group: u32,
    },
    /// Not the owner, and the group may not both read and write the file: the owner could not do so any more.
    Owner {
        /// The old file's owner.
        owner: u32,
        /// The old file's group.
        group: u32,
    },
    /// Not the group, which has other rights than all others have.
    Group {
        /// The old file's group.
        group: u32,
    },
    /// Not an extended attribute; an access control list is one.
    Attribute {
        /// Its name.
        name: String,
        /// What the system says.
        error: io::Error,
    },
}

impl fmt::Display for Unkept {
    fn fmt(&self, f: &mut fmt::Formatter<'_>) -> fmt::Result {
        match self {
            Unkept::OwnerAndGroup { owner, group } => {
                let (owner, group) = (users::user(*owner), users::group(*group));
                write!(f, "neither its owner ({owner}) nor its group ({group}) can be kept")
            }
            Unkept::Owner { owner, group } => {
                let (owner, group) = (users::user(*owner), users::group(*group));
                write!(f, "its owner ({owner}) cannot be kept, and its group ({group}) may not write it")
            }
            Unkept::Group { group } => write!(f, "its group ({}) cannot be kept", users::group(*group)),
            Unkept::Attribute { name, error } => write!(f, "its attribute {name} cannot be kept: {error}"),
        }
    }
}

/// Why a new file is not given what the old one has.
pub(super) enum NotGiven {
    Unkept(Unkept),
    System(io::Error),
}

impl From<Unkept> for NotGiven {
    fn from(unkept: Unkept) -> NotGiven {
        NotGiven::Unkept(unkept)
    }
}

impl From<io::Error> for NotGiven {
    fn from(error: io::Error) -> NotGiven {
        NotGiven::System(error)
    }
}

/// Gives a new, empty file what the old one has; whether that includes the owner.
pub(super) fn keep(old: &File, new: &File) -> Result<bool, NotGiven> {
    let (was, attributes) = (old.metadata()?, attributes(old)?);
    let owner_kept = keep_owner(&was, &Rights::of(&was, &attributes), new)?;
    new.set_permissions(was.permissions())?;
    keep_attributes(&attributes, new)?;
    Ok(owner_kept)
}

/// Who may not give files away still may give one to a group of his own: whoever the group has among its members can then
/// do with the file what he could before, its old owner too.
fn keep_owner(was: &Metadata, rights: &Rights, new: &File) -> Result<bool, NotGiven> {
    let (owner, group) = (was.uid(), was.gid());
    if fchown(new, Some(owner), Some(group)).is_ok() {
        return Ok(true);
    }
    let is = new.metadata()?;
    let group_kept = is.gid() == group || fchown(new, None, Some(group)).is_ok();
    match (is.uid() == owner, group_kept) {
        (true, false) if rights.group != rights.others => Err(Unkept::Group { group }.into()),
        (true, _) => Ok(true),
        (false, false) => Err(Unkept::OwnerAndGroup { owner, group }.into()),
        (false, true) if rights.group & READ_WRITE != READ_WRITE => {
            Err(Unkept::Owner { owner, group }.into())
        }
        (false, true) => Ok(false),
    }
}

const READ_WRITE: u32 = 0o6;

/// What a file's group and all others may do with it: 4 read, 2 write, 1 run.
struct Rights {
    group: u32,
    others: u32,
}

/// The access control list. With one, the permissions of the group are those of its widest entry instead.
const ACCESS_LIST: &CStr = c"system.posix_acl_access";

/// The kinds of its entries that are the group's and all others'. An entry is kind, rights and number, of 2, 2 and 4 bytes,
/// low byte first, after a version of 4 bytes.
const GROUP_ENTRY: u16 = 0x04;
const OTHERS_ENTRY: u16 = 0x20;

impl Rights {
    fn of(file: &Metadata, attributes: &[Attribute]) -> Rights {
        let mut rights = Rights { group: file.mode() >> 3 & 0o7, others: file.mode() & 0o7 };
        let list = attributes.iter().find(|attribute| attribute.name.as_c_str() == ACCESS_LIST);
        let entries = list.and_then(|list| list.value.get(4..)).unwrap_or_default();
        for entry in entries.chunks_exact(8) {
            let [kind, may] = [0, 2].map(|at| u16::from_le_bytes([entry[at], entry[at + 1]]));
            match kind {
                GROUP_ENTRY => rights.group &= u32::from(may),
                OTHERS_ENTRY => rights.others &= u32::from(may),
                _ => (),
            }
        }
        rights
    }
}

struct Attribute {
    name: CString,
    value: Vec<u8>,
}

impl Attribute {
    fn unkept(&self, error: io::Error) -> Unkept {
        unkept(&self.name, error)
    }
}

fn unkept(name: &CStr, error: io::Error) -> Unkept {
    Unkept::Attribute { name: name.to_string_lossy().into_owned(), error }
}

/// A file's extended attributes, but for the system's own labels and checksums (security.*), which the system gives each
/// file itself.
fn attributes(file: &File) -> Result<Vec<Attribute>, NotGiven> {
    let mut attributes = Vec::new();
    for name in system::attribute_names(file)? {
        if !name.as_bytes().starts_with(b"security.") {
            let value = system::attribute(file, &name).map_err(|error| unkept(&name, error))?;
            attributes.extend(value.map(|value| Attribute { name, value }));
        }
    }
    Ok(attributes)
}

/// Gives the new file these attributes, and takes from it what it got of its folder.
fn keep_attributes(kept: &[Attribute], new: &File) -> Result<(), NotGiven> {
    let given = attributes(new)?;
    for attribute in &given {
        if !kept.iter().any(|kept| kept.name == attribute.name) {
            let removed = system::remove_attribute(new, &attribute.name);
            removed.map_err(|error| attribute.unkept(error))?;
        }
    }
    for attribute in kept {
        let is = given.iter().find(|given| given.name == attribute.name);
        if is.is_none_or(|is| is.value != attribute.value) {
            let set = system::set_attribute(new, &attribute.name, &attribute.value);
            set.map_err(|error| attribute.unkept(error))?;
        }
    }
    Ok(())
}
