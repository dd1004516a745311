//! The three files of a merge.

use ed2k::{GapRecord, PartMet, Refusal};

/// What the three files are called where a merge is spoken of: the opened file, the first save and the second.
#[derive(Clone, Copy)]
pub struct Roles {
    /// At the front of a line.
    pub labels: [&'static str; 3],
    /// In a sentence, after "the".
    pub words: [&'static str; 3],
}

/// Those of `ed2k merge`.
pub const OF_MERGE: Roles =
    Roles { labels: ["opened", "first", "second"], words: ["opened file", "first save", "second save"] };

/// Those of `ed2k save`, where the stored file is the first save and the new one the second.
pub const OF_SAVE: Roles =
    Roles { labels: ["opened", "stored", "new"], words: ["opened file", "stored file", "new file"] };

/// A part.met that is accepted, and what is missing in it.
pub struct Version<'a> {
    pub met: PartMet<'a>,
    pub record: GapRecord,
}

impl<'a> Version<'a> {
    pub fn read(bytes: &'a [u8]) -> Result<Version<'a>, Refusal> {
        Ok(Version { met: ed2k::read_part_met(bytes)?, record: GapRecord::read(bytes)? })
    }
}

/// The opened file and the two saves, each accepted by itself.
pub struct Versions<'a> {
    pub roles: Roles,
    files: [Version<'a>; 3],
}

impl<'a> Versions<'a> {
    /// The refusal of the first file that is not accepted comes with its place among the three.
    pub fn read(roles: Roles, files: [&'a [u8]; 3]) -> Result<Versions<'a>, (usize, Refusal)> {
        let version = |place: usize| Version::read(files[place]).map_err(|refusal| (place, refusal));
        Ok(Versions { roles, files: [version(0)?, version(1)?, version(2)?] })
    }

    /// Something that each of the files has.
    pub fn each<'v, T>(&'v self, part: impl FnMut(&'v Version<'a>) -> T) -> [T; 3] {
        self.files.each_ref().map(part)
    }
}
