//! Several dictionaries in one file: an archive as `ar` writes it, with a parent and its children.

use crate::error::{refuse, Error, Result};
use object::read::archive::ArchiveFile;

/// The first bytes of each archive.
pub const MAGIC: &[u8] = b"!<arch>\n";
/// The name of the parent, which is the first member.
pub const PARENT: &str = ".ctf";
const LONGEST_NAME: usize = 15;
const LONGEST_MEMBER: usize = 9_999_999_999;

/// The name of a child; `place` counts from 1.
pub fn child_name(place: usize) -> String {
    format!("part{place:04}")
}

/// An archive of members, whose names have at most 15 letters. Times and owners are 0.
pub fn write<'m>(members: impl IntoIterator<Item = (String, &'m [u8])>) -> Result<Vec<u8>> {
    let mut made = MAGIC.to_vec();
    for (name, bytes) in members {
        if name.len() > LONGEST_NAME || bytes.len() > LONGEST_MEMBER {
            return refuse(format!("{name}: more than a member of an archive may have"));
        }
        let (name, length) = (name + "/", bytes.len());
        made.extend(
            format!("{name:<16}{:<12}{:<6}{:<6}{:<8}{length:<10}`\n", 0, 0, 0, 644).bytes(),
        );
        made.extend(bytes);
        made.resize(made.len().next_multiple_of(2), b'\n');
    }
    Ok(made)
}

/// The members of an archive, with their names.
pub fn members(bytes: &[u8]) -> Result<Vec<(String, &[u8])>> {
    let damage = |_| Error("a damaged archive".to_owned());
    let archive = ArchiveFile::parse(bytes).map_err(damage)?;
    let mut found = Vec::new();
    for member in archive.members() {
        let member = member.map_err(damage)?;
        let name = String::from_utf8_lossy(member.name()).into_owned();
        found.push((name, member.data(bytes).map_err(damage)?));
    }
    Ok(found)
}

/// Whether an archive contains dictionaries: the first member is a parent.
pub fn has_dictionaries(bytes: &[u8]) -> bool {
    let header = bytes.strip_prefix(MAGIC).and_then(|rest| rest.get(..16));
    header.is_some_and(|name| name.trim_ascii_end() == b".ctf/")
}
