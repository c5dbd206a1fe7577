//! The operator's dictionaries, NAME=FILE, which are read once for all shards.

use crate::members::Text;
use crate::name::Name;
use crate::text::Words;
use std::ffi::{OsStr, OsString};
use std::fs::File;
use std::io::{self, Read};
use std::os::unix::ffi::OsStrExt;
use std::path::{Path, PathBuf};

/// The most bytes of a section.
const LONGEST: u64 = 67_108_864;

/// The first bytes of programs and archives.
const PROGRAMS: [&[u8]; 3] = [b"\x7fELF", b"!<arch>\n", b"!<thin>\n"];

/// The reason why a file is not served, and the exit status of the front.
pub struct Trouble {
    pub status: u8,
    pub message: String,
}

/// A dictionary that all sessions may take.
pub struct PublishedDictionary {
    pub name: String,
    pub path: PathBuf,
    pub section: Vec<u8>,
}

/// Refuses files that are programs: only types are served.
pub fn refuse_programs(files: &[OsString]) -> Result<(), Trouble> {
    let program = files.iter().find_map(|word| {
        let (name, path) = cut(word)?;
        is_program(path).then(|| (String::from_utf8_lossy(name), path.display()))
    });
    program.map_or(Ok(()), |(name, path)| {
        let message = format!(
            "{path} is a program, and a service takes types alone: `ctfd-convert {path} OUT` \
             writes them, then name {name}=OUT"
        );
        Err(Trouble { status: 1, message })
    })
}

/// Whether a file is a program, a library, an object file or an archive.
fn is_program(path: &Path) -> bool {
    let mut start = [0; 8];
    // If it can't be read, the error comes later, when it is to be read.
    let is_read =
        path.is_file() && File::open(path).and_then(|mut file| file.read_exact(&mut start)).is_ok();
    is_read && PROGRAMS.iter().any(|magic| start.starts_with(magic))
}

/// The two parts of NAME=FILE, which the first `=` separates.
fn cut(word: &OsString) -> Option<(&[u8], &Path)> {
    let bytes = word.as_bytes();
    let place = bytes.iter().position(|&byte| byte == b'=')?;
    Some((&bytes[..place], Path::new(OsStr::from_bytes(&bytes[place + 1..]))))
}

/// Reads the dictionaries that the command line names.
pub fn read(files: &[OsString]) -> Result<Vec<PublishedDictionary>, Trouble> {
    files.iter().map(dictionary_of).collect()
}

/// The dictionary that a word NAME=FILE names.
fn dictionary_of(word: &OsString) -> Result<PublishedDictionary, Trouble> {
    let usage = || Trouble { status: 2, message: "usage: NAME=FILE".into() };
    let (name, path) = cut(word).ok_or_else(usage)?;
    let is_plain = !name.contains(&b'\\');
    let name = Name::of(Text(name)).filter(|_| is_plain).ok_or_else(usage)?.to_string();
    let path = path.to_owned();
    let section = section(&path)?;
    Ok(PublishedDictionary { name, path, section })
}

/// The bytes of a file.
fn section(path: &Path) -> Result<Vec<u8>, Trouble> {
    let shown = path.display();
    let trouble = |status, message| Trouble { status, message };
    let unread = |why: io::Error| trouble(3, format!("{shown}: {}", Words(&why)));
    let file = File::open(path).map_err(unread)?;
    let mut section = Vec::new();
    let is_read = file.take(LONGEST + 1).read_to_end(&mut section);
    is_read.map_err(|why| match why.kind() {
        io::ErrorKind::OutOfMemory => trouble(4, format!("{shown}: Memory")),
        _ => unread(why),
    })?;
    if section.len() as u64 > LONGEST {
        return Err(trouble(1, format!("{shown}: StageFull at 0")));
    }
    Ok(section)
}
