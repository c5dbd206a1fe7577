//! The public headers of a library. Types that are defined elsewhere are opaque to its users.

use super::side::Side;
use crate::types::catalog::Number;
use crate::types::failure::Outcome;
use crate::types::open::display_path;
use ctfd::Kind;
use ctfd_read::declared::SourceFiles;
use ctfd_read::error::{reason, Error};
use ctfd_read::table;
use std::collections::HashSet;
use std::os::unix::ffi::OsStrExt as _;
use std::path::{Path, PathBuf};

/// The most files and folders that are visited.
const MOST: usize = 1_000_000;

/// The file names of the headers.
pub struct Headers {
    names: HashSet<Vec<u8>>,
}

impl Headers {
    /// The headers in some folders and below, or given as files; None if no paths are given.
    pub fn of(paths: &[PathBuf]) -> Outcome<Option<Headers>> {
        let mut made = Headers { names: HashSet::new() };
        let mut todo: Vec<PathBuf> = paths.to_vec();
        let mut left = MOST;
        while let Some(path) = todo.pop() {
            let refused = |error| Error(format!("{}: {}", display_path(&path), reason(&error)));
            left = left.checked_sub(1).ok_or_else(|| Error(too_many(paths)))?;
            // A link to a folder is followed only if it was given as a path.
            let is_folder = match paths.contains(&path) {
                true => std::fs::metadata(&path).map_err(refused)?.is_dir(),
                false => std::fs::symlink_metadata(&path).map_err(refused)?.is_dir(),
            };
            if !is_folder {
                made.names.extend(path.file_name().map(|name| name.as_bytes().to_vec()));
                continue;
            }
            for entry in std::fs::read_dir(&path).map_err(refused)? {
                todo.push(entry.map_err(refused)?.path());
            }
        }
        Ok((!paths.is_empty()).then_some(made))
    }

    /// Whether a type of a side is defined only outside of the headers. An unnamed type belongs to
    /// others, and a type whose source files are not known may be in a header: neither is hidden.
    pub fn hide(&self, side: &Side<'_, '_>, number: Number, sources: &SourceFiles) -> bool {
        let record = side.catalog.record(number);
        let is_defined = record.is_aggregate() || matches!(record.kind, Kind::Enum | Kind::Typedef);
        if !is_defined || !side.names.has_name(number) {
            return false;
        }
        match record.name.is_empty() {
            true => {
                let mut typedefs = side.names.typedefs(number).iter();
                typedefs.all(|&one| self.lacks(table::Kind::Typedef, side, one, sources))
            }
            false => self.lacks(kind_of(record.kind), side, number, sources),
        }
    }

    fn lacks(
        &self,
        kind: table::Kind,
        side: &Side<'_, '_>,
        number: Number,
        sources: &SourceFiles,
    ) -> bool {
        let mut files = sources.of_type(kind, &side.catalog.record(number).name).peekable();
        files.peek().is_some() && files.all(|file| !self.names.contains(file))
    }
}

/// The kind of the debug information for a kind of CTF.
pub fn kind_of(kind: Kind) -> table::Kind {
    match kind {
        Kind::Struct => table::Kind::Struct,
        Kind::Union => table::Kind::Union,
        Kind::Enum => table::Kind::Enum,
        _ => table::Kind::Typedef,
    }
}

fn too_many(paths: &[PathBuf]) -> String {
    let first = paths.first().map_or_else(String::new, |path| display_path(Path::new(path)));
    format!("{first}: more than {MOST} files are in it: name the folder of the headers alone")
}
