//! `ctfd-store list` and `stats`: the contents of a store.

use super::about::About;
use super::build_id::BuildId;
use super::builds::{age_of, Store};
use super::entry::{ABOUT, DEBUG_FILE, PROGRAM, SECTIONS};
use super::folder::Folder;
use crate::types::failure::Outcome;
use crate::types::json::Object;
use crate::types::output::Output;
use crate::types::text::printable;
use ctfd_read::error::Result;
use std::io::Write as _;
use std::path::Path;

/// The size limit of the record of a build.
const LONGEST_ABOUT: u64 = 1 << 16;

/// A build, with its record and the sizes of its files in bytes.
struct Build {
    id: BuildId,
    about: About,
    days: u64,
    debug_file: u64,
    sections: u64,
    program: u64,
}

impl Build {
    fn of(id: BuildId, folder: &Folder) -> Result<Build> {
        let text = folder.bytes(ABOUT, LONGEST_ABOUT)?.unwrap_or_default();
        let sections = match folder.child(SECTIONS)? {
            Some(copies) => {
                let lengths = copies.names()?;
                lengths.iter().map(|name| length(&copies, name)).sum::<Result<u64>>()?
            }
            None => 0,
        };
        Ok(Build {
            about: About::parse(&String::from_utf8_lossy(&text)),
            days: age_of(folder)?,
            debug_file: length(folder, DEBUG_FILE)?,
            sections,
            program: length(folder, PROGRAM)?,
            id,
        })
    }

    fn json(&self) -> String {
        let mut made = Object::default();
        made.text("id", self.id.digits().as_bytes())
            .text("name", self.about.name.as_bytes())
            .field("days", self.days)
            .field("types", self.about.counts.types)
            .field("objects", self.about.counts.objects)
            .field("functions", self.about.counts.functions)
            .field("lost", self.about.losses)
            .field("debuginfo", self.debug_file)
            .field("sections", self.sections)
            .field("executable", self.program)
            .field("original", self.about.original);
        made.end()
    }
}

fn length(folder: &Folder, name: &str) -> Result<u64> {
    Ok(folder.file(name)?.map(|file| file.metadata()).transpose()?.map_or(0, |about| about.len()))
}

/// The builds of a store, in order, each read when it is needed.
fn builds(store: &Store) -> Result<impl Iterator<Item = Result<Build>> + '_> {
    let read = |id: BuildId| {
        let folder = store.build(&id).transpose()?;
        Some(folder.and_then(|folder| Build::of(id, &folder)))
    };
    Ok(store.builds()?.into_iter().filter_map(read))
}

/// Prints a line for each build.
pub fn list(path: &Path, is_json: bool) -> Outcome<u8> {
    let store = Store::open(path)?;
    let mut lines = Output::new();
    for build in builds(&store)? {
        let build = build?;
        if is_json {
            writeln!(lines, "{}", build.json())?;
            continue;
        }
        let Build { id, about, days, debug_file, .. } = &build;
        let name = printable(about.name.as_bytes());
        writeln!(lines, "{id} {days:>4} days {debug_file:>9} bytes {} {name}", about.counts)?;
    }
    lines.flush()?;
    Ok(0)
}

/// Prints the totals of a store.
pub fn stats(path: &Path) -> Outcome<u8> {
    let store = Store::open(path)?;
    let (mut count, mut types, mut symbols) = (0_u64, 0, 0);
    let (mut debug_files, mut sections, mut programs, mut originals) = (0, 0, 0, 0);
    for build in builds(&store)? {
        let Build { about, debug_file, sections: copies, program, .. } = build?;
        count += 1;
        types += about.counts.types;
        symbols += about.counts.objects + about.counts.functions;
        debug_files += debug_file;
        sections += copies;
        programs += program;
        originals += about.original;
    }
    let mut lines = Output::new();
    writeln!(lines, "builds: {count}")?;
    writeln!(lines, "types: {types}")?;
    writeln!(lines, "functions and objects: {symbols}")?;
    writeln!(lines, "bytes of debug files: {debug_files}")?;
    writeln!(lines, "bytes of sections: {sections}")?;
    writeln!(lines, "bytes of executables: {programs}")?;
    writeln!(lines, "bytes of the originals: {originals}")?;
    lines.flush()?;
    Ok(0)
}
