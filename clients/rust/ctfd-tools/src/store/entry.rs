//! The files that a store has for a build: a debug file with a dictionary in it, and copies of
//! sections.

use super::about::About;
use super::build_id::BuildId;
use super::inputs::{BuildFile, Group};
use crate::debuginfo::{self, DebugFile, Files};
use crate::types::failure::{Failure, Outcome};
use ctfd_read::debuggee::Debuggee;
use ctfd_read::dictionary;
use ctfd_read::error::Result;
use ctfd_read::image::Image;
use ctfd_read::inputs::{with_types, Options};
use ctfd_read::opening;
use object::ReadRef as _;
use std::path::{Path, PathBuf};

/// The names of the files in the folder of a build.
pub const DEBUG_FILE: &str = "debuginfo";
pub const PROGRAM: &str = "executable";
pub const ABOUT: &str = "about";
/// The folder for copies of sections, and their names.
pub const SECTIONS: &str = "section";
pub const DICTIONARY: &str = ".SUNW_ctf";
pub const SYMBOLS: [&str; 2] = [".symtab", ".strtab"];

/// The files of a build, in the order in which they are written: the debug file comes after the
/// sections, so that whoever finds it finds these too.
pub struct Entry {
    pub id: BuildId,
    /// The path of each file in the build's folder, and its bytes.
    pub files: Vec<(String, Vec<u8>)>,
}

impl Entry {
    /// The entry for the files that were found of a build.
    pub fn of(group: &Group, reading: &Options, has_program: bool) -> Outcome<Entry> {
        let types = &group.types;
        let image = image_of(types)?;
        let debug = match types.has_types {
            true => None,
            false => opening::debug_file_of(&image, &reading.folders)?,
        };
        let original = debug.unwrap_or(image);
        let (ctf, losses) = dictionary_of(&original, reading)?;
        let length = original.data().len().unwrap_or(0);
        let made = debug_file(group, original, &ctf, length)?;
        let about =
            About { name: group.name().to_owned(), counts: made.counts, losses, original: length };
        let mut files = copies(&made.bytes)?;
        files.push((format!("{SECTIONS}/{DICTIONARY}"), opening::deflate(&ctf)?.into_owned()));
        files.push((DEBUG_FILE.to_owned(), made.bytes));
        if let Some(program) = group.program.as_ref().filter(|_| has_program) {
            files.push((PROGRAM.to_owned(), image_of(program)?.all()?.to_vec()));
        }
        files.push((ABOUT.to_owned(), about.to_string().into_bytes()));
        Ok(Entry { id: types.id.clone(), files })
    }
}

/// Opens a file that was found.
fn image_of(found: &BuildFile) -> Outcome<Image> {
    let image = Image::open_linked(&found.place);
    image.ok_or_else(|| Failure::Refused("it can't be read any more".to_owned()))
}

/// The dictionary with a file's types, which the library must accept, and the number of constructs
/// that it lacks.
fn dictionary_of(image: &Image, reading: &Options) -> Result<(Vec<u8>, usize)> {
    with_types(image, reading, |found| {
        let (found, _) = dictionary::select(found, &[])?;
        let mut made = dictionary::alone(found.table, found.symbols);
        let bytes = made.checked_bytes(image, image.path())?;
        Ok((bytes, made.table.losses.len()))
    })
}

/// The debug file of a build, from the original file with debug information and its dictionary. The
/// dictionary is left out if the debug file would be larger than the original.
fn debug_file(group: &Group, original: Image, ctf: &[u8], length: u64) -> Outcome<DebugFile> {
    let program = group.program.as_ref().map(image_of).transpose()?;
    let is_beside = match &program {
        Some(program) => Debuggee::of(program)?.is_same_build(&Debuggee::of(&original)?),
        None => false,
    };
    let name = Path::new(group.name());
    let dictionary = Image::of_bytes(name.to_owned(), ctf.to_vec());
    let files = match program.filter(|_| is_beside) {
        Some(program) => Files::of_images(dictionary, program, Some(original)),
        None => Files::of_images(dictionary, original, None),
    };
    let made = debuginfo::of_files(name, &files, true)?;
    match made.bytes.len() as u64 > length {
        true => debuginfo::of_files(name, &files, false),
        false => Ok(made),
    }
}

/// Copies of the symbol table and strings of a debug file.
fn copies(debug_file: &[u8]) -> Result<Vec<(String, Vec<u8>)>> {
    let image = Image::of_bytes(PathBuf::from(DEBUG_FILE), debug_file.to_vec());
    SYMBOLS.iter().filter_map(|name| copy_of(&image, name).transpose()).collect()
}

/// A section of a debug file, with the path of its copy; None if it has no such section.
pub fn copy_of(image: &Image, name: &str) -> Result<Option<(String, Vec<u8>)>> {
    let file = Debuggee::of(image)?;
    let Some(at) = file.section_of(name) else { return Ok(None) };
    let bytes = file.bytes(&file.sections[at])?.to_vec();
    Ok(Some((format!("{SECTIONS}/{name}"), bytes)))
}
