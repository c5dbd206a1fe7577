//! Baselines: the parts of a library that are needed to compare it with a later build, which are
//! its exports and the types in its debug information.

use crate::dwarf::sections::Sections;
use crate::elf;
use crate::error::{refuse, Result};
use crate::image::Image;
use object::{Object as _, ObjectSection as _, SectionKind};
use std::path::PathBuf;

/// The sections with a file's exports and its build-id.
pub const OF_EXPORTS: [&str; 7] = [
    ".dynsym",
    ".dynstr",
    ".dynamic",
    ".gnu.version",
    ".gnu.version_d",
    ".gnu.version_r",
    ".note.gnu.build-id",
];
/// The sections of debug information on types and symbols.
const OF_TYPES: [&str; 10] = [
    ".debug_info",
    ".debug_types",
    ".debug_abbrev",
    ".debug_str",
    ".debug_str_offsets",
    ".debug_line",
    ".debug_line_str",
    ".debug_addr",
    ".debug_ranges",
    ".debug_rnglists",
];

/// The name and the contents of a section.
pub type Section = (&'static str, Vec<u8>);

/// The debug information of a library, by sections, from the library or its debug file. `None` if a
/// file is to be kept as it is: it has no exports, or no debug information. Debug information that
/// continues in other files is refused.
pub fn debug_sections(image: &Image, folders: &[PathBuf]) -> Result<Option<Vec<Section>>> {
    if !image.is_elf() || image.elf()?.section_by_name(".dynsym").is_none() {
        return Ok(None);
    }
    let files = elf::debug_file(image, folders)?;
    let debug = files.debug.as_ref().unwrap_or(image);
    let file = debug.elf()?;
    if !elf::has_debug(&file) {
        return Ok(None);
    }
    let loaded = Sections::load(debug, folders, false)?;
    if loaded.goes_on() {
        return refuse(format!(
            "{}: its debug information goes on in other files (.dwo files, or one of dwz's), which \
             a baseline does not have: compile it without -gsplit-dwarf, and leave dwz out",
            debug.path().display()
        ));
    }
    let mut made = Vec::new();
    for name in OF_TYPES {
        let bytes = elf::section(debug, &file, name)?.into_owned();
        made.extend((!bytes.is_empty()).then_some((name, bytes)));
    }
    Ok(Some(made))
}

/// Whether an ELF file has code; a baseline has none.
pub fn has_code(image: &Image) -> Result<bool> {
    let file = image.elf()?;
    let mut sections = file.sections();
    Ok(sections.any(|one| one.kind() == SectionKind::Text && one.file_range().is_some()))
}
