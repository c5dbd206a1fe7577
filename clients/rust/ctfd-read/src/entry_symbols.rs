//! The symbols of a program that the entries of a dictionary belong to.

use crate::ctf::Sections;
use crate::elf;
use crate::error::Result;
use crate::image::Image;
use crate::labels;
use crate::symbols::{Identity, Symbols};

/// Whether the symbols of a file are those that a dictionary was written for.
#[derive(Clone, Copy, Debug, PartialEq, Eq)]
pub enum Likeness {
    /// They are.
    Same,
    /// The file has other symbols.
    Others,
    /// The file has no such symbol table.
    Absent,
}

/// The symbols that a dictionary was written for; `None` if it does not record them.
pub fn identity_of(ctf: &[u8]) -> Option<Identity> {
    Sections::of(ctf).ok().and_then(|sections| labels::symbols(&sections))
}

/// The symbols with the names that the dictionary itself has; `None` unless it has all of them.
pub fn own_symbols(ctf: &[u8]) -> Option<Symbols<'_>> {
    Sections::of(ctf).ok().and_then(|sections| labels::own_symbols(&sections))
}

/// Compares the symbols of a file with those that a dictionary was written for.
pub fn likeness(image: &Image, wanted: Identity) -> Result<Likeness> {
    let found = elf::symbols_of(image, wanted.table)?;
    Ok(match found {
        None => Likeness::Absent,
        Some(found) if found.identity() == wanted => Likeness::Same,
        Some(_) => Likeness::Others,
    })
}
