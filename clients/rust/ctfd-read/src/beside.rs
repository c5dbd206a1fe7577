//! A program and a file that belongs to it: whether both are of the same build, and which symbols
//! of the program go with a dictionary.

use crate::ctf::Sections;
use crate::elf;
use crate::error::Result;
use crate::image::Image;
use crate::labels;
use crate::opening::{LibraryInput, Origin};
use crate::symbols::{Identity, SymbolTable};
use object::elf::SHF_ALLOC;
use object::{Object as _, ObjectSection as _, SectionFlags};

/// Whether two files are of the same build: their build-ids are equal, if both have one, and their
/// loaded sections are the same.
pub fn is_same_build(one: &Image, other: &Image) -> Result<bool> {
    let (first, second) = (one.elf()?, other.elf()?);
    if let (Some(first), Some(second)) = (first.build_id()?, second.build_id()?) {
        if first != second {
            return Ok(false);
        }
    }
    Ok(loaded_sections(one)? == loaded_sections(other)?)
}

/// The names, addresses and sizes of the loaded sections.
fn loaded_sections(image: &Image) -> Result<Vec<(Vec<u8>, u64, u64)>> {
    let is_loaded = |flags| match flags {
        SectionFlags::Elf { sh_flags } => sh_flags & u64::from(SHF_ALLOC) != 0,
        _ => false,
    };
    let file = image.elf()?;
    let listed = file.sections().filter(|one| is_loaded(one.flags()));
    listed.map(|one| Ok((one.name_bytes()?.to_vec(), one.address(), one.size()))).collect()
}

fn identity_of(ctf: &[u8]) -> Option<Identity> {
    Sections::of(ctf).ok().and_then(|sections| labels::symbols(&sections))
}

impl<'a> LibraryInput<'a> {
    /// Adds the symbols of a program to a dictionary that has a file of its own, if it was written
    /// for these symbols.
    pub fn add_symbols_of(&mut self, program: &'a Image) -> Result<()> {
        for child in &mut self.children {
            child.add_symbols_of(program)?;
        }
        let Some(wanted) = identity_of(&self.ctf) else { return Ok(()) };
        if self.origin == Origin::Named {
            return Ok(());
        }
        let found = elf::symbols_of(program, wanted.table)?;
        let Some(found) = found.filter(|found| found.identity() == wanted) else {
            self.origin = Origin::Differs;
            return Ok(());
        };
        self.origin = Origin::Named;
        let (symbols, strings) = match elf::symbol_lists(program, wanted.table) {
            Some((symbols, strings)) => (symbols.into(), strings.into()),
            None => {
                let (symbols, strings) = found.made_table();
                (symbols.into(), strings.into())
            }
        };
        (self.symbols, self.strings) = (Some(symbols), Some(strings));
        Ok(())
    }

    /// Adds the symbols of a 32-bit program, as a table of 64 bits, which is what the library
    /// takes.
    pub fn widen(&mut self, program: &Image) -> Result<()> {
        for child in &mut self.children {
            child.widen(program)?;
        }
        if self.origin != Origin::Unread {
            return Ok(());
        }
        let wanted = identity_of(&self.ctf);
        let table = wanted.map_or(SymbolTable::Symtab, |wanted| wanted.table);
        if let Some(found) = elf::symbols_of(program, table)? {
            let (symbols, strings) = found.made_table();
            (self.symbols, self.strings) = (Some(symbols.into()), Some(strings.into()));
            self.origin = if wanted.is_some() { Origin::Named } else { Origin::Guessed };
        }
        Ok(())
    }

    /// Leaves out symbols that were guessed, and that do not fit.
    pub fn without_guess(&mut self) {
        self.symbols = None;
        self.origin = Origin::Refused;
    }
}
