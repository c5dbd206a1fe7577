//! The symbols of a program: its functions and objects, and its tables in the form that the library
//! takes.

use super::{Debuggee, Section, ENTRY, MOST_TIMES};
use crate::bytes::Names;
use crate::error::{refuse, Result};
use ctfd::Model;
use object::elf::{self, FileHeader32, FileHeader64};
use object::read::elf::{FileHeader, Sym as _};
use object::{pod, Endianness};
use std::borrow::Cow;

/// Names of marks that a linker adds: dictionaries have no entries for them.
const MARKS: [&[u8]; 2] = [b"_START_", b"_END_"];

/// A function or object of a program.
#[derive(Clone, Copy, Debug)]
pub struct ProgramSymbol<'a> {
    /// The number of its symbol in the table.
    pub number: u32,
    /// Its name, without a version.
    pub name: &'a [u8],
    /// Its address; in an object file, the offset in its section.
    pub address: u64,
    /// Its size in bytes.
    pub size: u64,
    /// Whether it is a function.
    pub is_function: bool,
    /// Whether other source files can refer to it.
    pub is_global: bool,
    /// The source file of a local symbol, if the table names it; else empty.
    pub source: &'a [u8],
    /// The number of its section.
    pub section: u16,
}

/// An entry of a symbol table, of 32 or 64 bits.
struct Entry {
    name: u32,
    address: u64,
    size: u64,
    kind: u8,
    bind: u8,
    info: u8,
    other: u8,
    section: u16,
}

impl<'a> Debuggee<'a> {
    /// The size of an entry of a symbol table, in bytes.
    pub fn entry_size(&self) -> usize {
        match self.model {
            Model::Lp64 => size_of::<elf::Sym64<Endianness>>(),
            Model::Ilp32 => size_of::<elf::Sym32<Endianness>>(),
        }
    }

    fn entries(&self, table: &Section<'_>) -> Result<Vec<Entry>> {
        let bytes = self.bytes(table)?;
        match self.model {
            Model::Lp64 => entries_of::<FileHeader64<Endianness>>(bytes),
            Model::Ilp32 => entries_of::<FileHeader32<Endianness>>(bytes),
        }
    }

    /// A symbol table in the form that the library takes: that of ELF64.
    pub fn wide_table(&self, table: &Section<'_>) -> Result<Cow<'a, [u8]>> {
        if self.model == Model::Lp64 {
            return Ok(Cow::Borrowed(self.bytes(table)?));
        }
        let entries = self.entries(table)?;
        let mut made = Vec::with_capacity(ENTRY * entries.len());
        for one in entries {
            made.extend(one.name.to_le_bytes());
            made.extend([one.info, one.other]);
            made.extend(one.section.to_le_bytes());
            made.extend(one.address.to_le_bytes());
            made.extend(one.size.to_le_bytes());
        }
        Ok(Cow::Owned(made))
    }

    /// The functions and objects of a table for which a dictionary can have types, in the table's
    /// order.
    pub fn symbols(&self, table: &Section<'_>) -> Result<Vec<ProgramSymbol<'a>>> {
        let names = Names(self.strings(table)?);
        symbols_of(&self.entries(table)?, names).map_err(|error| error.of(self.path()))
    }
}

/// The functions and objects of a table that was passed along with a dictionary, in the form of
/// ELF64.
pub fn listed_symbols<'a>(table: &[u8], strings: &'a [u8]) -> Result<Vec<ProgramSymbol<'a>>> {
    symbols_of(&entries_of::<FileHeader64<Endianness>>(table)?, Names(strings))
}

fn symbols_of<'a>(entries: &[Entry], names: Names<'a>) -> Result<Vec<ProgramSymbol<'a>>> {
    let mut left = MOST_TIMES * (names.0.len() + ENTRY * entries.len()) as u64;
    let mut listed = Vec::new();
    let mut source: &[u8] = &[];
    for (number, one) in entries.iter().enumerate() {
        let is_typed = matches!(one.kind, elf::STT_OBJECT | elf::STT_FUNC);
        if !is_typed && one.kind != elf::STT_FILE {
            continue;
        }
        let name = names.at(one.name.into()).unwrap_or_default();
        left = left.saturating_sub(name.len() as u64);
        if left == 0 {
            return refuse("the names of its symbols are damaged: many are one");
        }
        if one.kind == elf::STT_FILE {
            source = name;
        } else if one.is_described(name) {
            listed.push(one.symbol(number as u32, name, source));
        }
    }
    Ok(listed)
}

impl Entry {
    /// Whether a dictionary has an entry for the symbol.
    fn is_described(&self, name: &[u8]) -> bool {
        let is_nothing =
            self.kind == elf::STT_OBJECT && self.section == elf::SHN_ABS && self.address == 0;
        let is_there = self.section != elf::SHN_UNDEF && self.name != 0 && !is_nothing;
        is_there && !name.is_empty() && !MARKS.contains(&name)
    }

    fn symbol<'a>(&self, number: u32, name: &'a [u8], source: &'a [u8]) -> ProgramSymbol<'a> {
        let is_local = self.bind == elf::STB_LOCAL;
        // A symbol with external linkage in C may be local in a linked file.
        let is_hidden = matches!(self.other & 3, elf::STV_INTERNAL | elf::STV_HIDDEN);
        ProgramSymbol {
            number,
            name: name.split(|&byte| byte == b'@').next().unwrap_or_default(),
            address: self.address,
            size: self.size,
            is_function: self.kind == elf::STT_FUNC,
            is_global: !is_local || is_hidden,
            source: if is_local { source } else { &[] },
            section: self.section,
        }
    }
}

/// The entries of a table that are complete.
fn entries_of<F: FileHeader<Endian = Endianness>>(bytes: &[u8]) -> Result<Vec<Entry>> {
    let endian = Endianness::Little;
    let count = bytes.len() / size_of::<F::Sym>();
    let Ok((listed, _)) = pod::slice_from_bytes::<F::Sym>(bytes, count) else {
        return refuse("its symbols are damaged");
    };
    let entry = |one: &F::Sym| Entry {
        name: one.st_name(endian),
        address: one.st_value(endian).into(),
        size: one.st_size(endian).into(),
        kind: one.st_type(),
        bind: one.st_bind(),
        info: one.st_info(),
        other: one.st_other(),
        section: one.st_shndx(endian),
    };
    Ok(listed.iter().map(entry).collect())
}
