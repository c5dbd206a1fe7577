//! The functions and objects of a program, with their names and addresses.

use crate::bytes::Names;
use crate::elf::debug_file;
use crate::error::Result;
use crate::image::{Data, Image};
use object::elf::{FileHeader32, FileHeader64};
use object::elf::{SHN_ABS, SHN_UNDEF, SHT_NOBITS, STB_LOCAL, STT_FUNC, STT_OBJECT};
use object::read::elf::{FileHeader, SectionHeader, Sym as _};
use object::{Endianness, Object as _, SectionIndex};

/// The names of symbol tables. The first that a file has is used.
const TABLES: [&str; 2] = [".symtab", ".dynsym"];
/// Names of marks that a linker adds, which are no objects.
const MARKS: [&[u8]; 2] = [b"_START_", b"_END_"];
/// The suffixes that compilers append to the name of a whole copy of a function.
const COPIES: [&[u8]; 3] = [b".isra", b".constprop", b".lto_priv"];
/// Names may overlap: those that are read may have this many times the bytes of their table and its
/// entries.
const MOST_TIMES: u64 = 64;

/// A function or an object of a program.
#[derive(Clone, Copy, Debug, PartialEq, Eq)]
pub struct SymbolPlace<'a> {
    /// Its name, without a version.
    pub name: &'a [u8],
    /// Its address, as the file has it.
    pub address: u64,
    /// Its size in bytes.
    pub size: u64,
    /// Whether it is a function.
    pub is_function: bool,
    /// Whether other files see it.
    pub is_global: bool,
}

impl<'a> SymbolPlace<'a> {
    /// Its name in C; for a copy of a function, that of the function.
    pub fn written_name(&self) -> &'a [u8] {
        match self.is_function {
            true => without_copy(self.name),
            false => self.name,
        }
    }
}

/// The name of a function without the suffixes of copies, such as `.isra.0`.
fn without_copy(name: &[u8]) -> &[u8] {
    let digits = name.iter().rev().take_while(|byte| byte.is_ascii_digit()).count();
    let front = &name[..name.len() - digits];
    let whole = front
        .strip_suffix(b".")
        .and_then(|front| COPIES.iter().find_map(|mark| front.strip_suffix(*mark)));
    match whole {
        Some(whole) if digits != 0 => without_copy(whole),
        _ => name,
    }
}

/// The debug file of a program whose `.symtab` was stripped, if it is installed. It has the
/// program's former symbols.
pub fn symbols_before_strip(image: &Image) -> Option<Image> {
    let has_table = image.elf().ok()?.section_by_name(TABLES[0]).is_some();
    (!has_table).then(|| debug_file(image, &[]).ok()?.debug).flatten()
}

/// The functions and objects of a file, in the order of its symbol table, without those whose names
/// are past the end of the strings.
pub fn symbol_places(image: &Image) -> Result<Vec<SymbolPlace<'_>>> {
    match image.data_is_64()? {
        true => places_of::<FileHeader64<Endianness>>(image.data()),
        false => places_of::<FileHeader32<Endianness>>(image.data()),
    }
}

fn places_of<F: FileHeader<Endian = Endianness>>(data: Data<'_>) -> Result<Vec<SymbolPlace<'_>>> {
    let header = F::parse(data)?;
    let endian = header.endian()?;
    let sections = header.sections(endian, data)?;
    let of_name = |name: &str| sections.section_by_name(endian, name.as_bytes());
    let has_bytes = |section: &&F::SectionHeader| section.sh_type(endian) != SHT_NOBITS;
    let table = TABLES.iter().find_map(|name| Some(of_name(name)?.1)).filter(has_bytes);
    let Some(table) = table else { return Ok(Vec::new()) };
    let strings = sections.section(SectionIndex(table.sh_link(endian) as usize))?;
    let names = Names(strings.data(endian, data)?);
    let entries: &[F::Sym] = table.data_as_array(endian, data)?;
    let mut left = MOST_TIMES * (names.0.len() + 24 * entries.len()) as u64;
    let place = |one: &F::Sym| {
        let (kind, section) = (one.st_type(), one.st_shndx(endian));
        let is_function = kind == STT_FUNC;
        if !is_function && kind != STT_OBJECT || section == SHN_UNDEF || left == 0 {
            return None;
        }
        let name = names.at(one.st_name(endian).into())?;
        left = left.saturating_sub(name.len() as u64);
        let address = one.st_value(endian).into();
        let is_nothing = !is_function && section == SHN_ABS && address == 0;
        if name.is_empty() || MARKS.contains(&name) || is_nothing {
            return None;
        }
        let name = name.split(|&byte| byte == b'@').next().unwrap_or(name);
        let is_hidden = matches!(one.st_visibility(), 1 | 2); // external in C, local once linked
        let is_global = one.st_bind() != STB_LOCAL || is_hidden;
        Some(SymbolPlace {
            name,
            address,
            size: one.st_size(endian).into(),
            is_function,
            is_global,
        })
    };
    Ok(entries.iter().filter_map(place).collect())
}

#[cfg(test)]
mod tests {
    use super::without_copy;

    #[test]
    fn copies_of_functions_have_its_name() {
        for (name, whole) in [
            ("f", "f"),
            ("f.isra.0", "f"),
            ("f.constprop.1.isra.0", "f"),
            ("f.part.0", "f.part.0"),
            ("f.cold", "f.cold"),
            ("f.isra.", "f.isra."),
            ("count.1", "count.1"),
        ] {
            assert_eq!(without_copy(name.as_bytes()), whole.as_bytes(), "{name}");
        }
    }
}
