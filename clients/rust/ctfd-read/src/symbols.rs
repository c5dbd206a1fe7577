//! The symbols for which a dictionary can have types, in the order of its entries.

use flate2::Crc;
use std::borrow::Cow;

/// The byte for an object in the checksum, as ELF's `STT_OBJECT`.
const OBJECT: u8 = 1;
/// The byte for a function.
const FUNCTION: u8 = 2;
/// The size of an ELF64 symbol, which the library takes, in bytes.
const ENTRY: usize = 24;

/// The symbol table that a dictionary's entries belong to.
#[derive(Clone, Copy, Debug, Default, PartialEq, Eq)]
pub enum SymbolTable {
    /// The symbols of `.symtab`.
    #[default]
    Symtab,
    /// The symbols of `.dynsym`, which `strip` keeps.
    Dynsym,
    /// Symbols whose names the dictionary itself has.
    Names,
}

impl SymbolTable {
    /// The word for the table in a dictionary's label. For a section, it is the section's name.
    pub fn word(self) -> &'static str {
        match self {
            SymbolTable::Symtab => ".symtab",
            SymbolTable::Dynsym => ".dynsym",
            SymbolTable::Names => "names",
        }
    }

    /// The table with a word.
    pub fn of_word(word: &str) -> Option<SymbolTable> {
        [SymbolTable::Symtab, SymbolTable::Dynsym, SymbolTable::Names]
            .into_iter()
            .find(|table| table.word() == word)
    }
}

/// A symbol. Debug information for it is found by name and address.
#[derive(Clone, Debug, PartialEq, Eq)]
pub struct Symbol<'a> {
    /// Its name.
    pub name: Cow<'a, [u8]>,
    /// Its address in the file.
    pub address: u64,
    /// Whether it is a function; else it is an object.
    pub is_function: bool,
}

/// The symbols that a dictionary's entries belong to: those of a table of its file, or symbols that
/// no file has.
#[derive(Clone, Debug, Default)]
pub struct Symbols<'a> {
    /// The table that lists them.
    pub table: SymbolTable,
    /// All symbols, in the table's order.
    pub listed: Vec<Symbol<'a>>,
}

/// The identity of the symbols of a table: how many there are, and a checksum.
#[derive(Clone, Copy, Debug, PartialEq, Eq)]
pub struct Identity {
    /// The table that lists them.
    pub table: SymbolTable,
    /// The number of objects.
    pub objects: usize,
    /// The number of functions.
    pub functions: usize,
    /// The CRC-32 of all symbols in order, each as a byte for its kind, its name and a zero byte.
    pub checksum: u32,
}

impl<'a> Symbols<'a> {
    /// The objects.
    pub fn objects(&self) -> impl Iterator<Item = &Symbol<'a>> {
        self.listed.iter().filter(|one| !one.is_function)
    }

    /// The functions.
    pub fn functions(&self) -> impl Iterator<Item = &Symbol<'a>> {
        self.listed.iter().filter(|one| one.is_function)
    }

    /// The identity of these symbols.
    pub fn identity(&self) -> Identity {
        let mut crc = Crc::new();
        for one in &self.listed {
            crc.update(&[if one.is_function { FUNCTION } else { OBJECT }]);
            crc.update(&one.name);
            crc.update(&[0]);
        }
        let functions = self.functions().count();
        Identity {
            table: self.table,
            objects: self.listed.len() - functions,
            functions,
            checksum: crc.sum(),
        }
    }

    /// An ELF64 symbol table made for the symbols, and its strings.
    pub fn made_table(&self) -> (Vec<u8>, Vec<u8>) {
        let (mut table, mut names) = (vec![0; ENTRY], vec![0]);
        for one in &self.listed {
            table.extend((names.len() as u32).to_le_bytes());
            table.extend([if one.is_function { FUNCTION } else { OBJECT }, 0]);
            table.extend(1u16.to_le_bytes());
            table.extend(one.address.to_le_bytes());
            table.extend([0; 8]);
            names.extend(&*one.name);
            names.push(0);
        }
        (table, names)
    }
}

#[cfg(test)]
mod tests {
    use super::*;

    fn symbol(name: &str, is_function: bool) -> Symbol<'_> {
        Symbol { name: Cow::Borrowed(name.as_bytes()), address: 0x40, is_function }
    }

    fn symbols<'a>(listed: &[Symbol<'a>]) -> Symbols<'a> {
        Symbols { table: SymbolTable::Symtab, listed: listed.to_vec() }
    }

    #[test]
    fn checksums_go_by_kinds_names_and_order() {
        let listed = [symbol("main", true), symbol("count", false), symbol("", false)];
        let whole = symbols(&listed).identity();
        // zlib.crc32(b"\2main\0\1count\0\1\0")
        assert_eq!((whole.objects, whole.functions, whole.checksum), (2, 1, 0x9404_79bb));
        let mut changed = [listed.clone(), listed.clone(), listed.clone()];
        changed[0].reverse();
        changed[1][0].name = Cow::Borrowed(b"other");
        changed[2][1].is_function = true;
        for other in changed {
            assert_ne!(symbols(&other).identity(), whole);
        }
        assert_ne!(symbols(&listed[..2]).identity(), whole);
        assert_ne!(Symbols { table: SymbolTable::Dynsym, ..symbols(&listed) }.identity(), whole);
    }

    #[test]
    fn checksums_do_not_go_by_addresses() {
        let (mut one, other) = (symbol("main", true), symbol("main", true));
        one.address = 0x80;
        assert_eq!(symbols(&[one]).identity(), symbols(&[other]).identity());
    }

    #[test]
    fn made_tables_are_of_elf() {
        let (table, names) = symbols(&[symbol("f", true), symbol("", false)]).made_table();
        assert_eq!(names, b"\0f\0\0");
        assert_eq!(table.len(), 3 * ENTRY);
        assert!(table[..ENTRY].iter().all(|&byte| byte == 0));
        assert_eq!(table[ENTRY..][..8], [1, 0, 0, 0, FUNCTION, 0, 1, 0]);
        assert_eq!(table[ENTRY..][8..16], 0x40u64.to_le_bytes());
        assert_eq!(table[2 * ENTRY..][..8], [3, 0, 0, 0, OBJECT, 0, 1, 0]);
    }
}
