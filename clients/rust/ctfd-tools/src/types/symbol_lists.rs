//! The functions and objects of a program that have types in its dictionary.

use super::catalog::{Catalog, SymbolAnswer};
use ctfd_read::opening::{LibraryInput, Origin};
use std::collections::HashSet;

/// The size of a symbol in ELF64, and of its longest name, in bytes.
const ENTRY: usize = 24;
const LONGEST_NAME: usize = 4096;
const OBJECT: u8 = 1;
const FUNCTION: u8 = 2;

/// Whether symbols of this origin have types.
pub fn has_symbol_types(origin: Origin) -> bool {
    matches!(origin, Origin::Named | Origin::Linked | Origin::Guessed | Origin::Given)
}

/// A symbol with its type.
pub struct SymbolWithType {
    /// Its name; bytes that are not UTF-8 are escaped.
    pub name: Vec<u8>,
    /// Its type.
    pub answer: SymbolAnswer,
}

/// The symbols that a dictionary of a file was given.
#[derive(Clone, Copy)]
pub struct SymbolList<'h> {
    /// The index of the dictionary.
    pub place: usize,
    /// The symbol table, in the format of ELF64.
    pub table: &'h [u8],
    /// The strings of the table.
    pub strings: &'h [u8],
}

/// The symbols of each dictionary that was given some.
pub fn symbol_lists<'h>(handed: &'h LibraryInput<'_>) -> Vec<SymbolList<'h>> {
    let each = std::iter::once(handed).chain(&handed.children).enumerate();
    let list = |(place, one): (usize, &'h LibraryInput<'_>)| {
        let (table, strings) = (one.symbols.as_deref()?, one.strings.as_deref()?);
        Some(SymbolList { place, table, strings })
    };
    each.filter_map(list).collect()
}

/// The symbols with types, without those of repeated names.
pub fn symbols_with_types(catalog: &Catalog<'_>, handed: &LibraryInput<'_>) -> Vec<SymbolWithType> {
    if !has_symbol_types(handed.origin) {
        return Vec::new();
    }
    let mut known = HashSet::new();
    let mut made = Vec::new();
    for list in symbol_lists(handed) {
        for (number, entry) in list.table.chunks_exact(ENTRY).enumerate() {
            let at = u32::from_le_bytes([entry[0], entry[1], entry[2], entry[3]]);
            let kind = entry[4] & 15;
            let is_nowhere = entry[6..8] == [0, 0];
            if at == 0 || is_nowhere || !matches!(kind, OBJECT | FUNCTION) {
                continue;
            }
            let Some(answer) = catalog.symbol_answer_in(list.place, number as u32) else {
                continue;
            };
            let name = name_at(list.strings, at as usize);
            if is_of(&answer, kind) && known.insert(name.clone()) {
                made.push(SymbolWithType { name, answer });
            }
        }
    }
    made
}

fn is_of(answer: &SymbolAnswer, kind: u8) -> bool {
    match answer {
        SymbolAnswer::Function(_) => kind == FUNCTION,
        SymbolAnswer::Object(_) => kind == OBJECT,
    }
}

/// A name in the strings of a table; bytes that are not UTF-8 are escaped.
fn name_at(strings: &[u8], at: usize) -> Vec<u8> {
    let rest = strings.get(at..).unwrap_or_default();
    let rest = &rest[..rest.len().min(LONGEST_NAME)];
    let end = rest.iter().position(|&byte| byte == 0).unwrap_or(rest.len());
    let mut made = Vec::with_capacity(end);
    for chunk in rest[..end].utf8_chunks() {
        made.extend(chunk.valid().bytes());
        chunk.invalid().iter().for_each(|byte| made.extend(format!("\\x{byte:02x}").bytes()));
    }
    made
}
