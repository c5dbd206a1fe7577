//! Functions and objects of a program: their declarations in C, and which functions use a type.

use super::catalog::{Catalog, Number, Signature, SymbolAnswer};
use super::declare;
use super::failure::{Failure, Outcome};
use super::file_types::FileTypes;
use super::json;
use super::symbol_lists::SymbolList;
use super::text::printable;
use ctfd::{Kind, Refusal};
use std::collections::BTreeSet;
use std::io::Write;

/// The size of a symbol in ELF64, and of its longest name, in bytes.
const ENTRY: usize = 24;
const LONGEST_NAME: usize = 4096;
const FUNCTION: u8 = 2;

/// The declaration in C of the first symbol with a name.
pub fn declaration_of(catalog: &Catalog<'_>, name: &[u8]) -> Result<String, Refusal> {
    Ok(match catalog.symbol(name)? {
        SymbolAnswer::Function(signature) => {
            format!("{};", declare::function(catalog, &signature, name))
        }
        SymbolAnswer::Object(of) => format!("{};", declare::object(catalog, of, name)),
    })
}

/// Prints the functions that take or return a type, or a pointer to it, sorted by name.
pub fn functions(
    whole: &FileTypes<'_, '_>,
    lists: &[SymbolList<'_>],
    name: &[u8],
    is_json: bool,
    output: &mut dyn Write,
) -> Outcome<()> {
    if lists.is_empty() {
        let path = printable(whole.path);
        return Err(Failure::Refused(format!("{path}: it has no types of functions")));
    }
    let catalog = whole.names.catalog;
    let targets = whole.names.types_of_name(name)?;
    let mut found: Vec<(&[u8], Signature)> = Vec::new();
    for list in lists {
        for (number, name) in function_symbols(list.table, list.strings) {
            if let Some(SymbolAnswer::Function(signature)) =
                catalog.symbol_answer_in(list.place, number)
            {
                found.push((name, signature));
            }
        }
    }
    found.sort_by_key(|(name, _)| *name); // a stable sort
    for (name, signature) in found {
        let leads = |&number: &Number| leads_to(catalog, &targets, number);
        let mut how = Vec::new();
        how.extend(leads(&signature.returns).then_some("returns"));
        how.extend(signature.arguments.iter().any(leads).then_some("takes"));
        if how.is_empty() {
            continue;
        }
        let declared = format!("{};", declare::function(catalog, &signature, name));
        match is_json {
            true => writeln!(output, "{}", json::function(whole, name, &how, &declared))?,
            false => writeln!(output, "{declared}")?,
        }
    }
    Ok(())
}

/// Whether a type leads to a target through pointers, arrays, typedefs and qualifiers.
fn leads_to(catalog: &Catalog<'_>, targets: &BTreeSet<Number>, mut number: Number) -> bool {
    while number != 0 {
        if targets.contains(&number) {
            return true;
        }
        let record = catalog.record(number);
        let is_passed = matches!(record.kind, Kind::Pointer | Kind::Array)
            || super::catalog::is_renaming(record.kind);
        if !is_passed {
            return false;
        }
        number = record.of;
    }
    false
}

/// The functions of a symbol table of ELF64 that have a name and a section, by their indices.
fn function_symbols<'s>(
    table: &'s [u8],
    strings: &'s [u8],
) -> impl Iterator<Item = (u32, &'s [u8])> {
    let entry = |(number, entry): (usize, &'s [u8])| {
        let name = u32::from_le_bytes(entry[..4].try_into().ok()?) as usize;
        let section = u16::from_le_bytes(entry[6..8].try_into().ok()?);
        let kind = entry[4] & 15;
        if name == 0 || section == 0 || kind != FUNCTION {
            return None;
        }
        let rest = strings.get(name..).unwrap_or_default();
        let rest = &rest[..rest.len().min(LONGEST_NAME)];
        let end = rest.iter().position(|&byte| byte == 0).unwrap_or(rest.len());
        Some((number as u32, &rest[..end]))
    };
    table.chunks_exact(ENTRY).enumerate().filter_map(entry)
}
