//! The functions and objects of a program, with their types from its dictionary.

use crate::types::catalog::{Catalog, Signature, SymbolAnswer};
use ctfd_read::debuggee::ProgramSymbol;
use ctfd_read::symbols::Symbols;
use gimli::write::Address;
use object::elf::SHN_COMMON;
use std::collections::{HashMap, HashSet};

/// What compilers append to the names of copies of functions.
const COPIES: [&[u8]; 6] =
    [b".isra.", b".constprop.", b".part.", b".cold", b".lto_priv.", b".localalias"];
const ALIAS: &[u8] = b".localalias";

/// A symbol with its type.
pub struct TypedSymbol<'a> {
    symbol: ProgramSymbol<'a>,
    is_relocated: bool,
    /// Its type, or a function's signature.
    pub description: SymbolAnswer,
}

impl<'a> TypedSymbol<'a> {
    pub fn name(&self) -> &'a [u8] {
        self.symbol.name
    }

    /// Its address; in an object file, the offset in its section.
    pub fn address(&self) -> u64 {
        self.symbol.address
    }

    /// Its size in bytes.
    pub fn size(&self) -> u64 {
        self.symbol.size
    }

    /// Whether it is visible in other source files.
    pub fn is_global(&self) -> bool {
        self.symbol.is_global
    }

    /// The source file of a local symbol, if known; else empty.
    pub fn source(&self) -> &'a [u8] {
        self.symbol.source
    }

    /// The number of its section in an object file; 0 in a linked program.
    pub fn section(&self) -> u16 {
        if self.is_relocated {
            self.symbol.section
        } else {
            0
        }
    }

    /// Whether its address is relocated.
    pub fn is_relocated(&self) -> bool {
        self.is_relocated
    }

    /// The address `count` bytes after its start, truncated to the size of an address.
    pub fn behind(&self, count: u64, address_size: u8) -> Address {
        match self.is_relocated {
            true => Address::Symbol { symbol: self.symbol.number as usize, addend: count as i64 },
            false => {
                let address = self.symbol.address.wrapping_add(count);
                Address::Constant(if address_size == 4 { address & 0xffff_ffff } else { address })
            }
        }
    }

    /// The signature of a function; None for an object.
    pub fn signature(&self) -> Option<&Signature> {
        match &self.description {
            SymbolAnswer::Function(signature) => Some(signature),
            SymbolAnswer::Object(_) => None,
        }
    }

    /// Whether it is another name of a function, made by a linker.
    pub fn is_alias(&self) -> bool {
        find(self.name(), ALIAS).is_some()
    }

    /// Whether it is a copy of a function, which may take its arguments differently.
    pub fn is_copy(&self) -> bool {
        COPIES.iter().any(|mark| find(self.name(), mark).is_some())
    }

    /// Its name in C: without what compilers append to the names of copies of functions, and of
    /// static variables in functions.
    pub fn declared_name(&self) -> &'a [u8] {
        without_mark(self.name())
    }
}

fn without_mark(name: &[u8]) -> &[u8] {
    let cut = |name, mark: &&[u8]| match find(name, mark) {
        Some(at) => &name[..at],
        None => name,
    };
    let name = COPIES.iter().fold(name, cut);
    let digits = name.iter().rev().take_while(|byte| byte.is_ascii_digit()).count();
    match name[..name.len() - digits].strip_suffix(b".") {
        Some(front) if digits > 0 && !front.is_empty() => front,
        _ => name,
    }
}

fn find(name: &[u8], mark: &[u8]) -> Option<usize> {
    name.windows(mark.len()).position(|part| part == mark)
}

/// The symbols with types, for a dictionary that identifies symbols by their indices in a table.
pub fn by_number<'a>(
    catalog: &Catalog<'_>,
    symbols: &[ProgramSymbol<'a>],
    is_relocated: bool,
) -> Vec<TypedSymbol<'a>> {
    let listed = symbols.iter().filter_map(|&symbol| {
        let description = description_of(catalog, symbol.number, symbol.is_function)?;
        Some(TypedSymbol { symbol, is_relocated, description })
    });
    in_order(listed.collect())
}

/// The symbols with types, for a dictionary that has the names of its symbols. Names that several
/// symbols have are left out.
pub fn by_name<'a>(
    catalog: &Catalog<'_>,
    own: &Symbols<'_>,
    symbols: &[ProgramSymbol<'a>],
    is_relocated: bool,
) -> Vec<TypedSymbol<'a>> {
    let mut only: HashMap<(&[u8], bool), Option<ProgramSymbol<'a>>> = HashMap::new();
    for &symbol in symbols {
        let one = only.entry((symbol.name, symbol.is_function));
        one.and_modify(|known| *known = None).or_insert(Some(symbol));
    }
    let listed = own.listed.iter().zip(1..).filter_map(|(one, number)| {
        let symbol = (*only.get(&(&*one.name, one.is_function))?)?;
        let description = description_of(catalog, number, one.is_function)?;
        Some(TypedSymbol { symbol, is_relocated, description })
    });
    in_order(listed.collect())
}

/// The type or signature of a symbol; None if it has none.
fn description_of(catalog: &Catalog<'_>, number: u32, is_function: bool) -> Option<SymbolAnswer> {
    let told = catalog.symbol_answer(number)?;
    let is_typed = !matches!(told, SymbolAnswer::Object(0));
    (is_typed && is_function == matches!(told, SymbolAnswer::Function(_))).then_some(told)
}

/// Objects with an address, then functions without duplicates.
fn in_order(listed: Vec<TypedSymbol<'_>>) -> Vec<TypedSymbol<'_>> {
    let (functions, mut made): (Vec<_>, Vec<_>) =
        listed.into_iter().partition(|one| one.signature().is_some());
    made.retain(|one| one.section() != SHN_COMMON);
    let mut known = HashSet::new();
    for one in functions {
        if known.insert((one.name(), one.address(), one.section())) {
            made.push(one);
        }
    }
    made
}

#[cfg(test)]
mod tests {
    use super::*;

    #[test]
    fn names_are_those_of_c() {
        for (name, declared) in [
            ("main", "main"),
            ("touch.constprop.0", "touch"),
            ("touch.isra.0.cold", "touch"),
            ("counter.3", "counter"),
            ("counter.x3", "counter.x3"),
            (".7", ".7"),
            ("touch.lto_priv.0", "touch"),
            ("a.1.2", "a.1"),
        ] {
            assert_eq!(without_mark(name.as_bytes()), declared.as_bytes(), "{name}");
        }
    }
}
