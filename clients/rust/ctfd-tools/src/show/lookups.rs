//! Looks up names of functions, variables, enumerators and types, in one file after the other.

use super::file_types::SymbolEntry;
use super::modules::{Definition, Module};
use super::operand::Operand;
use super::target::{Home, Target};
use super::value_type::{basic_of, Basic, Signature, ValueType};
use crate::types::catalog::{Catalog, SymbolAnswer};
use crate::types::lookup;
use crate::types::text::{normal, printable};
use ctfd::Kind;
use ctfd_read::error::{refuse, Error, Result};
use ctfd_read::nearest::suggestion;
use std::time::{Duration, Instant};

/// How long libraries are converted, one after the other, in search of a type's name.
const PATIENCE: Duration = Duration::from_secs(5);

impl Target<'_> {
    /// The function, variable or enumerator with a name; its type is from the first file that has
    /// one. The address of a global symbol is from the first file that defines it, since all files
    /// use that one.
    pub fn symbol(&self, name: &[u8]) -> Result<Operand> {
        let (mut refused, mut first) = (None, None);
        for (home, one) in self.homes.iter().enumerate() {
            let Some(module) = one.source.module else { continue };
            let definition = module.definition(name);
            if one.source.named.is_none() && definition.is_none() {
                continue;
            }
            match self.symbol_in(home, module, name) {
                Ok(Some(found)) => match self.at_first_definition(found, first) {
                    Some(found) => return Ok(found),
                    None => break,
                },
                Ok(None) => {}
                Err(error) => refused = Some(error),
            }
            first = first.or(definition.filter(|one| one.is_global));
        }
        match self.modules.iter().find_map(|one| one.definition(name)) {
            Some(Definition { address, .. }) => Ok(Operand::Untyped {
                name: name.to_vec(),
                address,
                why: refused.map_or("no dictionary has its type".to_owned(), |error| error.0),
            }),
            None => match self.enumerator(name) {
                Some(found) => Ok(found),
                None => Err(refused.unwrap_or_else(|| self.no_symbol(name))),
            },
        }
    }

    /// Moves a function or variable to the address of the global symbol with its name in an earlier
    /// file, if there is one. None if that symbol is something else.
    fn at_first_definition(&self, found: Operand, first: Option<Definition>) -> Option<Operand> {
        let Some(Definition { address, size, .. }) = first else { return Some(found) };
        match found {
            Operand::Memory { of, bit, .. } if self.size(&of) == Some(size) => {
                Some(Operand::Memory { of, address, bit })
            }
            Operand::Code { of, .. } => Some(Operand::Code { of, address }),
            _ => None,
        }
    }

    /// An enumerator with a name, from the first file at hand that has one.
    fn enumerator(&self, name: &[u8]) -> Option<Operand> {
        let homes = (0..self.homes.len()).filter(|&home| self.is_at_hand(home));
        homes.filter_map(|home| Some((home, self.open(home).ok()?.1))).find_map(
            |(home, catalog)| {
                let mut enums = catalog.all().filter(|&one| catalog.kind(one) == Kind::Enum);
                enums.find_map(|number| {
                    let value = catalog.values(number).iter().find(|one| one.name == name)?.value;
                    Some(Operand::of_integer(ValueType::Dictionary { home, number }, value.into()))
                })
            },
        )
    }

    /// The first symbol with a name that has a type in a file. None if no symbol has the name; an
    /// error if they have no types.
    fn symbol_in(&self, home: usize, module: &Module, name: &[u8]) -> Result<Option<Operand>> {
        let (typed, catalog) = self.open(home)?;
        let mut refused = None;
        let symbols = typed.symbols(name);
        for symbol in &symbols {
            let place = symbol.address.map(|address| address.wrapping_add(module.slide));
            // A symbol known by its name alone is found only if no other has the name.
            let only = || module.only_address(name).filter(|_| symbols.len() == 1);
            let Some(address) = place.or_else(only) else {
                refused = Some(Error(format!(
                    "several symbols of {} have this name",
                    module.path().display()
                )));
                continue;
            };
            match operand_of(home, catalog, symbol, address) {
                Ok(found) => {
                    typed.warn_of_losses();
                    return Ok(Some(found));
                }
                Err(error) => refused = Some(error),
            }
        }
        refused.map_or(Ok(None), Err)
    }

    /// Whether there is a symbol with a name.
    pub fn has_symbol(&self, name: &[u8]) -> bool {
        self.modules.iter().any(|one| one.definition(name).is_some())
            || self.homes.iter().enumerate().any(|(home, one)| {
                let typed = one.source.named.is_some().then(|| self.open(home).ok()).flatten();
                typed.is_some_and(|(typed, _)| !typed.symbols(name).is_empty())
            })
    }

    /// The error for a name that no symbol has, with the nearest name.
    fn no_symbol(&self, name: &[u8]) -> Error {
        let is_typed = (0..self.homes.len()).any(|home| {
            let source = &self.homes[home].source;
            let is_program = source.module.is_some_and(|one| one.is_program);
            (source.has_dictionary || is_program) && self.open(home).is_ok()
        });
        if !is_typed {
            return Error(format!(
                "no file of {} has CTF: name one with its types by --types, which ctfd-convert \
                 makes of the program's debug information",
                self.name()
            ));
        }
        let shown = printable(name);
        let known = self.modules.iter().flat_map(Module::names);
        let near = suggestion(&shown, known.map(|one| printable(one).into_owned()));
        Error(format!(
            "no file of {} with types has a function or variable {shown}{near}",
            self.name()
        ))
    }

    /// The type with a name, which may end in stars, from the first file that has it. C's own types
    /// are known without a file, with the program's data model.
    pub fn find(&self, name: &[u8]) -> Result<ValueType> {
        self.find_in_files(name)?.map_or_else(|| Err(self.no_type(name)), Ok)
    }

    /// Whether there is a type with a name.
    pub fn is_type(&self, name: &[u8]) -> bool {
        matches!(self.find_in_files(name), Ok(Some(_)))
    }

    fn find_in_files(&self, name: &[u8]) -> Result<Option<ValueType>> {
        let begun = Instant::now();
        let basic = self.basic(name);
        let (first, later): (Vec<usize>, Vec<usize>) =
            (0..self.homes.len()).partition(|&home| self.is_at_hand(home));
        let mut refused = None;
        for home in first.into_iter().chain(later) {
            let is_late = basic.is_some() || begun.elapsed() > PATIENCE;
            if is_late && !self.is_at_hand(home) {
                continue;
            }
            let is_needed = self.homes[home].source.has_dictionary;
            let (typed, catalog) = match self.open(home) {
                Ok(opened) => opened,
                Err(error) if is_needed => {
                    refused = refused.or(Some(error));
                    continue;
                }
                Err(_) => continue,
            };
            match lookup::find(catalog, name) {
                Ok(Some(found)) => {
                    typed.warn_of_losses();
                    return Ok(Some(with_stars(home, found)));
                }
                Ok(None) => {}
                Err(refusal) => refused = refused.or(Some(Error(refusal.to_string()))),
            }
        }
        match (basic, refused) {
            (Some(basic), _) => Ok(Some(basic.into())),
            (None, Some(error)) => Err(error),
            (None, None) => Ok(None),
        }
    }

    /// One of C's own types.
    fn basic(&self, name: &[u8]) -> Option<Basic> {
        let (base, stars) = normal(name);
        basic_of(&base, self.model).filter(|_| stars == 0)
    }

    /// Whether the types of a file are open, are the program's, or need no conversion.
    fn is_at_hand(&self, home: usize) -> bool {
        let Home { source, typed, .. } = &self.homes[home];
        let is_program = source.module.is_some_and(|one| one.is_program);
        source.has_dictionary || is_program || typed.get().is_some()
    }

    /// The error for a name that no type has, with the nearest name.
    fn no_type(&self, name: &[u8]) -> Error {
        let open = (0..self.homes.len()).filter_map(|home| self.homes[home].catalog.get());
        let known: Vec<Vec<u8>> = open.flat_map(lookup::names).collect();
        let shown = printable(name);
        let near = suggestion(&shown, known.iter().map(|one| printable(one).into_owned()));
        Error(format!("there is no type {shown}{near}"))
    }
}

/// A type that was found, with its stars.
fn with_stars(home: usize, found: lookup::FoundType) -> ValueType {
    let base = ValueType::Dictionary { home, number: found.number };
    (0..found.stars).fold(base, |of, _| of.pointer())
}

/// The operand for a symbol at an address, with its type from the dictionaries of a file.
fn operand_of(
    home: usize,
    catalog: &Catalog<'_>,
    symbol: &SymbolEntry,
    address: u64,
) -> Result<Operand> {
    let listed = |number| ValueType::Dictionary { home, number };
    let told = match symbol.place {
        0 => catalog.symbol_answer(symbol.number),
        place => catalog.symbol_answer_in(place, symbol.number),
    };
    match told {
        Some(SymbolAnswer::Function(found)) if symbol.is_function => {
            let signature = Signature {
                returns: listed(found.returns),
                arguments: found.arguments.into_iter().map(listed).collect(),
                is_open: found.is_open,
            };
            Ok(Operand::Code { of: signature.into(), address })
        }
        Some(SymbolAnswer::Object(number)) if number != 0 && !symbol.is_function => {
            Ok(Operand::Memory { of: listed(number), address, bit: 0 })
        }
        _ => refuse("no dictionary has its type"),
    }
}
