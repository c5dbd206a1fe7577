//! The functions and objects of GNU's CTF, and the symbols of the file that they belong to.
//!
//! In an object file they have names. In a linked file they are in the order of a symbol table,
//! usually the dynamic one, so there are none for symbols that are not exported.

use crate::error::Result;
use crate::gnu::{Entries, SymbolTypes};
use crate::symbols::{Symbol, SymbolTable, Symbols};
use crate::table::{Kind, Name, Table};
use std::borrow::Cow;
use std::collections::{HashMap, HashSet};

/// The name of a symbol without its version, and whether it is a function.
type Key<'a> = (Name<'a>, bool);

fn key<'a>(symbol: &Symbol<'a>) -> Key<'a> {
    let end = symbol.name.iter().position(|&byte| byte == b'@').unwrap_or(symbol.name.len());
    let name = match &symbol.name {
        Cow::Borrowed(name) => Cow::Borrowed(&name[..end]),
        Cow::Owned(name) => Cow::Owned(name[..end].to_vec()),
    };
    (name, symbol.is_function)
}

/// The types of symbols, by name and address if that is known, else by name; 0 if a name has
/// several.
#[derive(Default)]
struct TypesOfSymbols<'a> {
    by_place: HashMap<(Key<'a>, u64), u32>,
    by_name: HashMap<Key<'a>, u32>,
    names: Vec<Key<'a>>,
    lost: usize,
}

impl<'a> TypesOfSymbols<'a> {
    /// Adds the functions or objects of a dictionary. Without names they are in the order of
    /// `symbols`.
    fn take<'s>(
        &mut self,
        listed: &SymbolTypes<'a>,
        symbols: impl Iterator<Item = &'s Symbol<'a>>,
        is_function: bool,
    ) where
        'a: 's,
    {
        let Some(names) = &listed.names else {
            let mut types = listed.types.iter();
            for (one, &number) in symbols.zip(types.by_ref()) {
                if number != 0 {
                    self.by_place.insert((key(one), one.address), number);
                }
            }
            self.lost += types.filter(|&&number| number != 0).count();
            return;
        };
        for (name, &number) in names.iter().zip(&listed.types).filter(|(_, &number)| number != 0) {
            let key = (name.clone(), is_function);
            match self.by_name.get_mut(&key) {
                Some(known) if *known != number => *known = 0,
                Some(_) => {}
                None => {
                    self.names.push(key.clone());
                    self.by_name.insert(key, number);
                }
            }
        }
    }

    /// The type of a symbol; 0 if it is not known.
    fn type_of(&self, table: &Table<'_>, one: &Symbol<'a>, is_only: bool) -> u32 {
        let key = key(one);
        let by_name = || if is_only { self.by_name.get(&key).copied() } else { None };
        let by_place = self.by_place.get(&(key.clone(), one.address)).copied();
        let number = by_place.or_else(by_name).unwrap_or(0);
        let is_function = number != 0 && table.get(number).kind == Kind::Function;
        if is_function == one.is_function {
            number
        } else {
            0
        }
    }

    /// Each name with its type, objects first.
    fn names_with_types(&self, table: &Table<'_>) -> Vec<(Symbol<'a>, u32)> {
        let symbol = |(name, is_function): &Key<'a>| {
            let one = Symbol { name: name.clone(), address: 0, is_function: *is_function };
            let number = self.type_of(table, &one, true);
            (one, number)
        };
        let mut found: Vec<_> = self.names.iter().map(symbol).collect();
        found.sort_by_key(|(one, _)| one.is_function); // a stable sort
        found
    }
}

/// The symbol tables of a file.
pub struct FileSymbols<'a> {
    /// `.symtab`.
    pub symtab: Symbols<'a>,
    /// `.dynsym`.
    pub dynsym: Symbols<'a>,
}

impl<'a> FileSymbols<'a> {
    /// The symbols of one of the tables.
    pub fn of(&self, table: SymbolTable) -> &Symbols<'a> {
        if table == SymbolTable::Dynsym {
            &self.dynsym
        } else {
            &self.symtab
        }
    }
}

/// Stores the types of symbols in the table. Returns the symbols: those of a symbol table of the
/// file or, without a file, those that the section names.
pub fn describe<'a>(
    table: &mut Table<'a>,
    found: &[Entries<'a>],
    file: Option<&FileSymbols<'a>>,
    wanted: SymbolTable,
) -> Result<Symbols<'a>> {
    let mut known = TypesOfSymbols::default();
    let none = Symbols::default();
    for one in found {
        let order = if one.is_dynamic { SymbolTable::Dynsym } else { SymbolTable::Symtab };
        let symbols = file.map_or(&none, |file| file.of(order));
        known.take(&one.objects, symbols.objects(), false);
        known.take(&one.functions, symbols.functions(), true);
    }
    let pairs = match file {
        None => {
            known.names_with_types(table).into_iter().filter(|&(_, number)| number != 0).collect()
        }
        Some(file) => of_file(&known, table, file.of(wanted)),
    };
    let of_kind = |is_function: bool| {
        pairs
            .iter()
            .filter(move |(one, _)| one.is_function == is_function)
            .map(|&(_, number)| number)
    };
    table.objects = of_kind(false).collect();
    table.functions = of_kind(true).map(|n| (n != 0).then(|| table.get(n).clone())).collect();
    let mut names: HashSet<Key<'a>> = known.by_name.keys().cloned().collect();
    names.extend(known.by_place.keys().map(|(key, _)| key.clone()));
    if file.is_some() {
        // What is only declared, or was optimized away, has no symbol.
        let symbols: HashSet<Key<'a>> = pairs.iter().map(|(one, _)| key(one)).collect();
        names.retain(|name| symbols.contains(name));
    }
    for (one, _) in pairs.iter().filter(|&&(_, number)| number != 0) {
        names.remove(&key(one));
    }
    tell_losses(table, known.lost, names.len(), file.is_some(), wanted);
    let listed = pairs.into_iter().map(|(one, _)| one).collect();
    Ok(Symbols { table: if file.is_some() { wanted } else { SymbolTable::Names }, listed })
}

/// Each symbol of a table with its type. The name alone identifies a symbol only if no other has
/// it.
fn of_file<'a>(
    known: &TypesOfSymbols<'a>,
    table: &Table<'_>,
    symbols: &Symbols<'a>,
) -> Vec<(Symbol<'a>, u32)> {
    let mut counts: HashMap<Key<'a>, usize> = HashMap::new();
    for one in &symbols.listed {
        *counts.entry(key(one)).or_default() += 1;
    }
    let pair = |one: &Symbol<'a>| (one.clone(), known.type_of(table, one, counts[&key(one)] == 1));
    symbols.listed.iter().map(pair).collect()
}

/// Records the losses: symbols without a symbol table, and names that several symbols have.
fn tell_losses(
    table: &mut Table<'_>,
    lost: usize,
    shared: usize,
    has_file: bool,
    wanted: SymbolTable,
) {
    if lost != 0 {
        let why = if has_file { "is not there" } else { "the section alone does not have" };
        table.losses.push(format!(
            "{lost} functions and objects of its GNU CTF are in the order of a symbol table that \
             {why}: they are left out"
        ));
    }
    if shared != 0 {
        let place = if has_file { wanted.word() } else { "it" };
        table.losses.push(format!(
            "{shared} functions and objects of its GNU CTF have a name that several have in \
             {place}: they are left out"
        ));
    }
}
