//! The types and symbols of one unit, and those parts of units read in sequence that need not be
//! read again.
//!
//! A unit may refer to types in other units: those that dwz moved out of it, and those of functions
//! that were optimized at link time. Such entries are read for the first unit that refers to them.

use crate::descriptions::{Statement, Statements};
use crate::join::NumberHasher;
use crate::table::Record;
use std::collections::HashMap;
use std::hash::BuildHasherDefault;

/// The types and symbols of one unit.
#[derive(Default)]
pub(super) struct UnitTypes<'a> {
    pub records: Vec<Record<'a>>,
    /// For each record of an entry that an earlier unit read, its number here and its number among
    /// the joined types.
    pub joined: Vec<(u32, u32)>,
    /// The keys of entries in other units that this one read, and its numbers for them.
    pub shared: Vec<(u64, u32)>,
    pub roots: Vec<u32>,
    pub told: Vec<Statement>,
    pub losses: Vec<Loss>,
}

/// A construct that CTF cannot represent.
pub(super) struct Loss {
    /// The key of the entry with the construct.
    pub entry: u64,
    /// The start of the unit for which the entry was read.
    pub unit: u64,
    pub line: String,
}

impl<'a> UnitTypes<'a> {
    /// Maps the type numbers of roots and symbols. The records are left as they are.
    pub fn with_numbers(mut self, to: &[u32]) -> UnitTypes<'a> {
        self.roots.iter_mut().for_each(|n| *n = to[*n as usize]);
        self.told.iter_mut().for_each(|one| one.said.renumber(|n| to[n as usize]));
        self
    }
}

/// The roots, symbols and losses of several joined units, without duplicates.
#[derive(Default)]
pub(super) struct JoinedUnits {
    roots: Numbers,
    statements: Statements,
    losses: Vec<Loss>,
}

impl JoinedUnits {
    /// Adds those of a unit, which has the numbers of joined types.
    pub fn extend(&mut self, unit: UnitTypes<'_>) {
        self.roots.extend(&unit.roots);
        self.statements.extend(unit.told);
        self.losses.extend(unit.losses);
    }

    /// All of it, with its numbers mapped by `to`.
    pub fn with_numbers<'a>(self, to: &[u32]) -> UnitTypes<'a> {
        let (roots, told, losses) = (self.roots.listed, self.statements.listed, self.losses);
        UnitTypes { roots, told, losses, ..UnitTypes::default() }.with_numbers(to)
    }
}

/// Numbers of types, without duplicates.
#[derive(Default)]
pub(super) struct Numbers {
    pub listed: Vec<u32>,
    is_listed: Vec<bool>,
}

impl Numbers {
    /// Adds those numbers that are new.
    pub fn extend(&mut self, numbers: &[u32]) {
        for &number in numbers {
            let place = number as usize;
            if self.is_listed.len() <= place {
                self.is_listed.resize(place + 1, false);
            }
            if !std::mem::replace(&mut self.is_listed[place], true) {
                self.listed.push(number);
            }
        }
    }
}

/// The entries that were read for another unit than their own: their keys, each with the number of
/// its type in the joined table.
#[derive(Default)]
pub(super) struct JoinedEntries {
    numbers: HashMap<u64, u32, BuildHasherDefault<NumberHasher>>,
}

impl JoinedEntries {
    pub fn number(&self, key: u64) -> Option<u32> {
        if self.numbers.is_empty() {
            return None;
        }
        self.numbers.get(&key).copied()
    }

    /// Adds the entries of other units that a unit read; `to` maps the unit's numbers.
    pub fn extend(&mut self, shared: &[(u64, u32)], to: &[u32]) {
        self.numbers.extend(shared.iter().map(|&(key, number)| (key, to[number as usize])));
    }
}

/// The losses of some debug information. Each is reported once, however many units refer to its
/// entry.
#[derive(Default)]
pub(super) struct Losses {
    pub lines: Vec<String>,
    /// For each entry the first unit for which it was read.
    units: HashMap<u64, u64, BuildHasherDefault<NumberHasher>>,
}

impl Losses {
    /// Adds the losses of some units.
    pub fn extend(&mut self, losses: Vec<Loss>) {
        let units = &mut self.units;
        let is_of_first = |loss: &Loss| *units.entry(loss.entry).or_insert(loss.unit) == loss.unit;
        self.lines.extend(losses.into_iter().filter(is_of_first).map(|loss| loss.line));
    }

    /// Prepares for the next file, whose entries have their own keys.
    pub fn end_file(&mut self) {
        self.units.clear();
    }
}
