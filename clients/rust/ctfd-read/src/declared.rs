//! The source files in which types are defined, from debug information.

use crate::dwarf::names::{Language, Prefixes};
use crate::dwarf::scopes::scopes;
use crate::dwarf::units::{Debug, Entry, Unit};
use crate::error::Result;
use crate::table::Kind;
use gimli::constants as dw;
use gimli::DwTag;
use rayon::prelude::*;
use std::collections::{BTreeSet, HashMap};

/// A type's kind and name, and the names of the files that define it.
pub type TypeFiles<'f> = (Kind, &'f [u8], Vec<&'f [u8]>);

/// For each type, by kind and name, the names of the files that define it, without folders. A type
/// that several units define may have several files.
#[derive(Clone, Debug, Default)]
pub struct SourceFiles {
    names: Vec<Vec<u8>>,
    numbers: HashMap<Vec<u8>, u32>,
    types: HashMap<(Kind, Vec<u8>), BTreeSet<u32>>,
    is_known: bool,
}

impl SourceFiles {
    /// The source files of all units.
    pub fn of(debug: &Debug<'_>) -> Result<SourceFiles> {
        let of_unit = |place: usize| -> Result<SourceFiles> {
            let mut made = SourceFiles::default();
            made.add_unit(debug, &debug.open_place(place)?)?;
            Ok(made)
        };
        let combined = |one: SourceFiles, other: SourceFiles| Ok(one.with_others(other));
        let units = (0..debug.slot_count()).into_par_iter().map(of_unit);
        let made = units.try_reduce(SourceFiles::default, combined)?;
        Ok(SourceFiles { is_known: true, ..made })
    }

    /// The files that define a type; none if this is not known.
    pub fn of_type(&self, kind: Kind, name: &[u8]) -> impl Iterator<Item = &[u8]> {
        let numbers = self.types.get(&(kind, name.to_vec())).into_iter().flatten();
        numbers.map(|&number| self.names[number as usize].as_slice())
    }

    /// Whether the files of types are not known: no debug information was read.
    pub fn is_unknown(&self) -> bool {
        !self.is_known && self.types.is_empty()
    }

    /// Each type with its files, ordered by the types' names.
    pub fn each(&self) -> Vec<TypeFiles<'_>> {
        let file = |&number: &u32| self.names[number as usize].as_slice();
        let each = self.types.iter();
        let mut made: Vec<_> = each
            .map(|((kind, name), files)| (*kind, name.as_slice(), files.iter().map(file).collect()))
            .collect();
        made.sort_unstable_by_key(|(kind, name, _): &TypeFiles<'_>| (*name, *kind as u8));
        made
    }

    /// Adds a file that defines a type.
    pub fn add(&mut self, kind: Kind, name: &[u8], file: &[u8]) {
        let number = self.number(file);
        self.types.entry((kind, name.to_vec())).or_default().insert(number);
    }

    fn number(&mut self, file: &[u8]) -> u32 {
        if let Some(&number) = self.numbers.get(file) {
            return number;
        }
        let number = self.names.len() as u32;
        self.names.push(file.to_vec());
        self.numbers.insert(file.to_vec(), number);
        number
    }

    /// Adds all types and files of `other`.
    pub fn with_others(mut self, other: SourceFiles) -> SourceFiles {
        if self.types.len() < other.types.len() {
            return other.with_others(self);
        }
        self.is_known |= other.is_known;
        let to: Vec<u32> = other.names.iter().map(|name| self.number(name)).collect();
        for (key, files) in other.types {
            let files = files.into_iter().map(|number| to[number as usize]);
            self.types.entry(key).or_default().extend(files);
        }
        self
    }

    fn add_unit<'a>(&mut self, debug: &Debug<'a>, unit: &Unit<'a>) -> Result<()> {
        let Some(language) = Language::of_unit(unit)? else { return Ok(()) };
        let prefixes = match language {
            Language::C => Prefixes::default(),
            Language::Scoped => Prefixes::of(debug, unit)?,
        };
        let lines = debug.lines(unit)?;
        let mut files = HashMap::new();
        for scope in scopes(unit, language, 1)? {
            for one in scope.entries {
                let Some(kind) = kind_of(one.tag) else { continue };
                let entry = Entry::read_with_file(unit, one.offset)?;
                let file = entry.constant(dw::DW_AT_decl_file);
                let (Some(file), false) = (file, entry.has(dw::DW_AT_declaration)) else {
                    continue;
                };
                let name = prefixes.full_name(debug, &entry)?;
                let number = match files.get(&file) {
                    Some(&number) => number,
                    None => self.number(debug.file_name(unit, lines.as_ref(), file)?),
                };
                files.insert(file, number);
                self.types.entry((kind, name.into_owned())).or_default().insert(number);
            }
        }
        Ok(())
    }
}

/// The kind of type that an entry with a tag defines.
fn kind_of(tag: DwTag) -> Option<Kind> {
    match tag {
        dw::DW_TAG_structure_type | dw::DW_TAG_class_type => Some(Kind::Struct),
        dw::DW_TAG_union_type => Some(Kind::Union),
        dw::DW_TAG_enumeration_type => Some(Kind::Enum),
        dw::DW_TAG_typedef | dw::DW_TAG_template_alias => Some(Kind::Typedef),
        _ => None,
    }
}
