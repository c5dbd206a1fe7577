//! Finds the tags of a program with a single definition, before its types are read.
//!
//! A unit that only declares such a tag can be joined at once with those that define it. This
//! module compares only the size and the line of each definition; `join` compares definitions in
//! full, and gives the tags that turn out to have several.

use crate::dwarf::names::{Language, Prefixes};
use crate::dwarf::scopes::scopes;
use crate::dwarf::units::{Debug, Entry, Unit};
use crate::join::NumberHasher;
use crate::table::{Kind, Record};
use gimli::constants as dw;
use rayon::prelude::*;
use std::collections::{HashMap, HashSet};
use std::hash::{BuildHasherDefault, Hash, Hasher};

type Definitions = HashMap<u64, Definition, BuildHasherDefault<NumberHasher>>;

/// The size and the line of a definition.
type Definition = (i128, i128);

/// The mark of a tag whose definitions differ.
const SEVERAL: Definition = (-1, -1);

/// The tags with a single definition, by their keys.
#[derive(Default)]
pub struct SingleTags {
    keys: HashSet<u64, BuildHasherDefault<NumberHasher>>,
}

impl SingleTags {
    /// The tags of some files together. Units that can't be read are skipped: reading their types
    /// reports the error.
    pub fn of<'d, 'a: 'd>(files: impl IntoIterator<Item = &'d Debug<'a>>) -> SingleTags {
        let mut all = Definitions::default();
        for debug in files {
            let of_file = (0..debug.slot_count())
                .into_par_iter()
                .fold(Definitions::default, |mut made, place| {
                    let _ = debug.open_place(place).and_then(|unit| add(debug, &unit, &mut made));
                    made
                })
                .reduce(Definitions::default, combine);
            all = combine(all, of_file);
        }
        let single = all.into_iter().filter(|&(_, definition)| definition != SEVERAL);
        SingleTags { keys: single.map(|(key, _)| key).collect() }
    }

    /// The key of a type's tag; 0 if it has none, or one with several definitions.
    pub fn key(&self, record: &Record<'_>) -> u64 {
        let is_of_tag =
            record.kind.is_aggregate() || matches!(record.kind, Kind::Enum | Kind::Forward);
        if self.keys.is_empty() || !is_of_tag || record.name.is_empty() {
            return 0;
        }
        let key = tag_key(record.tag, &record.name);
        if self.keys.contains(&key) {
            key
        } else {
            0
        }
    }

    /// Removes tags.
    pub fn remove(&mut self, keys: impl IntoIterator<Item = u64>) {
        for key in keys {
            self.keys.remove(&key);
        }
    }

    /// Removes all tags.
    pub fn clear(&mut self) {
        self.keys.clear();
    }

    /// Tags of structs, for tests.
    #[cfg(test)]
    pub fn of_structs(names: &[&str]) -> SingleTags {
        let keys = names.iter().map(|name| tag_key(Kind::Struct, name.as_bytes())).collect();
        SingleTags { keys }
    }
}

/// The key of a tag.
fn tag_key(kind: Kind, name: &[u8]) -> u64 {
    let mut hasher = ahash::AHasher::new_with_keys(3, 4);
    (kind, name).hash(&mut hasher);
    hasher.finish()
}

fn combine(one: Definitions, other: Definitions) -> Definitions {
    let (mut large, small) = if one.len() < other.len() { (other, one) } else { (one, other) };
    for (key, definition) in small {
        add_one(&mut large, key, definition);
    }
    large
}

fn add_one(made: &mut Definitions, key: u64, definition: Definition) {
    let known = made.entry(key).or_insert(definition);
    if *known != definition {
        *known = SEVERAL;
    }
}

/// Adds the definitions in a unit and its functions.
fn add<'a>(debug: &Debug<'a>, unit: &Unit<'a>, made: &mut Definitions) -> crate::error::Result<()> {
    let Some(language) = Language::of_unit(unit)? else { return Ok(()) };
    let prefixes = match language {
        Language::C => Prefixes::default(),
        Language::Scoped => Prefixes::of(debug, unit)?,
    };
    for one in scopes(unit, language, 1)?.into_iter().flat_map(|scope| scope.entries) {
        let kind = match one.tag {
            dw::DW_TAG_structure_type | dw::DW_TAG_class_type => Kind::Struct,
            dw::DW_TAG_union_type => Kind::Union,
            dw::DW_TAG_enumeration_type => Kind::Enum,
            _ => continue,
        };
        let entry = Entry::read_with_line(unit, one.offset)?;
        if entry.has(dw::DW_AT_declaration) || entry.has(dw::DW_AT_signature) {
            continue;
        }
        let name = prefixes.full_name(debug, &entry)?;
        if !name.is_empty() {
            let said = |name| entry.constant(name).unwrap_or(0);
            let definition = (said(dw::DW_AT_byte_size), said(dw::DW_AT_decl_line));
            add_one(made, tag_key(kind, &name), definition);
        }
    }
    Ok(())
}
