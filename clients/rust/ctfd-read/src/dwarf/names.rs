//! Names of types of C++ and Rust, with their namespaces and classes.

use crate::dwarf::units::{Debug, Entry, Unit};
use crate::error::Result;
use crate::join::NumberHasher;
use gimli::{constants as dw, DwTag, UnitOffset};
use std::borrow::Cow;
use std::collections::HashMap;
use std::hash::BuildHasherDefault;

const NO_NAMESPACE: &[u8] = b"(anonymous namespace)";
/// Longer prefixes are truncated: the names of nested templates double in length.
const LONGEST: usize = 1 << 12;

/// The languages whose types are read.
#[derive(Clone, Copy, Debug, PartialEq, Eq)]
pub enum Language {
    /// C.
    C,
    /// C++ or Rust, whose types are in namespaces and classes.
    Scoped,
}

impl Language {
    /// The language with a number in DWARF; `None` if its types are not read.
    pub fn of(language: gimli::DwLang) -> Option<Language> {
        match language.0 {
            0x01 | 0x02 | 0x0c | 0x12 | 0x1d | 0x2c | 0x3e => Some(Language::C),
            0x04 | 0x19 | 0x1a | 0x21 | 0x2a | 0x2b | 0x3a | 0x1c => Some(Language::Scoped),
            _ => None,
        }
    }

    /// The language of a unit; C if it names none.
    pub fn of_unit(unit: &Unit<'_>) -> Result<Option<Language>> {
        let said = Entry::top(unit)?.constant(dw::DW_AT_language);
        Ok(said.map_or(Some(Language::C), |said| Language::of(gimli::DwLang(said as u16))))
    }
}

/// For each type of a unit, the prefix of its name.
#[derive(Default)]
pub struct Prefixes {
    known: Vec<Vec<u8>>,
    by_offset: HashMap<u64, usize, BuildHasherDefault<NumberHasher>>,
}

impl Prefixes {
    /// The prefixes of the types of a unit.
    pub fn of<'a>(debug: &Debug<'a>, unit: &Unit<'a>) -> Result<Prefixes> {
        let mut made = Prefixes { known: vec![Vec::new()], ..Prefixes::default() };
        let mut outer = Vec::new();
        let mut prefix = 0;
        let mut raw = unit.inner.entries_raw(None)?;
        while !raw.is_empty() {
            let offset = raw.next_offset();
            let Some(shape) = raw.read_abbreviation()? else {
                if outer.len() < 2 {
                    break;
                }
                prefix = outer.pop().unwrap_or(0);
                continue;
            };
            let tag = shape.tag();
            if prefix != 0 && is_named_in_full(tag) {
                made.by_offset.insert(offset.0 as u64, prefix);
            }
            if shape.has_children() {
                outer.push(prefix);
                prefix = match tag {
                    dw::DW_TAG_compile_unit | dw::DW_TAG_type_unit | dw::DW_TAG_partial_unit => 0,
                    _ if is_scope(tag) => {
                        let entry = Entry::read(unit, offset)?;
                        match &*made.full_name(debug, &entry)? {
                            b"" => prefix, // an entry without a name adds nothing
                            name => made.add(name),
                        }
                    }
                    _ => 0,
                };
            }
            raw.skip_attributes(shape.attributes())?;
        }
        Ok(made)
    }

    fn add(&mut self, name: &[u8]) -> usize {
        self.known.push([&name[..name.len().min(LONGEST)], b"::"].concat());
        self.known.len() - 1
    }

    /// The name of an entry of the unit, with its namespaces and classes.
    pub fn full_name<'a>(&self, debug: &Debug<'a>, entry: &Entry<'_, 'a>) -> Result<Cow<'a, [u8]>> {
        let mut name = debug.name(entry)?;
        let mut offset = entry.offset;
        // A class that is defined outside of its declaration has the name of the declaration.
        let declared = debug.target(entry, dw::DW_AT_specification)?;
        if let Some(declared) = declared.filter(|one| one.unit.start == entry.unit.start) {
            name = debug.name(&declared)?;
            offset = declared.offset;
        } else if name.is_empty() && entry.tag == dw::DW_TAG_namespace {
            name = Cow::Borrowed(NO_NAMESPACE);
        }
        if name.is_empty() {
            return Ok(name);
        }
        Ok(match self.prefix(offset) {
            b"" => name,
            prefix => Cow::Owned([prefix, &*name].concat()),
        })
    }

    fn prefix(&self, offset: UnitOffset) -> &[u8] {
        self.by_offset.get(&(offset.0 as u64)).map_or(b"", |&place| &self.known[place])
    }
}

/// Whether an entry gives a prefix to the names of the entries in it.
pub fn is_scope(tag: DwTag) -> bool {
    matches!(
        tag,
        dw::DW_TAG_namespace
            | dw::DW_TAG_structure_type
            | dw::DW_TAG_class_type
            | dw::DW_TAG_union_type
    )
}

fn is_named_in_full(tag: DwTag) -> bool {
    let is_type =
        matches!(tag, dw::DW_TAG_enumeration_type | dw::DW_TAG_typedef | dw::DW_TAG_template_alias);
    is_type || is_scope(tag)
}
