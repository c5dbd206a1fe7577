//! Entries of DWARF before they are written: units, entries and attributes, and how names are
//! stored.

use crate::types::crowded::CROWDED;
use crate::types::text::printable;
use ctfd_read::error::{refuse, Result};
use gimli::constants::{DwAt, DwTag};
use gimli::write::{Address, AttributeValue, Dwarf, Expression, LineProgram, Reference};
use gimli::write::{LocationListId, RangeListId, Unit, UnitEntryId, UnitId};
use gimli::{DwAte, DwLang, Encoding, Format};
use std::collections::{HashMap, HashSet};

const VERSION: u16 = 5;
/// Names may overlap in a dictionary, but each is written separately: they may take this many times
/// the bytes of the input, plus `AT_LEAST`.
const TIMES: usize = 16;
const AT_LEAST: usize = 1 << 20;
/// The most entries that are written: each takes a few hundred bytes of memory.
const MOST_ENTRIES: usize = 4_000_000;
/// The size of a reference to a name in `.debug_str`, in bytes.
const REFERENCE: usize = 4;

/// An entry, with its unit.
#[derive(Clone, Copy, Debug)]
pub struct Entry {
    pub unit: UnitId,
    /// The entry in the unit.
    pub at: UnitEntryId,
}

/// All entries of a debug file.
pub struct Entries {
    dwarf: Dwarf,
    encoding: Encoding,
    count: usize,
    name_bytes_left: Option<usize>,
}

impl Entries {
    /// No entries. `bytes` is the size of the input, which limits the bytes of names.
    pub fn new(address_size: u8, bytes: usize) -> Entries {
        let encoding = Encoding { format: Format::Dwarf32, version: VERSION, address_size };
        let name_bytes_left = Some(bytes.saturating_mul(TIMES).saturating_add(AT_LEAST));
        Entries { dwarf: Dwarf::new(), encoding, count: 0, name_bytes_left }
    }

    /// The size of an address, in bytes.
    pub fn address_size(&self) -> u8 {
        self.encoding.address_size
    }

    /// Adds a unit, and returns its root entry.
    pub fn add_unit(&mut self) -> Entry {
        let unit = self.dwarf.units.add(Unit::new(self.encoding, LineProgram::none()));
        Entry { unit, at: self.dwarf.units.get(unit).root() }
    }

    /// The unit with this id.
    pub fn unit(&mut self, unit: UnitId) -> &mut Unit {
        self.dwarf.units.get_mut(unit)
    }

    /// Adds an entry as a child of another.
    pub fn add(&mut self, parent: Entry, tag: DwTag) -> Entry {
        self.count += 1;
        let at = match self.count <= MOST_ENTRIES {
            true => self.unit(parent.unit).add(parent.at, tag),
            false => parent.at, // `finish` refuses it
        };
        Entry { unit: parent.unit, at }
    }

    /// Sets an attribute of an entry.
    pub fn set(&mut self, entry: Entry, name: DwAt, value: impl Into<Value>) {
        let value = match value.into() {
            Value::Plain(value) => value,
            Value::Entry(to) if to.unit == entry.unit => AttributeValue::UnitRef(to.at),
            Value::Entry(to) => AttributeValue::DebugInfoRef(Reference::Entry(to.unit, to.at)),
            Value::Name(name) => {
                let left = self.name_bytes_left.and_then(|left| left.checked_sub(name.len()));
                self.name_bytes_left = left;
                AttributeValue::String(if left.is_some() { name } else { Vec::new() })
            }
        };
        self.unit(entry.unit).get_mut(entry.at).set(name, value);
    }

    /// The finished DWARF, with names stored in the fewest bytes. Refuses too many entries, or too
    /// many bytes of names.
    pub fn finish(mut self) -> Result<Dwarf> {
        if self.name_bytes_left.is_none() {
            return refuse(CROWDED);
        }
        judge_count(self.count)?;
        share_names(&mut self.dwarf);
        Ok(self.dwarf)
    }
}

/// Refuses more entries than can be written.
pub fn judge_count(count: usize) -> Result<()> {
    match count > MOST_ENTRIES {
        true => refuse(format!(
            "its types and symbols take {count} entries of DWARF, and {MOST_ENTRIES} are written at \
             most"
        )),
        false => Ok(()),
    }
}

/// The value of an attribute.
pub enum Value {
    /// A reference to an entry.
    Entry(Entry),
    /// A name, escaped since debuggers print it as it is.
    Name(Vec<u8>),
    /// Anything else.
    Plain(AttributeValue),
}

impl Value {
    /// A name, with control characters escaped.
    pub fn name(name: &[u8]) -> Value {
        // No name has a zero byte, which would end it.
        Value::Name(printable(name).into_owned().into_bytes())
    }

    /// The value of a flag that is set.
    pub fn present() -> Value {
        Value::Plain(AttributeValue::FlagPresent)
    }
}

impl From<Entry> for Value {
    fn from(entry: Entry) -> Value {
        Value::Entry(entry)
    }
}

impl From<u64> for Value {
    fn from(number: u64) -> Value {
        Value::Plain(AttributeValue::Udata(number))
    }
}

impl From<i32> for Value {
    fn from(number: i32) -> Value {
        Value::Plain(AttributeValue::Sdata(number.into()))
    }
}

impl From<DwAte> for Value {
    fn from(encoding: DwAte) -> Value {
        Value::Plain(AttributeValue::Encoding(encoding))
    }
}

impl From<DwLang> for Value {
    fn from(language: DwLang) -> Value {
        Value::Plain(AttributeValue::Language(language))
    }
}

impl From<Address> for Value {
    fn from(address: Address) -> Value {
        Value::Plain(AttributeValue::Address(address))
    }
}

impl From<Expression> for Value {
    fn from(expression: Expression) -> Value {
        Value::Plain(AttributeValue::Exprloc(expression))
    }
}

impl From<LocationListId> for Value {
    fn from(list: LocationListId) -> Value {
        Value::Plain(AttributeValue::LocationListRef(list))
    }
}

impl From<RangeListId> for Value {
    fn from(list: RangeListId) -> Value {
        Value::Plain(AttributeValue::RangeListRef(list))
    }
}

/// Moves names to `.debug_str` if they take fewer bytes there, references included.
fn share_names(dwarf: &mut Dwarf) {
    let units: Vec<UnitId> = (0..dwarf.units.count()).map(|at| dwarf.units.id(at)).collect();
    let mut counts: HashMap<&[u8], usize> = HashMap::new();
    for &unit in &units {
        let unit = dwarf.units.get(unit);
        for at in entries_of(unit) {
            for attribute in unit.get(at).attrs() {
                if let AttributeValue::String(name) = attribute.get() {
                    *counts.entry(name).or_default() += 1;
                }
            }
        }
    }
    let is_shorter = |(name, count): &(&[u8], usize)| {
        let length = name.len() + 1;
        length + REFERENCE * count < length * count
    };
    let shared = counts.into_iter().filter(is_shorter);
    let shared: HashSet<Vec<u8>> = shared.map(|(name, _)| name.to_vec()).collect();
    for unit in units {
        for at in entries_of(dwarf.units.get(unit)) {
            let entry = dwarf.units.get_mut(unit).get_mut(at);
            for attribute in entry.attrs_mut() {
                if let AttributeValue::String(name) = attribute.get() {
                    if shared.contains(name) {
                        let place = dwarf.strings.add(&name[..]);
                        attribute.set(AttributeValue::StringRef(place));
                    }
                }
            }
        }
    }
}

/// The entries of a unit, each before its children.
fn entries_of(unit: &Unit) -> Vec<UnitEntryId> {
    let mut listed = vec![unit.root()];
    let mut at = 0;
    while at < listed.len() {
        listed.extend(unit.get(listed[at]).children());
        at += 1;
    }
    listed
}

#[cfg(test)]
mod tests {
    use super::*;
    use gimli::constants::{DW_AT_byte_size, DW_AT_name, DW_TAG_base_type};

    /// For each name, whether it is in `.debug_str`.
    fn shared_names(names: &[&str]) -> Vec<bool> {
        let mut entries = Entries::new(8, 100);
        let unit = entries.add_unit();
        let mut add = |name: &&str| {
            let entry = entries.add(unit, DW_TAG_base_type);
            entries.set(entry, DW_AT_name, Value::name(name.as_bytes()));
            entry
        };
        let listed: Vec<Entry> = names.iter().map(&mut add).collect();
        let dwarf = entries.finish().unwrap();
        let is_shared = |one: Entry| {
            let value = dwarf.units.get(one.unit).get(one.at).get(DW_AT_name);
            matches!(value, Some(AttributeValue::StringRef(_)))
        };
        listed.into_iter().map(is_shared).collect()
    }

    #[test]
    fn names_take_as_few_bytes_as_they_can() {
        assert_eq!(shared_names(&["only_one_has_this_name"]), [false]);
        assert_eq!(shared_names(&["abc", "abc", "abc", "abc"]), [false; 4]);
        assert_eq!(shared_names(&["long_name", "long_name"]), [true; 2]);
        assert_eq!(shared_names(&["length", "length"]), [false; 2]); // 14 bytes; 15 with references
    }

    #[test]
    fn names_have_nothing_that_a_terminal_obeys() {
        let Value::Name(name) = Value::name(b"a\x1b[7m") else { panic!("a name is a name") };
        assert_eq!(name, b"a\\x1b[7m");
    }

    #[test]
    fn names_that_share_their_bytes_are_refused() {
        let mut entries = Entries::new(8, 0);
        let unit = entries.add_unit();
        for _ in 0..3 {
            let entry = entries.add(unit, DW_TAG_base_type);
            entries.set(entry, DW_AT_byte_size, 4);
            entries.set(entry, DW_AT_name, Value::Name(vec![b'x'; AT_LEAST / 2]));
        }
        assert_eq!(entries.finish().map(|_| ()).unwrap_err().0, CROWDED);
    }
}
