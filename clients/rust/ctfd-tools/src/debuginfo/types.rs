//! The types of a dictionary and its parent as entries of DWARF.

use super::aliases::{alias, Aliases};
use super::entries::{Entries, Entry, Value};
use super::widths::{is_narrow, Widths};
use crate::types::catalog::{is_qualifier, Catalog, Number, Part, Record, Signature};
use ctfd::Kind;
use gimli::constants::*;
use gimli::DwTag;
use std::collections::{HashMap, HashSet};

/// Flags and values of encodings of integers and floats.
const SIGNED: u8 = 1;
const CHARACTER: u8 = 2;
const BOOLEAN: u8 = 4;
const COMPLEX: [u8; 3] = [3, 4, 5];
const IMAGINARY: [u8; 3] = [10, 11, 12];
/// The start of the name of a typedef that stands for C's `_Atomic`.
const ATOMIC: &[u8] = b"_Atomic(";
/// The most dimensions or qualifiers of one entry.
const DEEPEST: usize = 64;

/// The types that are written, and their names.
pub struct Selection<'c, 'd> {
    /// The catalog that has the types.
    pub catalog: &'c Catalog<'d>,
    /// Aliases of types whose name finds another type.
    pub aliases: Aliases,
    widths: Widths<'c, 'd>,
    clashes: HashSet<&'c [u8]>,
}

impl<'c, 'd> Selection<'c, 'd> {
    /// All types of a catalog, except narrow ones that have a type of full width.
    pub fn new(catalog: &'c Catalog<'d>) -> Selection<'c, 'd> {
        let widths = Widths::new(catalog);
        let parents = catalog.all().filter(|&n| !catalog.is_own(n));
        let is_written = |n: &Number| widths.full_width(*n) == *n;
        // Look-ups try a child's types first.
        let listed: Vec<Number> = catalog.own_numbers().chain(parents).filter(is_written).collect();
        let aliases = Aliases::new(catalog, &listed);
        let mut made = Selection { catalog, aliases, widths, clashes: HashSet::new() };
        made.clashes = made.clashes();
        made
    }

    fn written_types(&self) -> impl Iterator<Item = Number> + use<'_, 'c, 'd> {
        self.catalog.all().filter(|&n| self.widths.full_width(n) == n)
    }

    /// The types that look-ups by name find, and those without a name.
    pub fn visible_types(&self) -> impl Iterator<Item = Number> + use<'_, 'c, 'd> {
        self.written_types().filter(|&n| !self.is_hidden(n))
    }

    /// The types with a name by which look-ups do not find them.
    pub fn hidden_types(&self) -> impl Iterator<Item = Number> + use<'_, 'c, 'd> {
        self.written_types().filter(|&n| self.is_hidden(n))
    }

    fn is_hidden(&self, number: Number) -> bool {
        let record = self.catalog.record(number);
        !record.name.is_empty() && !record.is_root
    }

    /// The enumerators that have several values, if some enum has an alias.
    fn clashes(&self) -> HashSet<&'c [u8]> {
        let enums: Vec<Number> =
            self.written_types().filter(|&n| self.catalog.kind(n) == Kind::Enum).collect();
        if !enums.iter().any(|&n| self.aliases.get(n).is_some()) {
            return HashSet::new();
        }
        let mut first: HashMap<&'c [u8], i32> = HashMap::new();
        let values = enums.into_iter().flat_map(|n| self.catalog.values(n));
        let differs = |one: &&'c crate::types::catalog::Value| {
            *first.entry(&one.name).or_insert(one.value) != one.value
        };
        values.filter(differs).map(|one| &one.name[..]).collect()
    }

    /// The type of full width for another type; 0 for void.
    fn stand_in(&self, number: Number) -> Number {
        let number = self.widths.full_width(number);
        if self.is_void(number) {
            0
        } else {
            number
        }
    }

    fn is_void(&self, number: Number) -> bool {
        let record = self.catalog.record(number);
        let is_named = record.kind == Kind::Integer && record.name == b"void";
        is_named && self.catalog.size(number) == Some(0)
    }
}

/// Writes types as entries.
pub struct TypeWriter<'w, 'c, 'd> {
    pub entries: Entries,
    selection: &'w Selection<'c, 'd>,
    /// The entry of each type.
    by_number: HashMap<Number, Entry>,
}

impl<'w, 'c, 'd> TypeWriter<'w, 'c, 'd> {
    /// A writer without types.
    pub fn new(selection: &'w Selection<'c, 'd>, entries: Entries) -> TypeWriter<'w, 'c, 'd> {
        TypeWriter { entries, selection, by_number: HashMap::new() }
    }

    fn catalog(&self) -> &'c Catalog<'d> {
        self.selection.catalog
    }

    /// Adds an empty entry to a unit for each type, so that others can refer to it before it is
    /// written.
    pub fn begin(&mut self, unit: Entry, listed: impl Iterator<Item = Number>) {
        for number in listed.filter(|&number| !self.selection.is_void(number)) {
            let tag = tag_of(self.catalog().record(number));
            self.by_number.insert(number, self.entries.add(unit, tag));
        }
    }

    /// Writes the types that have entries, in the order of their numbers.
    pub fn write_all(&mut self) {
        for number in self.catalog().all() {
            if let Some(&entry) = self.by_number.get(&number) {
                self.write(entry, number);
            }
        }
    }

    fn write(&mut self, entry: Entry, number: Number) {
        let record = self.catalog().record(number);
        match record.kind {
            Kind::Unknown => self.entries.set(entry, DW_AT_name, Value::name(b"unknown")),
            Kind::Integer => self.base(entry, number, integer_encoding(record)),
            Kind::Float => self.base(entry, number, float_encoding(record)),
            Kind::Array => self.array(entry, number, record.elements.into()),
            Kind::Function => self.function(entry, self.catalog().signature(number)),
            Kind::Struct | Kind::Union => self.aggregate(entry, number),
            Kind::Enum => self.enumeration(entry, number),
            Kind::Forward => {
                self.name(entry, number);
                self.entries.set(entry, DW_AT_declaration, Value::present());
            }
            _ if is_atomic(record) => self.refer(entry, record.of),
            Kind::Pointer => {
                let size = u64::from(self.entries.address_size());
                self.entries.set(entry, DW_AT_byte_size, size);
                self.refer(entry, record.of);
            }
            _ => {
                self.name(entry, number);
                self.refer(entry, record.of);
            }
        }
    }

    /// Sets a type's name: its alias, if it has one. A debugger that meets several types of one
    /// name takes any of them.
    fn name(&mut self, entry: Entry, number: Number) {
        let own = &self.catalog().record(number).name[..];
        let name = self.selection.aliases.get(number).unwrap_or(own);
        if !name.is_empty() {
            self.entries.set(entry, DW_AT_name, Value::name(name));
        }
    }

    /// Sets the type of an entry; void is left out.
    pub fn refer(&mut self, entry: Entry, number: Number) {
        if let Some(&to) = self.by_number.get(&self.selection.stand_in(number)) {
            self.entries.set(entry, DW_AT_type, to);
        }
    }

    fn size(&mut self, entry: Entry, number: Number) {
        let size = self.catalog().size(number).unwrap_or(0);
        self.entries.set(entry, DW_AT_byte_size, size);
    }

    fn base(&mut self, entry: Entry, number: Number, encoding: gimli::DwAte) {
        self.name(entry, number);
        self.size(entry, number);
        self.entries.set(entry, DW_AT_encoding, encoding);
    }

    /// Writes an array. Nested arrays become one entry with several dimensions.
    fn array(&mut self, entry: Entry, number: Number, elements: u64) {
        let catalog = self.catalog();
        let index = catalog.index(number);
        let mut counts = vec![elements];
        let mut inner = catalog.record(number).of;
        while catalog.kind(inner) == Kind::Array && counts.len() < DEEPEST {
            let record = catalog.record(inner);
            counts.push(record.elements.into());
            inner = record.of;
        }
        self.refer(entry, inner);
        for (place, count) in counts.into_iter().enumerate() {
            let subrange = self.entries.add(entry, DW_TAG_subrange_type);
            self.refer(subrange, index);
            if count != 0 || place != 0 {
                self.entries.set(subrange, DW_AT_count, count);
            }
        }
    }

    fn function(&mut self, entry: Entry, signature: &Signature) {
        self.entries.set(entry, DW_AT_prototyped, Value::present());
        self.refer(entry, signature.returns);
        for &argument in &signature.arguments {
            let parameter = self.entries.add(entry, DW_TAG_formal_parameter);
            self.refer(parameter, argument);
        }
        if signature.is_open {
            self.entries.add(entry, DW_TAG_unspecified_parameters);
        }
    }

    fn aggregate(&mut self, entry: Entry, number: Number) {
        self.name(entry, number);
        self.size(entry, number);
        let catalog = self.catalog();
        for part in catalog.members(number) {
            let member = self.entries.add(entry, DW_TAG_member);
            if !part.name.is_empty() {
                self.entries.set(member, DW_AT_name, Value::name(part.name));
            }
            self.refer(member, part.of);
            self.place(member, part, catalog.kind(number) == Kind::Struct);
        }
    }

    /// Sets the offset of a member. Without one it is 0, as for a union's members that are no
    /// bit-fields.
    fn place(&mut self, member: Entry, part: &Part<'_>, is_in_struct: bool) {
        let catalog = self.catalog();
        let end = catalog.resolve(part.of);
        let lies = catalog.record(end).encoding.filter(|_| is_narrow(catalog, end));
        let field = match lies {
            Some(lies) => Some((u64::from(lies.bits), part.offset + u64::from(lies.offset))),
            None if part.offset % 8 != 0 => {
                Some((catalog.size(part.of).unwrap_or(0).saturating_mul(8), part.offset))
            }
            None => None,
        };
        if let Some((bits, offset)) = field {
            self.entries.set(member, DW_AT_bit_size, bits);
            self.entries.set(member, DW_AT_data_bit_offset, offset);
        } else if is_in_struct {
            self.entries.set(member, DW_AT_data_member_location, part.offset / 8);
        }
    }

    fn enumeration(&mut self, entry: Entry, number: Number) {
        self.name(entry, number);
        self.size(entry, number);
        let is_other = self.selection.aliases.get(number).is_some();
        for one in self.catalog().values(number) {
            let enumerator = self.entries.add(entry, DW_TAG_enumerator);
            let name = match is_other && self.selection.clashes.contains(&one.name[..]) {
                true => Value::name(&alias(&one.name, number)),
                false => Value::name(&one.name),
            };
            self.entries.set(enumerator, DW_AT_name, name);
            self.entries.set(enumerator, DW_AT_const_value, one.value);
        }
    }

    /// An array type with a length, for an object whose type is an array without one. The length
    /// follows from the object's size in bytes; the type is added to the object's unit. None for
    /// other objects.
    pub fn whole_array(&mut self, unit: Entry, mut number: Number, size: u64) -> Option<Entry> {
        let catalog = self.catalog();
        let mut qualifiers = Vec::new();
        while is_qualifier(catalog.kind(number)) && qualifiers.len() < DEEPEST {
            qualifiers.push(catalog.record(number));
            number = catalog.record(number).of;
        }
        let record = catalog.record(number);
        let is_open = record.kind == Kind::Array && record.elements == 0;
        let element = is_open.then(|| catalog.size(record.of)).flatten().filter(|&one| one != 0)?;
        if size == 0 || size % element != 0 {
            return None;
        }
        let mut made = self.entries.add(unit, DW_TAG_array_type);
        self.array(made, number, size / element);
        for qualifier in qualifiers.into_iter().rev() {
            let outer = self.entries.add(unit, tag_of(qualifier));
            self.entries.set(outer, DW_AT_type, made);
            made = outer;
        }
        Some(made)
    }
}

fn is_atomic(record: &Record<'_>) -> bool {
    record.kind == Kind::Typedef && record.name.starts_with(ATOMIC)
}

fn tag_of(record: &Record<'_>) -> DwTag {
    match record.tag {
        Kind::Unknown => DW_TAG_unspecified_type,
        Kind::Integer | Kind::Float => DW_TAG_base_type,
        Kind::Pointer => DW_TAG_pointer_type,
        Kind::Array => DW_TAG_array_type,
        Kind::Function => DW_TAG_subroutine_type,
        Kind::Union => DW_TAG_union_type,
        Kind::Enum => DW_TAG_enumeration_type,
        Kind::Typedef if is_atomic(record) => DW_TAG_atomic_type,
        Kind::Typedef => DW_TAG_typedef,
        Kind::Volatile => DW_TAG_volatile_type,
        Kind::Const => DW_TAG_const_type,
        Kind::Restrict => DW_TAG_restrict_type,
        Kind::Struct | Kind::Forward => DW_TAG_structure_type,
    }
}

fn integer_encoding(record: &Record<'_>) -> gimli::DwAte {
    let flags = record.encoding.map_or(0, |lies| lies.encoding);
    match (flags & SIGNED != 0, flags & CHARACTER != 0) {
        _ if flags & BOOLEAN != 0 => DW_ATE_boolean,
        (true, true) => DW_ATE_signed_char,
        (false, true) => DW_ATE_unsigned_char,
        (true, false) => DW_ATE_signed,
        (false, false) => DW_ATE_unsigned,
    }
}

fn float_encoding(record: &Record<'_>) -> gimli::DwAte {
    match record.encoding.map_or(0, |lies| lies.encoding) {
        flags if COMPLEX.contains(&flags) => DW_ATE_complex_float,
        flags if IMAGINARY.contains(&flags) => DW_ATE_imaginary_float,
        _ => DW_ATE_float,
    }
}
