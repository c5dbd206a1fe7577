//! Reads the types of C in a program's debug information, as a table.

use crate::descriptions::{Description, Signature, Statement, SymbolFilter};
use crate::dwarf::names::{Language, Prefixes};
use crate::dwarf::scopes::{scopes, Listed, Scope};
use crate::dwarf::unit_types::{JoinedEntries, Loss, UnitTypes};
use crate::dwarf::units::{Debug, Entry, Unit};
use crate::error::{refuse, Result};
use crate::join::NumberHasher;
use crate::table::{Encoding, Enumerator, Kind, Member, Parts, Record};
use gimli::{constants as dw, DwTag, Reader as _, RunTimeEndian, UnitOffset};
use smallvec::SmallVec;
use std::borrow::Cow;
use std::collections::HashMap;
use std::hash::BuildHasherDefault;
use std::rc::Rc;

/// A chain has at most three entries: a declaration, an abstract function and a copy of it. Damage
/// may form a cycle.
const LONGEST_CHAIN: usize = 16;
const LONGEST_TYPE: usize = 512;

const SIGNED: u8 = 1;
const CHARACTER: u8 = 2;
const BOOLEAN: u8 = 4;

/// A reader of one unit, and of the units that it imports. An entry gets its number when it is
/// first referred to.
pub(super) struct Reader<'d, 'a> {
    pub(super) debug: &'d Debug<'a>,
    asked: &'d SymbolFilter<'d>,
    is_ilp32: bool,
    /// The entries that were read for earlier units.
    joined: &'d JoinedEntries,
    /// The start of the unit.
    start: u64,
    pub(super) unit_types: UnitTypes<'a>,
    /// The key of the entry that is being read.
    entry: u64,
    numbers: HashMap<u64, u32, BuildHasherDefault<NumberHasher>>,
    todo: Vec<(&'d Unit<'a>, UnitOffset, u32)>,
    index: u32,
    /// Buffers for the parts of a type, until their number is known.
    members: Vec<Member<'a>>,
    enumerators: Vec<Enumerator<'a>>,
    /// For each unit with types, the prefixes of their names; `None` in C.
    prefixes: HashMap<u64, Option<Rc<Prefixes>>, BuildHasherDefault<NumberHasher>>,
}

impl<'d, 'a> Reader<'d, 'a> {
    /// A reader of the unit that begins at `start`.
    pub(super) fn new(
        debug: &'d Debug<'a>,
        start: u64,
        asked: &'d SymbolFilter<'d>,
        joined: &'d JoinedEntries,
        is_ilp32: bool,
    ) -> Reader<'d, 'a> {
        Reader {
            debug,
            asked,
            is_ilp32,
            joined,
            start,
            unit_types: UnitTypes::default(),
            entry: 0,
            numbers: HashMap::default(),
            todo: Vec::new(),
            index: 0,
            members: Vec::new(),
            enumerators: Vec::new(),
            prefixes: HashMap::default(),
        }
    }

    /// Reads the types, functions and objects in a unit and in its functions.
    pub(super) fn unit(&mut self, unit: &'d Unit<'a>) -> Result<()> {
        let is_scoped = self.prefixes(unit)?.is_some();
        let language = if is_scoped { Language::Scoped } else { Language::C };
        let scopes = scopes(unit, language, self.debug.threads_for(unit))?;
        for &Listed { offset, tag, .. } in scopes.iter().flat_map(|scope| &scope.entries) {
            match tag {
                dw::DW_TAG_variable => self.variable(Entry::read(unit, offset)?)?,
                dw::DW_TAG_subprogram => {
                    self.subprogram(Entry::read(unit, offset)?, &scopes)?;
                }
                dw::DW_TAG_formal_parameter
                | dw::DW_TAG_unspecified_parameters
                | dw::DW_TAG_imported_unit => {}
                _ => {
                    let root = self.number(unit, offset);
                    self.unit_types.roots.push(root);
                }
            }
        }
        self.finish()
    }

    /// Reads all entries that were referred to, and that were not read yet.
    fn finish(&mut self) -> Result<()> {
        while let Some((unit, offset, number)) = self.todo.pop() {
            self.entry = unit.key(offset);
            let record = self.record(Entry::read(unit, offset)?)?;
            self.unit_types.records[number as usize - 1] = record;
        }
        Ok(())
    }

    fn add(&mut self, record: Record<'a>) -> u32 {
        self.unit_types.records.push(record);
        self.unit_types.records.len() as u32
    }

    fn number(&mut self, unit: &'d Unit<'a>, offset: UnitOffset) -> u32 {
        let key = unit.key(offset);
        self.known_number(key).unwrap_or_else(|| self.fresh_number(unit, key))
    }

    /// The number of an entry that was referred to before, by this unit or an earlier one.
    #[inline]
    fn known_number(&mut self, key: u64) -> Option<u32> {
        if let Some(&known) = self.numbers.get(&key) {
            return Some(known);
        }
        let joined = self.joined.number(key)?;
        let made = self.add(Record::unknown());
        self.numbers.insert(key, made);
        self.unit_types.joined.push((made, joined));
        Some(made)
    }

    /// Numbers an entry, to be read later.
    fn fresh_number(&mut self, unit: &'d Unit<'a>, key: u64) -> u32 {
        let made = self.add(Record::unknown());
        self.numbers.insert(key, made);
        self.todo.push((unit, UnitOffset((key - unit.start) as usize), made));
        if unit.start != self.start {
            self.unit_types.shared.push((key, made));
        }
        made
    }

    /// The number of an entry's type; 0 if it has none.
    pub(super) fn of(&mut self, entry: &Entry<'d, 'a>) -> Result<u32> {
        match self.debug.key(entry, dw::DW_AT_type)? {
            Some(key) => self.of_key(entry.unit, key),
            None => Ok(0),
        }
    }

    /// The number of the entry with a key; `near` is the unit that most often has it.
    fn of_key(&mut self, near: &'d Unit<'a>, key: u64) -> Result<u32> {
        if let Some(known) = self.known_number(key) {
            return Ok(known);
        }
        let unit = if near.has(key) { near } else { self.debug.unit_of(key)? };
        Ok(self.fresh_number(unit, key))
    }

    fn record(&mut self, mut entry: Entry<'d, 'a>) -> Result<Record<'a>> {
        if let Some(target) = self.debug.target(&entry, dw::DW_AT_signature)? {
            entry = target;
        }
        let kind = kind(entry.tag);
        let prefixes = self.prefixes(entry.unit)?;
        let name = match &prefixes {
            Some(prefixes) => prefixes.full_name(self.debug, &entry)?,
            None => self.debug.name(&entry)?,
        };
        let mut made = Record::new(kind, name);
        match kind {
            _ if prefixes.is_some() && self.read_beyond_c(&entry, &mut made)? => {}
            Kind::Struct | Kind::Union | Kind::Enum if entry.has(dw::DW_AT_declaration) => {
                made.kind = Kind::Forward;
            }
            Kind::Struct | Kind::Union => {
                made.size = size(&entry)?.unwrap_or(0);
                made.parts = Parts::Members(self.members(&entry)?);
            }
            Kind::Enum => {
                made.size = size(&entry)?.unwrap_or(0);
                made.parts = Parts::Values(self.enumerators(&entry)?);
            }
            Kind::Integer => base(&entry, &mut made)?,
            Kind::Array => return self.array(&entry),
            Kind::Function => return self.function_of(&entry, &entry),
            Kind::Unknown if entry.tag == dw::DW_TAG_unspecified_type => {}
            Kind::Unknown => self.lost_tag(&entry, &made),
            _ => {
                if kind != Kind::Typedef {
                    made.name = Cow::Borrowed(b"");
                }
                made.of = self.of(&entry)?;
            }
        }
        Ok(made)
    }

    fn members(&mut self, entry: &Entry<'d, 'a>) -> Result<Box<[Member<'a>]>> {
        let mut made = std::mem::take(&mut self.members);
        for one in entry.children()? {
            let one = one?;
            if one.tag == dw::DW_TAG_member && !one.has(dw::DW_AT_external) {
                made.push(self.member(entry, &one)?);
            } else if !is_of_class(one.tag) {
                self.lost_part(entry, &one)?;
            }
        }
        let listed = made.drain(..).collect();
        self.members = made;
        Ok(listed)
    }

    pub(super) fn member(
        &mut self,
        whole: &Entry<'d, 'a>,
        entry: &Entry<'d, 'a>,
    ) -> Result<Member<'a>> {
        let name = self.debug.name(entry)?;
        let width = entry.constant(dw::DW_AT_bit_size).map(natural).transpose()?;
        let of = self.of(entry)?;
        let offset = natural(self.offset(whole, entry, width)?)?;
        let width = width.map(|width| u16::try_from(width).unwrap_or(u16::MAX));
        Ok(Member { name, of, offset, width })
    }

    /// The offset of a member in bits.
    fn offset(
        &self,
        whole: &Entry<'d, 'a>,
        member: &Entry<'d, 'a>,
        width: Option<u64>,
    ) -> Result<i128> {
        if let Some(bits) = member.constant(dw::DW_AT_data_bit_offset) {
            return Ok(bits);
        }
        let begins = 8 * location(member)?;
        // gcc writes a wrong DW_AT_bit_offset in a union if the type is less aligned.
        let from_the_left = member.constant(dw::DW_AT_bit_offset);
        match (from_the_left, width) {
            (Some(left), Some(width)) if whole.tag != dw::DW_TAG_union_type => {
                let size = match member.constant(dw::DW_AT_byte_size) {
                    Some(size) if size != 0 => size,
                    _ => self.size_of(member)?,
                };
                Ok(match self.debug.endian {
                    RunTimeEndian::Big => begins + left,
                    RunTimeEndian::Little => begins + 8 * size - left - i128::from(width),
                })
            }
            _ => Ok(begins),
        }
    }

    /// The size of an entry's type in bytes.
    fn size_of(&self, entry: &Entry<'d, 'a>) -> Result<i128> {
        let mut next = self.debug.target(entry, dw::DW_AT_type)?;
        for _ in 0..LONGEST_TYPE {
            let Some(one) = next else { break };
            if let Some(size) = one.constant(dw::DW_AT_byte_size) {
                return Ok(size);
            }
            next = self.debug.target(&one, dw::DW_AT_type)?;
        }
        Ok(0)
    }

    fn enumerators(&mut self, entry: &Entry<'d, 'a>) -> Result<Box<[Enumerator<'a>]>> {
        let mut made = std::mem::take(&mut self.enumerators);
        for one in entry.children_of(|tag| tag == dw::DW_TAG_enumerator)? {
            let one = one?;
            let value = one.constant(dw::DW_AT_const_value).unwrap_or(0);
            made.push(Enumerator { name: self.debug.name(&one)?, value });
        }
        let listed = made.drain(..).collect();
        self.enumerators = made;
        Ok(listed)
    }

    /// The record of an array: the outermost, if there are several dimensions; the inner arrays are
    /// added here.
    fn array(&mut self, entry: &Entry<'d, 'a>) -> Result<Record<'a>> {
        if entry.has(dw::DW_AT_GNU_vector) {
            self.lost("a vector: CTF has none; an array of its elements stands in its place");
        }
        let ranges = entry.children_of(|tag| tag == dw::DW_TAG_subrange_type)?;
        let ranges: Vec<_> = ranges.collect::<Result<_>>()?;
        let mut made = Record::new(Kind::Array, Cow::Borrowed(b""));
        made.of = self.of(entry)?;
        made.index = self.index(ranges.last())?;
        made.elements = ranges.last().map_or(Ok(0), |one| self.count(one))?;
        for one in ranges.iter().rev().skip(1) {
            let inner = self.add(made);
            made = Record::new(Kind::Array, Cow::Borrowed(b""));
            made.of = inner;
            made.index = self.index(Some(one))?;
            made.elements = self.count(one)?;
        }
        Ok(made)
    }

    /// The index type of an array; by default the type of sizes.
    fn index(&mut self, range: Option<&Entry<'d, 'a>>) -> Result<u32> {
        let found = range.map_or(Ok(0), |one| self.of(one))?;
        if found != 0 {
            return Ok(found);
        }
        if self.index == 0 {
            let (size, name): (u64, &[u8]) =
                if self.is_ilp32 { (4, b"unsigned int") } else { (8, b"long unsigned int") };
            let mut made = Record::new(Kind::Integer, Cow::Borrowed(name));
            made.size = size;
            made.encoding.bits = 8 * size;
            self.index = self.add(made);
        }
        Ok(self.index)
    }

    /// The number of elements of a dimension; 0 if it is not given.
    fn count(&mut self, dimension: &Entry<'d, 'a>) -> Result<u64> {
        for (name, more) in [(dw::DW_AT_count, 0), (dw::DW_AT_upper_bound, 1)] {
            if !dimension.has(name) {
                continue;
            }
            let Some(value) = dimension.constant(name) else {
                self.lost(
                    "an array whose length is known only as the program runs: CTF has none; its \
                     count is 0",
                );
                return Ok(0);
            };
            let is_none = value == -1
                || value == i128::from(u64::MAX)
                || self.is_ilp32 && value == i128::from(u32::MAX);
            return if more == 1 && is_none { Ok(0) } else { natural(value + more) };
        }
        Ok(0)
    }

    /// The record of a function, with the arguments of one entry and the return type of another.
    fn function_of(&mut self, whole: &Entry<'d, 'a>, of: &Entry<'d, 'a>) -> Result<Record<'a>> {
        let mut made = Record::new(Kind::Function, Cow::Borrowed(b""));
        made.of = self.of(of)?;
        let mut arguments: SmallVec<[u32; 16]> = SmallVec::new();
        let mut parts = whole.children_of(is_argument)?;
        for one in &mut parts {
            let one = one?;
            match one.tag {
                dw::DW_TAG_formal_parameter => arguments.push(self.argument(&one)?),
                dw::DW_TAG_unspecified_parameters => made.varargs = true,
                _ => {}
            }
        }
        self.debug.count_entries(parts.steps())?;
        made.parts = Parts::Arguments(arguments.as_slice().into());
        Ok(made)
    }

    /// The type of a function, if the entries in the function's entry are listed.
    fn function_in(
        &mut self,
        unit: &'d Unit<'a>,
        listed: &[Listed],
        of: &Entry<'d, 'a>,
    ) -> Result<Record<'a>> {
        let mut made = Record::new(Kind::Function, Cow::Borrowed(b""));
        made.of = self.of(of)?;
        let mut arguments: SmallVec<[u32; 16]> = SmallVec::new();
        for one in listed {
            match (one.tag, one.type_offset()) {
                (dw::DW_TAG_formal_parameter, Some(offset)) => {
                    arguments.push(self.of_key(unit, unit.key(offset))?);
                }
                (dw::DW_TAG_formal_parameter, None) => {
                    arguments.push(self.argument(&Entry::read_argument(unit, one.offset)?)?);
                }
                (dw::DW_TAG_unspecified_parameters, _) => made.varargs = true,
                _ => {}
            }
        }
        made.parts = Parts::Arguments(arguments.as_slice().into());
        Ok(made)
    }

    /// The type of an argument, or that of its abstract origin.
    fn argument(&mut self, entry: &Entry<'d, 'a>) -> Result<u32> {
        let mut found = None;
        for _ in 0..LONGEST_CHAIN {
            let one = found.as_ref().unwrap_or(entry);
            if one.has(dw::DW_AT_type) {
                break;
            }
            match self.debug.target(one, dw::DW_AT_abstract_origin)? {
                Some(next) => found = Some(next),
                None => break,
            }
        }
        self.of(found.as_ref().unwrap_or(entry))
    }

    fn lost_tag(&mut self, entry: &Entry<'d, 'a>, record: &Record<'a>) {
        let name = String::from_utf8_lossy(&record.name);
        let name = if name.is_empty() { String::new() } else { format!(" {name}") };
        self.lost(&format!(
            "a type{name} of tag 0x{:x} in the debug information, which is none of C: an unknown \
             type stands in its place",
            entry.tag.0
        ));
    }

    /// Records the loss of an entry in a class that is unknown.
    pub(super) fn lost_part(&mut self, whole: &Entry<'d, 'a>, part: &Entry<'d, 'a>) -> Result<()> {
        let name = self.debug.name(whole)?;
        self.lost(&format!(
            "an entry of tag 0x{:x} in {}, which is nothing of C or C++: it is left out",
            part.tag.0,
            match &*name {
                b"" => "a struct or union without a name".into(),
                name => String::from_utf8_lossy(name),
            }
        ));
        Ok(())
    }

    pub(super) fn lost(&mut self, line: &str) {
        let (entry, unit) = (self.entry, self.start);
        self.unit_types.losses.push(Loss { entry, unit, line: line.to_owned() });
    }

    // Symbols.

    fn variable(&mut self, entry: Entry<'d, 'a>) -> Result<()> {
        let place = self.place(&entry);
        let is_whole = entry.has(dw::DW_AT_location); // also for thread-locals, without an address
        let is_seen = entry.has(dw::DW_AT_external) || entry.has(dw::DW_AT_specification);
        if !is_whole && !is_seen {
            return Ok(());
        }
        let chain = self.chain(entry)?;
        let is_external = chain.iter().any(|one| one.has(dw::DW_AT_external));
        if place.is_none() && !is_external {
            return Ok(());
        }
        let name = self.symbol_name(&chain)?;
        if let Some(name) = self.asked.number(&name, place) {
            let of = type_source(&chain).map_or(Ok(0), |one| self.of(one))?;
            let said = Description { of, function: None, is_whole };
            let is_own = place.is_some() && !is_external;
            self.unit_types.told.push(Statement {
                name,
                place,
                said,
                others: Box::default(),
                is_own,
            });
        }
        Ok(())
    }

    /// The address of an object; `None` if it has none.
    fn place(&self, entry: &Entry<'d, 'a>) -> Option<u64> {
        let said = entry.block(dw::DW_AT_location)?;
        let mut rest = gimli::EndianSlice::new(said.get(1..)?, self.debug.endian);
        match dw::DwOp(said[0]) {
            dw::DW_OP_addr => rest.read_address(entry.unit.inner.encoding().address_size).ok(),
            dw::DW_OP_addrx | dw::DW_OP_GNU_addr_index => {
                let index = gimli::DebugAddrIndex(rest.read_uleb128().ok()? as usize);
                self.debug.address(entry, gimli::AttributeValue::DebugAddrIndex(index))
            }
            _ => None,
        }
    }

    fn subprogram(&mut self, entry: Entry<'d, 'a>, scopes: &[Scope]) -> Result<()> {
        let mut starts = self.debug.starts(&entry)?.into_iter();
        let place = starts.next();
        let chain = self.chain(entry)?;
        let is_external = chain.iter().any(|one| one.has(dw::DW_AT_external));
        if place.is_none() && !is_external {
            return Ok(());
        }
        let name = self.symbol_name(&chain)?;
        let Some(name) = self.asked.number(&name, place) else { return Ok(()) };
        let is_copy = |one: &&Entry<'d, 'a>| !one.has(dw::DW_AT_abstract_origin);
        let own = chain.iter().find(is_copy).unwrap_or(&chain[chain.len() - 1]);
        let own_scope = scopes.binary_search_by_key(&own.offset, |scope| scope.offset);
        let source = type_source(&chain).unwrap_or(own);
        let function = match own_scope {
            Ok(scope) if std::ptr::eq(own.unit, chain[0].unit) => {
                self.function_in(own.unit, &scopes[scope].entries, source)?
            }
            _ => self.function_of(own, source)?,
        };
        let function = Some(Signature::of_record(function));
        let said = Description { of: 0, function, is_whole: place.is_some() };
        let is_own = place.is_some() && !is_external;
        let others = starts.collect();
        self.unit_types.told.push(Statement { name, place, said, others, is_own });
        Ok(())
    }

    /// The entries of a function or object: the given one, and those that complete it, which are
    /// the declaration of a definition and the original of an inlined copy.
    fn chain(&self, entry: Entry<'d, 'a>) -> Result<Vec<Entry<'d, 'a>>> {
        let mut made = vec![entry];
        for _ in 0..LONGEST_CHAIN {
            let last = &made[made.len() - 1];
            let more = match self.debug.target(last, dw::DW_AT_abstract_origin)? {
                None => self.debug.target(last, dw::DW_AT_specification)?,
                found => found,
            };
            match more {
                Some(more) => made.push(more),
                None => return Ok(made),
            }
        }
        refuse("its debug information is damaged: DW_AT_specification or DW_AT_abstract_origin forms a cycle")
    }

    /// The name of the first entry that has one. In C++ and Rust, it is the linkage name if an
    /// entry has one; in C, declarations have as linkage name the symbol that a header substitutes.
    fn symbol_name(&mut self, chain: &[Entry<'d, 'a>]) -> Result<Cow<'a, [u8]>> {
        let is_scoped = self.prefixes(chain[0].unit)?.is_some();
        let listed: &[_] = match is_scoped {
            true => &[dw::DW_AT_linkage_name, dw::DW_AT_name],
            false => &[dw::DW_AT_name],
        };
        for &name in listed {
            if let Some(one) = chain.iter().find(|one| one.has(name)) {
                return self.debug.text(one, name);
            }
        }
        Ok(Cow::Borrowed(b""))
    }

    /// The prefixes for names of types in a unit; `None` in C.
    fn prefixes(&mut self, unit: &Unit<'a>) -> Result<Option<Rc<Prefixes>>> {
        if let Some(known) = self.prefixes.get(&unit.start) {
            return Ok(known.clone());
        }
        let made = match Language::of_unit(unit)? {
            Some(Language::Scoped) => Some(Rc::new(Prefixes::of(self.debug, unit)?)),
            _ => None,
        };
        self.prefixes.insert(unit.start, made.clone());
        Ok(made)
    }
}

/// The entry that gives the type of a function or object: a definition before its declaration,
/// which may lack the length of an array.
fn type_source<'e, 'd, 'a>(chain: &'e [Entry<'d, 'a>]) -> Option<&'e Entry<'d, 'a>> {
    chain.iter().find(|one| one.has(dw::DW_AT_type))
}

/// Whether an entry with a tag may be part of a class.
pub(super) fn is_of_class(tag: DwTag) -> bool {
    let is_type = kind(tag) != Kind::Unknown;
    is_type
        || matches!(
            tag,
            dw::DW_TAG_member
                | dw::DW_TAG_variable
                | dw::DW_TAG_constant
                | dw::DW_TAG_inheritance
                | dw::DW_TAG_subprogram
                | dw::DW_TAG_variant_part
                | dw::DW_TAG_friend
                | dw::DW_TAG_access_declaration
                | dw::DW_TAG_imported_declaration
                | dw::DW_TAG_imported_module
                | dw::DW_TAG_template_type_parameter
                | dw::DW_TAG_template_value_parameter
                | dw::DW_TAG_GNU_template_template_param
                | dw::DW_TAG_GNU_template_parameter_pack
                | dw::DW_TAG_subrange_type
                | dw::DW_TAG_ptr_to_member_type
                | dw::DW_TAG_unspecified_type
        )
}

fn is_argument(tag: DwTag) -> bool {
    tag == dw::DW_TAG_formal_parameter || tag == dw::DW_TAG_unspecified_parameters
}

fn kind(tag: DwTag) -> Kind {
    match tag {
        dw::DW_TAG_structure_type | dw::DW_TAG_class_type => Kind::Struct,
        dw::DW_TAG_union_type => Kind::Union,
        dw::DW_TAG_enumeration_type => Kind::Enum,
        // gcc writes references in C too, for the arguments of OpenMP blocks.
        dw::DW_TAG_pointer_type | dw::DW_TAG_reference_type | dw::DW_TAG_rvalue_reference_type => {
            Kind::Pointer
        }
        dw::DW_TAG_typedef | dw::DW_TAG_template_alias => Kind::Typedef,
        dw::DW_TAG_const_type => Kind::Const,
        dw::DW_TAG_volatile_type => Kind::Volatile,
        dw::DW_TAG_restrict_type => Kind::Restrict,
        dw::DW_TAG_atomic_type => Kind::Atomic,
        dw::DW_TAG_base_type => Kind::Integer,
        dw::DW_TAG_array_type => Kind::Array,
        dw::DW_TAG_subroutine_type => Kind::Function,
        _ => Kind::Unknown,
    }
}

/// A number as unsigned; refused if damage made it negative or too large.
pub(super) fn natural(value: i128) -> Result<u64> {
    match u64::try_from(value) {
        Ok(value) if value < 1 << 63 => Ok(value),
        _ => refuse("a type has a place or a size that no type of C has: damage"),
    }
}

pub(super) fn size(entry: &Entry<'_, '_>) -> Result<Option<u64>> {
    entry.constant(dw::DW_AT_byte_size).map(natural).transpose()
}

fn base(entry: &Entry<'_, '_>, made: &mut Record<'_>) -> Result<()> {
    made.size = size(entry)?.unwrap_or(0);
    let bits = entry.constant(dw::DW_AT_bit_size).map(natural).transpose()?.unwrap_or(0);
    let bits = if bits != 0 { bits } else { made.size.saturating_mul(8) };
    let mut flags = 0;
    match dw::DwAte(entry.constant(dw::DW_AT_encoding).unwrap_or(0) as u8) {
        dw::DW_ATE_boolean => flags = BOOLEAN,
        dw::DW_ATE_signed => flags = SIGNED,
        dw::DW_ATE_signed_char => flags = SIGNED | CHARACTER,
        dw::DW_ATE_unsigned_char => flags = CHARACTER,
        dw::DW_ATE_float
        | dw::DW_ATE_complex_float
        | dw::DW_ATE_imaginary_float
        | dw::DW_ATE_decimal_float
        | dw::DW_ATE_lo_user => {
            made.kind = Kind::Float;
            made.tag = Kind::Float;
        }
        _ => {}
    }
    made.encoding = Encoding { flags, offset: 0, bits };
    Ok(())
}

/// The offset of a member in bytes. Older DWARF has an expression for it.
pub(super) fn location(member: &Entry<'_, '_>) -> Result<i128> {
    let Some(said) = member.block(dw::DW_AT_data_member_location) else {
        return Ok(member.constant(dw::DW_AT_data_member_location).unwrap_or(0));
    };
    match said.split_first() {
        Some((&op, rest)) if dw::DwOp(op) == dw::DW_OP_plus_uconst => {
            let mut rest = gimli::EndianSlice::new(rest, RunTimeEndian::Little);
            Ok(rest.read_uleb128()?.into())
        }
        _ => Ok(0),
    }
}
