//! Debug information: the files that have it, their units, and the entries of these.
//!
//! Each entry has a key, which is unique among all files: the number of its file, its section, and
//! its offset in that.

use crate::dwarf::line::MOST_AHEAD;
use crate::dwarf::plain_unit::plain_unit;
use crate::dwarf::sections::{borrow_all, dwo_id, Sections, Skeleton};
use crate::error::{refuse, Result};
use gimli::Section as _;
use gimli::{constants as dw, DwAt, DwTag, UnitType};
use gimli::{Abbreviation, AttributeValue, EndianSlice, RunTimeEndian, UnitHeader, UnitOffset};
use smallvec::SmallVec;
use std::borrow::Cow;
use std::collections::{HashMap, HashSet};
use std::sync::atomic::{AtomicI64, Ordering};
use std::sync::OnceLock;

pub type Slice<'a> = EndianSlice<'a, RunTimeEndian>;
pub type Attribute<'a> = gimli::Attribute<Slice<'a>>;
pub type Lines<'a> = gimli::IncompleteLineProgram<Slice<'a>>;

/// The lowest bit of the file's number in a key.
const FILE: u32 = 40;
/// The bit of a key for entries in .debug_types.
const TYPES: u64 = 1 << (FILE - 1);
/// The number of dwz's common file.
const COMMON: u64 = 1;

/// The limit on bytes that are read repeatedly: `LEAST_WORK`, plus `TIMES_WORK` for each byte of
/// the sections.
const LEAST_WORK: usize = 16 << 20;
const TIMES_WORK: usize = 64;
/// Names up to this length do not count: they take no more time than the entries that have them.
const SHORT_NAME: usize = 64;
/// The bytes that count for reading an entry.
const STEP: usize = 16;

/// Units of at least this many bytes are read by several threads.
const WORTH_THREADS: usize = 1 << 17;

/// A unit that is not opened yet.
struct Slot<'a> {
    header: UnitHeader<Slice<'a>>,
    start: u64,
    end: u64,
    /// The start of the skeleton unit in the program, for a unit in a .dwo file.
    skeleton: Option<u64>,
    opened: OnceLock<Result<Box<Unit<'a>>>>,
}

/// A unit. `start` is the key of its first byte, and `end` the key after its last.
pub struct Unit<'a> {
    pub inner: gimli::Unit<Slice<'a>>,
    pub start: u64,
    end: u64,
}

impl Unit<'_> {
    fn file(&self) -> u64 {
        self.start >> FILE
    }

    pub fn has(&self, key: u64) -> bool {
        (self.start..self.end).contains(&key)
    }

    pub fn key(&self, offset: UnitOffset) -> u64 {
        self.start + offset.0 as u64
    }

    /// The size of the unit in bytes.
    pub fn bytes(&self) -> usize {
        (self.end - self.start) as usize
    }
}

/// The debug information of a program, from all files that have it: the program, dwz's common file,
/// and .dwo files. `slots` has all units, ordered by their keys; `order` has the indexes of those
/// that are read, in order.
pub struct Debug<'a> {
    files: Vec<gimli::Dwarf<Slice<'a>>>,
    has_common: bool,
    /// The byte order of all of them.
    pub endian: RunTimeEndian,
    slots: Vec<Slot<'a>>,
    order: Vec<usize>,
    signatures: HashMap<u64, u64>,
    /// How many more bytes may be read repeatedly.
    left: AtomicI64,
}

impl<'a> Debug<'a> {
    pub fn new(sections: &'a Sections<'a>) -> Result<Debug<'a>> {
        let endian = sections.endian;
        let main = borrow_all(&sections.main, endian);
        let common = match &sections.common {
            Some(common) => borrow_all(common, endian),
            None => gimli::Dwarf::load(|_| Ok::<_, gimli::Error>(EndianSlice::new(&[], endian)))?,
        };
        let mut debug = Debug {
            files: vec![main, common],
            has_common: sections.common.is_some(),
            endian,
            slots: Vec::new(),
            order: Vec::new(),
            signatures: HashMap::new(),
            left: AtomicI64::new(0),
        };
        debug.take_units(sections)?;
        let work = LEAST_WORK.saturating_add(debug.all_bytes().saturating_mul(TIMES_WORK));
        debug.left = AtomicI64::new(i64::try_from(work).unwrap_or(i64::MAX));
        for slot in &debug.slots {
            if let UnitType::Type { type_signature, type_offset }
            | UnitType::SplitType { type_signature, type_offset } = slot.header.type_()
            {
                let key = slot.start + type_offset.0 as u64;
                debug.signatures.entry(type_signature.0).or_insert(key);
            }
        }
        Ok(debug)
    }

    /// Adds all units of the program; each skeleton is replaced by the units that it stands for.
    fn take_units(&mut self, sections: &'a Sections<'a>) -> Result<()> {
        let mut ordered: Vec<u64> = Vec::new();
        let mut met = HashSet::new();
        for slot in slots(&self.files[0], 0, None)? {
            match sections.skeletons.get(&slot.start) {
                None => ordered.push(slot.start),
                Some(skeleton) => {
                    let is_first = met.insert(skeleton.split);
                    let units = self.split_units(sections, skeleton, slot.start, is_first)?;
                    ordered.extend(units.iter().map(|one| one.start));
                    self.slots.extend(units);
                }
            }
            self.slots.push(slot);
        }
        self.slots.extend(slots(&self.files[COMMON as usize], COMMON << FILE, None)?);
        self.slots.sort_by_key(|slot| slot.start);
        let place = |key: u64| self.slots.partition_point(|slot| slot.start < key);
        self.order = ordered.into_iter().map(place).collect();
        Ok(())
    }

    /// The units that a skeleton stands for: those of its .dwo file, or its own in a package, whose
    /// type units come with the first.
    fn split_units(
        &mut self,
        sections: &'a Sections<'a>,
        skeleton: &Skeleton,
        start: u64,
        is_first: bool,
    ) -> Result<Vec<Slot<'a>>> {
        let split = &sections.splits[skeleton.split];
        let parts = split.parts(&self.files[0], skeleton.id, is_first)?;
        let (mut own, mut of_types) = (Vec::new(), Vec::new());
        for dwarf in parts {
            let file = (self.files.len() as u64) << FILE;
            for slot in slots(&dwarf, file, Some(start))? {
                let is_type = matches!(
                    slot.header.type_(),
                    UnitType::Type { .. } | UnitType::SplitType { .. }
                );
                if is_type {
                    of_types.push(slot);
                } else if dwo_id(&dwarf, &slot.header)? == Some(skeleton.id) {
                    own.push(slot);
                }
            }
            self.files.push(dwarf);
        }
        if own.is_empty() {
            return refuse(format!(
                "{} is of another build: it lacks the unit that {} refers to",
                split.path.display(),
                skeleton.name
            ));
        }
        own.truncate(1);
        own.append(&mut of_types);
        Ok(own)
    }

    /// The number of units that are read.
    pub fn units(&self) -> usize {
        self.order.len()
    }

    pub fn has_common(&self) -> bool {
        self.has_common
    }

    fn slot(&self, number: usize) -> &Slot<'a> {
        &self.slots[self.order[number]]
    }

    /// The start of the unit with a number.
    pub fn start(&self, number: usize) -> u64 {
        self.slot(number).start
    }

    /// The size of the unit with a number, in bytes.
    pub fn unit_bytes(&self, number: usize) -> u64 {
        let slot = self.slot(number);
        slot.end - slot.start
    }

    pub fn version(&self, number: usize) -> u16 {
        self.slot(number).header.version()
    }

    /// Whether a unit is a partial unit of DWARF 5, as dwz writes them.
    pub fn is_partial(&self, number: usize) -> bool {
        self.slot(number).header.type_() == UnitType::Partial
    }

    fn dwarf(&self, file: u64) -> &gimli::Dwarf<Slice<'a>> {
        &self.files[file as usize]
    }

    /// The size of all entries in bytes.
    pub fn entry_bytes(&self) -> usize {
        self.files.iter().map(|file| file.debug_info.reader().len()).sum()
    }

    /// The number of threads that walk a unit: one if the program has more units than there are
    /// threads, else a share in proportion to the unit's part of the entries. A thread that waits
    /// for the others may read another unit meanwhile, so several are used only if there are so few
    /// units that none waits for its turn.
    pub fn threads_for(&self, unit: &Unit<'a>) -> usize {
        let threads = rayon::current_num_threads();
        if unit.bytes() < WORTH_THREADS || self.units() > threads.min(MOST_AHEAD) {
            return 1;
        }
        (threads * unit.bytes()).div_ceil(self.entry_bytes().max(1)).min(threads)
    }

    /// The size of the sections with types, in bytes.
    fn all_bytes(&self) -> usize {
        let bytes = |file: &gimli::Dwarf<Slice<'a>>| {
            file.debug_info.reader().len()
                + file.debug_types.reader().len()
                + file.debug_str.reader().len()
                + file.debug_line_str.reader().len()
        };
        self.files.iter().map(bytes).sum()
    }

    /// Counts entries that may have been read before. Refuses more than any program needs.
    pub fn count_entries(&self, entries: usize) -> Result<()> {
        self.count_bytes(entries.saturating_mul(STEP))
    }

    fn count_bytes(&self, bytes: usize) -> Result<()> {
        let bytes = i64::try_from(bytes).unwrap_or(i64::MAX);
        if self.left.fetch_sub(bytes, Ordering::Relaxed) < bytes {
            return refuse(format!(
                "it takes more work than to look at {} MB and {TIMES_WORK} times at each byte that \
                 was read: a file is damaged, or made to take long",
                LEAST_WORK >> 20
            ));
        }
        Ok(())
    }

    /// The number of units in all files.
    pub fn slot_count(&self) -> usize {
        self.slots.len()
    }

    /// Opens the unit with an index among those of all files, for the caller alone.
    pub fn open_place(&self, place: usize) -> Result<Unit<'a>> {
        self.open_slot(&self.slots[place])
    }

    /// Opens the unit with a number, for the caller alone.
    pub fn open(&self, number: usize) -> Result<Unit<'a>> {
        self.open_slot(self.slot(number))
    }

    fn open_slot(&self, slot: &Slot<'a>) -> Result<Unit<'a>> {
        let mut inner = plain_unit(self.dwarf(slot.start >> FILE), slot.header)?;
        if let Some(skeleton) = slot.skeleton {
            let place = self.slots.partition_point(|slot| slot.start < skeleton);
            let skeleton = plain_unit(self.dwarf(0), self.slots[place].header)?;
            inner.copy_relocated_attributes(&skeleton);
        }
        Ok(Unit { inner, start: slot.start, end: slot.end })
    }

    /// The unit that contains an entry. It is opened once and shared.
    pub fn unit_of(&self, key: u64) -> Result<&Unit<'a>> {
        let number = self.slots.partition_point(|slot| slot.start <= key);
        let slot = number.checked_sub(1).map(|number| &self.slots[number]);
        match slot {
            Some(slot) if key < slot.end => {
                let opened = slot.opened.get_or_init(|| self.open_slot(slot).map(Box::new));
                opened.as_deref().map_err(|error| crate::error::Error(error.0.clone()))
            }
            _ => refuse("an entry outside of all units: damage"),
        }
    }

    /// The entry with a key; `near` is the unit that most often has it.
    pub fn entry<'d>(&'d self, near: &'d Unit<'a>, key: u64) -> Result<Entry<'d, 'a>> {
        let unit = if near.has(key) { near } else { self.unit_of(key)? };
        Entry::read(unit, UnitOffset((key - unit.start) as usize))
    }

    /// The key of the entry that an attribute refers to, without reading the entry.
    pub fn key(&self, entry: &Entry<'_, 'a>, name: DwAt) -> Result<Option<u64>> {
        let Some(value) = entry.value(name) else { return Ok(None) };
        Ok(Some(match value {
            AttributeValue::UnitRef(at) => entry.unit.key(at),
            AttributeValue::DebugInfoRef(at) => entry.unit.file() << FILE | at.0 as u64,
            AttributeValue::DebugInfoRefSup(at) => COMMON << FILE | at.0 as u64,
            AttributeValue::DebugTypesRef(signature) => match self.signatures.get(&signature.0) {
                Some(&key) => key,
                None => return refuse("a type unit that is not there: damage"),
            },
            _ => return Ok(None),
        }))
    }

    /// The entry that an attribute refers to.
    pub fn target<'d>(
        &'d self,
        entry: &Entry<'d, 'a>,
        name: DwAt,
    ) -> Result<Option<Entry<'d, 'a>>> {
        self.key(entry, name)?.map(|key| self.entry(entry.unit, key)).transpose()
    }

    /// The name of an entry; empty if it has none.
    pub fn name(&self, entry: &Entry<'_, 'a>) -> Result<Cow<'a, [u8]>> {
        self.text(entry, dw::DW_AT_name)
    }

    pub fn text(&self, entry: &Entry<'_, 'a>, name: DwAt) -> Result<Cow<'a, [u8]>> {
        let Some(value) = entry.value(name) else { return Ok(Cow::Borrowed(b"")) };
        let found = match value {
            AttributeValue::DebugStrRefSup(at) => self.dwarf(COMMON).string(at)?,
            value => self.dwarf(entry.unit.file()).attr_string(&entry.unit.inner, value)?,
        };
        if found.len() > SHORT_NAME {
            self.count_bytes(found.len())?;
        }
        Ok(Cow::Borrowed(found.slice()))
    }

    /// The line table of a unit; `None` if it has none or lines were not loaded.
    pub fn lines(&self, unit: &Unit<'a>) -> Result<Option<Lines<'a>>> {
        Ok(self.dwarf(unit.file()).unit(unit.inner.header)?.line_program)
    }

    /// The name of the source file with a number in a unit, without folders; empty if there is
    /// none.
    pub fn file_name(
        &self,
        unit: &Unit<'a>,
        lines: Option<&Lines<'a>>,
        number: i128,
    ) -> Result<&'a [u8]> {
        let file = lines.zip(u64::try_from(number).ok());
        let file = file.and_then(|(lines, number)| lines.header().file(number));
        let Some(file) = file else { return Ok(&[]) };
        let path = self.dwarf(unit.file()).attr_string(&unit.inner, file.path_name())?.slice();
        let folder = path.iter().rposition(|&byte| byte == b'/').map_or(0, |slash| slash + 1);
        Ok(&path[folder..])
    }

    /// The address that an attribute's value gives.
    pub fn address(&self, entry: &Entry<'_, 'a>, value: AttributeValue<Slice<'a>>) -> Option<u64> {
        let dwarf = self.dwarf(entry.unit.file());
        dwarf.attr_address(&entry.unit.inner, value).ok().flatten()
    }

    /// The addresses at which a function and its parts begin, in most cases the function's own
    /// first; none if it is only declared or inlined.
    pub fn starts(&self, entry: &Entry<'_, 'a>) -> Result<Vec<u64>> {
        let low = entry.value(dw::DW_AT_low_pc);
        if let Some(at) = low.and_then(|value| self.address(entry, value)) {
            return Ok(vec![at]);
        }
        let Some(listed) = entry.find(dw::DW_AT_ranges) else { return Ok(Vec::new()) };
        let dwarf = self.dwarf(entry.unit.file());
        let mut made = Vec::new();
        if let Some(mut ranges) = dwarf.attr_ranges(&entry.unit.inner, listed.value())? {
            while let Some(range) = ranges.next()? {
                if range.begin != range.end {
                    made.push(range.begin);
                }
            }
        }
        Ok(made)
    }
}

/// All units of a file, whose keys begin at `file`.
fn slots<'a>(
    dwarf: &gimli::Dwarf<Slice<'a>>,
    file: u64,
    skeleton: Option<u64>,
) -> Result<Vec<Slot<'a>>> {
    let mut made = Vec::new();
    let mut add = |header: UnitHeader<Slice<'a>>, start: u64| {
        let end = start + header.length_including_self() as u64;
        made.push(Slot { header, start, end, skeleton, opened: OnceLock::new() });
    };
    let mut units = dwarf.units();
    while let Some(header) = units.next()? {
        let at = header.offset().as_debug_info_offset().map_or(0, |at| at.0 as u64);
        add(header, file | at);
    }
    let mut units = dwarf.type_units();
    while let Some(header) = units.next()? {
        let at = header.offset().as_debug_types_offset().map_or(0, |at| at.0 as u64);
        add(header, file | TYPES | at);
    }
    Ok(made)
}

/// The attributes that are read. Each has the bit of its index here in an `Attributes`.
const LOOKED_AT: [DwAt; 28] = [
    dw::DW_AT_name,
    dw::DW_AT_type,
    dw::DW_AT_byte_size,
    dw::DW_AT_data_member_location,
    dw::DW_AT_bit_size,
    dw::DW_AT_bit_offset,
    dw::DW_AT_data_bit_offset,
    dw::DW_AT_encoding,
    dw::DW_AT_const_value,
    dw::DW_AT_upper_bound,
    dw::DW_AT_count,
    dw::DW_AT_declaration,
    dw::DW_AT_external,
    dw::DW_AT_specification,
    dw::DW_AT_abstract_origin,
    dw::DW_AT_signature,
    dw::DW_AT_location,
    dw::DW_AT_low_pc,
    dw::DW_AT_ranges,
    dw::DW_AT_language,
    dw::DW_AT_import,
    dw::DW_AT_dwo_name,
    dw::DW_AT_linkage_name,
    dw::DW_AT_virtuality,
    dw::DW_AT_decl_line,
    dw::DW_AT_decl_file,
    dw::DW_AT_GNU_vector,
    dw::DW_AT_GNU_dwo_name,
];

/// A set of these attributes.
type Attributes = u32;

/// The bits of attributes whose numbers are below 128.
const BITS: [Attributes; 128] = {
    let (mut bits, mut place) = ([0; 128], 0);
    while place < LOOKED_AT.len() {
        if LOOKED_AT[place].0 < 128 {
            bits[LOOKED_AT[place].0 as usize] = 1 << place;
        }
        place += 1;
    }
    bits
};

/// The bit of an attribute; 0 for those that are not read.
#[inline]
const fn bit(name: DwAt) -> Attributes {
    match name {
        DwAt(number) if number < 128 => BITS[number as usize],
        dw::DW_AT_GNU_vector => 1 << (LOOKED_AT.len() - 2),
        dw::DW_AT_GNU_dwo_name => 1 << (LOOKED_AT.len() - 1),
        _ => 0,
    }
}

/// The line and the file of a declaration, which are seldom needed.
const LINE: Attributes = bit(dw::DW_AT_decl_line);
const FILE_NUMBER: Attributes = bit(dw::DW_AT_decl_file);
/// All attributes but these two.
const KEPT: Attributes = !(LINE | FILE_NUMBER);
/// The attributes that give the type of an argument.
const OF_ARGUMENT: Attributes = bit(dw::DW_AT_type) | bit(dw::DW_AT_abstract_origin);

/// An entry, with those of its attributes that are read.
pub struct Entry<'d, 'a> {
    pub unit: &'d Unit<'a>,
    pub offset: UnitOffset,
    pub tag: DwTag,
    /// The attributes that `said` has.
    has: Attributes,
    said: SmallVec<[Attribute<'a>; 4]>,
    has_children: bool,
    inside: UnitOffset,
}

impl<'d, 'a> Entry<'d, 'a> {
    pub fn read(unit: &'d Unit<'a>, offset: UnitOffset) -> Result<Entry<'d, 'a>> {
        Entry::read_kept(unit, offset, KEPT)
    }

    /// Reads an argument, with only the attributes that give its type.
    pub fn read_argument(unit: &'d Unit<'a>, offset: UnitOffset) -> Result<Entry<'d, 'a>> {
        Entry::read_kept(unit, offset, OF_ARGUMENT)
    }

    /// Reads an entry, with the line of its declaration too.
    pub fn read_with_line(unit: &'d Unit<'a>, offset: UnitOffset) -> Result<Entry<'d, 'a>> {
        Entry::read_kept(unit, offset, KEPT | LINE)
    }

    /// Reads an entry, with the file of its declaration too.
    pub fn read_with_file(unit: &'d Unit<'a>, offset: UnitOffset) -> Result<Entry<'d, 'a>> {
        Entry::read_kept(unit, offset, KEPT | FILE_NUMBER)
    }

    fn read_kept(
        unit: &'d Unit<'a>,
        offset: UnitOffset,
        kept: Attributes,
    ) -> Result<Entry<'d, 'a>> {
        let mut raw = unit.inner.entries_raw(Some(offset))?;
        match raw.read_abbreviation()? {
            Some(shape) => Entry::read_on(unit, offset, shape, &mut raw, kept),
            None => refuse("a reference to no entry: damage"),
        }
    }

    /// The top entry of a unit, which contains all others.
    pub fn top(unit: &'d Unit<'a>) -> Result<Entry<'d, 'a>> {
        Entry::read(unit, unit.inner.entries_raw(None)?.next_offset())
    }

    /// Reads the attributes of an entry, after its abbreviation code.
    fn read_on(
        unit: &'d Unit<'a>,
        offset: UnitOffset,
        shape: &Abbreviation,
        raw: &mut gimli::EntriesRaw<'_, '_, Slice<'a>>,
        kept: Attributes,
    ) -> Result<Entry<'d, 'a>> {
        let (mut said, mut has) = (SmallVec::new(), 0);
        let specs = shape.attributes();
        let mut next = 0;
        for (place, spec) in specs.iter().enumerate() {
            let bit = bit(spec.name()) & kept;
            if bit != 0 {
                raw.skip_attributes(&specs[next..place])?;
                said.push(raw.read_attribute(*spec)?);
                has |= bit;
                next = place + 1;
            }
        }
        raw.skip_attributes(&specs[next..])?;
        let (tag, has_children) = (shape.tag(), shape.has_children());
        Ok(Entry { unit, offset, tag, has, said, has_children, inside: raw.next_offset() })
    }

    #[inline]
    fn find(&self, name: DwAt) -> Option<&Attribute<'a>> {
        match self.has(name) {
            true => self.said.iter().find(|one| one.name() == name),
            false => None,
        }
    }

    /// Whether it has an attribute, one of those that are read.
    #[inline]
    pub fn has(&self, name: DwAt) -> bool {
        self.has & bit(name) != 0
    }

    /// The raw value of an attribute.
    #[inline]
    pub fn value(&self, name: DwAt) -> Option<AttributeValue<Slice<'a>>> {
        self.find(name).map(Attribute::raw_value)
    }

    /// The number that is an attribute's value; `None` if it has none, or another kind of value.
    #[inline]
    pub fn constant(&self, name: DwAt) -> Option<i128> {
        Some(match self.value(name)? {
            AttributeValue::Data1(value) => value.into(),
            AttributeValue::Data2(value) => value.into(),
            AttributeValue::Data4(value) => value.into(),
            AttributeValue::Data8(value) => value.into(),
            AttributeValue::Udata(value) => value.into(),
            AttributeValue::Sdata(value) => value.into(),
            _ => return None,
        })
    }

    /// The bytes of an attribute that is an expression.
    #[inline]
    pub fn block(&self, name: DwAt) -> Option<&'a [u8]> {
        match self.value(name)? {
            AttributeValue::Exprloc(found) => Some(found.0.slice()),
            AttributeValue::Block(found) => Some(found.slice()),
            _ => None,
        }
    }

    /// The direct children of the entry, in order.
    pub fn children(&self) -> Result<Children<'d, 'a, impl Fn(DwTag) -> bool>> {
        self.children_of(|_| true)
    }

    /// The direct children with certain tags. The others are skipped without reading their
    /// attributes.
    pub fn children_of<W: Fn(DwTag) -> bool>(&self, is_wanted: W) -> Result<Children<'d, 'a, W>> {
        let raw = self.has_children.then(|| self.unit.inner.entries_raw(Some(self.inside)));
        Ok(Children { unit: self.unit, raw: raw.transpose()?, depth: 0, steps: 0, is_wanted })
    }
}

/// An iterator over the children of an entry.
pub struct Children<'d, 'a, W> {
    unit: &'d Unit<'a>,
    /// `None` after the last.
    raw: Option<gimli::EntriesRaw<'d, 'd, Slice<'a>>>,
    depth: usize,
    steps: usize,
    is_wanted: W,
}

impl<'d, 'a, W: Fn(DwTag) -> bool> Iterator for Children<'d, 'a, W> {
    type Item = Result<Entry<'d, 'a>>;

    fn next(&mut self) -> Option<Result<Entry<'d, 'a>>> {
        let next = self.read_next().transpose();
        if !matches!(next, Some(Ok(_))) {
            self.raw = None;
        }
        next
    }
}

impl<'d, 'a, W: Fn(DwTag) -> bool> Children<'d, 'a, W> {
    /// The number of entries passed so far.
    pub fn steps(&self) -> usize {
        self.steps
    }

    fn read_next(&mut self) -> Result<Option<Entry<'d, 'a>>> {
        let Some(raw) = &mut self.raw else { return Ok(None) };
        while !raw.is_empty() {
            let offset = raw.next_offset();
            self.steps += 1;
            let Some(shape) = raw.read_abbreviation()? else {
                let Some(outer) = self.depth.checked_sub(1) else { break };
                self.depth = outer;
                continue;
            };
            if self.depth == 0 && (self.is_wanted)(shape.tag()) {
                self.depth += usize::from(shape.has_children());
                return Entry::read_on(self.unit, offset, shape, raw, KEPT).map(Some);
            }
            match behind(shape, raw)? {
                Some(behind) => *raw = entries_behind(self.unit, raw, behind)?,
                None => self.depth += usize::from(shape.has_children()),
            }
        }
        Ok(None)
    }
}

/// The entries of a unit from an offset on, which an entry gives as that of its sibling.
pub(super) fn entries_behind<'d, 'a>(
    unit: &'d Unit<'a>,
    raw: &gimli::EntriesRaw<'d, 'd, Slice<'a>>,
    behind: UnitOffset,
) -> Result<gimli::EntriesRaw<'d, 'd, Slice<'a>>> {
    if behind < raw.next_offset() {
        return refuse("DW_AT_sibling points backwards: the debug information is damaged");
    }
    Ok(unit.inner.entries_raw(Some(behind))?)
}

/// Skips attributes. Returns the offset of the entry's sibling, if it gives one.
pub(super) fn behind(
    shape: &Abbreviation,
    raw: &mut gimli::EntriesRaw<'_, '_, Slice<'_>>,
) -> Result<Option<UnitOffset>> {
    let specs = shape.attributes();
    let place = specs.iter().position(|one| one.name() == dw::DW_AT_sibling);
    let Some(place) = place.filter(|_| shape.has_children()) else {
        raw.skip_attributes(specs)?;
        return Ok(None);
    };
    raw.skip_attributes(&specs[..place])?;
    let sibling = raw.read_attribute(specs[place])?.raw_value();
    raw.skip_attributes(&specs[place + 1..])?;
    match sibling {
        AttributeValue::UnitRef(at) => Ok(Some(at)),
        _ => Ok(None),
    }
}
