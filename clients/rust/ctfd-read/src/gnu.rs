//! Reads GNU's CTF, version 3, which `gcc -gctf` and ld write, into a table.
//!
//! An archive has one dictionary for what all units share, and one for each unit with types of its
//! own; all go into one table. No crate reads this format.

use crate::bytes::{part, Names, Reader};
use crate::ctf::LONGEST;
use crate::error::{refuse, Error, Result};
use crate::table::{Encoding, Enumerator, Kind, Member, Name, Parts, Record, Table};
use flate2::{Decompress, FlushDecompress};
use object::endian::{Endian as _, Endianness};
use std::borrow::Cow;
use std::collections::HashMap;

/// The first bytes of a dictionary, in either byte order.
pub const MAGICS: [[u8; 2]; 2] = [[0xf2, 0xdf], [0xdf, 0xf2]];
/// The first bytes of an archive of dictionaries, whatever their byte order.
pub const ARCHIVE: [u8; 8] = 0x8b47_f2a4_d762_3eeb_u64.to_le_bytes();
const VERSION: u8 = 4; // in the bytes: the format calls it 3
const HEADER: u64 = 4 + 12 * 4;
const COMPRESSED: u8 = 1;
const NEW_FUNCTIONS: u8 = 2;
const DYNAMIC: u8 = 8;
const SLICE: u32 = 14;
const LONG: u32 = 0xffff_ffff;
const LONG_MEMBERS: u64 = 536_870_912;
const CHILD: u32 = 0x8000_0000;
const WHAT: &str = "GNU CTF";

/// The types of functions or objects, by their numbers in the table, and their names. Without
/// names, they are in the order of symbols.
#[derive(Default)]
pub struct SymbolTypes<'a> {
    /// The numbers of the types.
    pub types: Vec<u32>,
    /// The names of the functions or objects.
    pub names: Option<Vec<Name<'a>>>,
}

/// The types of the symbols in one dictionary.
pub struct Entries<'a> {
    /// The objects.
    pub objects: SymbolTypes<'a>,
    /// The functions.
    pub functions: SymbolTypes<'a>,
    /// Whether those without names are in the order of `.dynsym`; else of `.symtab`.
    pub is_dynamic: bool,
}

/// The type of a bit-field: some bits of another type.
#[derive(Clone, Copy)]
struct Slice {
    of: u32,
    offset: u16,
    bits: u16,
}

/// The dictionaries of a section, decompressed. In an archive, the shared one comes first.
pub fn dictionaries(section: &[u8]) -> Result<Vec<Cow<'_, [u8]>>> {
    dictionaries_of(section)?.into_iter().map(inflate).collect()
}

fn dictionaries_of(section: &[u8]) -> Result<Vec<&[u8]>> {
    if !section.starts_with(&ARCHIVE) {
        return Ok(vec![section]);
    }
    let mut head = Reader::new(section, Endianness::Little, WHAT);
    head.take(16)?;
    let (count, names, start) = (head.long()?, head.long()?, head.long()?);
    let mut found = Vec::new();
    for _ in 0..count {
        let (name, at) = (head.long()?, head.long()?);
        let at = start.checked_add(at).ok_or_else(damage)?;
        let mut length = Reader::new(part(section, at, 8, WHAT)?, Endianness::Little, WHAT);
        let length = length.long()?;
        let name = names.checked_add(name).and_then(|at| Names(section).at(at));
        let is_shared = name.ok_or_else(damage)? == b".ctf";
        found.push((!is_shared, part(section, at + 8, length, WHAT)?));
    }
    found.sort_by_key(|&(is_own, _)| is_own); // a stable sort
    Ok(found.into_iter().map(|(_, one)| one).collect())
}

/// Decompresses the body of a dictionary, if it is compressed; the header states the size.
fn inflate(bytes: &[u8]) -> Result<Cow<'_, [u8]>> {
    if !MAGICS.iter().any(|magic| bytes.starts_with(magic)) {
        return refuse(format!("GNU CTF was expected, and it begins with {:02x?}", bytes.get(..4)));
    }
    match bytes.get(2) {
        Some(&VERSION) => {}
        said => {
            let said = said.map_or(0, |&number| number);
            return refuse(format!(
                "GNU CTF with format number {said}, and only {VERSION} is known"
            ));
        }
    }
    let mut head = Reader::new(bytes, endian(bytes), WHAT);
    head.take(HEADER as usize - 8)?;
    let wanted = u64::from(head.word()?) + u64::from(head.word()?);
    if bytes[3] & COMPRESSED == 0 {
        return Ok(Cow::Borrowed(bytes));
    }
    if wanted > LONGEST {
        return refuse(format!(
            "its body inflates to {wanted} bytes, more than a dictionary may have"
        ));
    }
    let mut body = vec![0; wanted as usize];
    let mut inflater = Decompress::new(true);
    inflater
        .decompress(head.rest(), &mut body, FlushDecompress::Finish)
        .map_err(|error| Error(format!("its body does not inflate ({error}): damage")))?;
    body.truncate(inflater.total_out() as usize);
    let mut whole = bytes[..HEADER as usize].to_vec();
    whole.append(&mut body);
    Ok(Cow::Owned(whole))
}

/// Whether symbols without names are in the order of the dynamic symbols.
pub fn is_dynamic(dictionaries: &[Cow<'_, [u8]>]) -> bool {
    dictionaries.first().and_then(|one| one.get(3)).is_some_and(|flags| flags & DYNAMIC != 0)
}

/// Adds the types of dictionaries to a table. Returns the symbols of each dictionary. `strings` is
/// the string table of the ELF file.
pub fn read<'a>(
    dictionaries: &'a [Cow<'_, [u8]>],
    strings: &'a [u8],
    table: &mut Table<'a>,
) -> Result<Vec<Entries<'a>>> {
    let mut found = Vec::new();
    let mut parent: Option<Dictionary<'a>> = None;
    for bytes in dictionaries {
        let mut one = Dictionary::new(bytes, strings, parent.as_ref())?;
        one.read(table)?;
        found.push(one.entries()?);
        if parent.is_none() {
            parent = Some(Dictionary { parent: None, ..one });
        }
    }
    let is_array = |n: u32| n != 0 && table.get(n).kind == Kind::Array;
    if table.records.iter().any(|one| one.kind == Kind::Array && is_array(one.of)) {
        table.losses.push(
            "an array of arrays: gcc before 14 writes the dimensions in reverse order, and they are \
             kept as written; the DWARF has the right order"
                .to_owned(),
        );
    }
    Ok(found)
}

/// A dictionary that is being read.
struct Dictionary<'a> {
    flags: u8,
    endian: Endianness,
    symbols: [&'a [u8]; 4],
    types: Reader<'a>,
    names: Names<'a>,
    strings: Names<'a>,
    parent: Option<Numbers>,
    own: Numbers,
}

/// The types of a dictionary, by its own numbers.
#[derive(Clone, Default)]
struct Numbers {
    numbers: Vec<u32>,
    slices: HashMap<u32, Slice>,
}

impl Numbers {
    /// The number in the table for an own number, through slices.
    fn of(&self, mut n: u32) -> Option<u32> {
        for _ in 0..=self.slices.len() {
            match self.slices.get(&n) {
                Some(slice) => n = slice.of & (CHILD - 1),
                None => return self.numbers.get(n as usize).copied(),
            }
        }
        None
    }
}

impl<'a> Dictionary<'a> {
    fn new(bytes: &'a [u8], strings: &'a [u8], parent: Option<&Dictionary<'a>>) -> Result<Self> {
        let endian = endian(bytes);
        let mut head = Reader::new(bytes, endian, WHAT);
        head.take(4)?;
        let mut fields = [0; 12];
        for field in &mut fields {
            *field = u64::from(head.word()?);
        }
        let body = head.rest();
        let between =
            |from: u64, to: u64| part(body, from, to.checked_sub(from).ok_or_else(damage)?, WHAT);
        let parent = parent.filter(|_| fields[1] != 0).map(|parent| parent.own.clone());
        Ok(Dictionary {
            flags: bytes[3],
            symbols: [
                between(fields[4], fields[5])?,
                between(fields[5], fields[6])?,
                between(fields[6], fields[7])?,
                between(fields[7], fields[8])?,
            ],
            types: Reader::new(between(fields[9], fields[10])?, endian, WHAT),
            endian,
            names: Names(part(body, fields[10], fields[11], WHAT)?),
            strings: Names(strings),
            parent,
            own: Numbers { numbers: vec![0], slices: HashMap::new() },
        })
    }

    /// Reads all types. Numbers are assigned first, since types may refer to later ones.
    fn read(&mut self, table: &mut Table<'a>) -> Result<()> {
        let mut records = Vec::new();
        while !self.types.is_empty() {
            let number = match self.record()? {
                Some(record) => {
                    let number = table.add(Record::unknown());
                    records.push((number, record));
                    number
                }
                None => 0,
            };
            self.own.numbers.push(number);
        }
        for (number, mut record) in records {
            if let Parts::Members(members) = &mut record.parts {
                for one in members.iter_mut() {
                    if let Some(slice) = self.slice(one.of) {
                        one.offset += u64::from(slice.offset);
                        one.width = Some(slice.bits);
                    }
                }
            }
            let mut is_sound = true;
            record.renumber(|n| {
                let known = self.number(n);
                is_sound &= known.is_some();
                known.unwrap_or(0)
            });
            if !is_sound {
                return Err(damage());
            }
            table.records[number as usize - 1] = record;
        }
        Ok(())
    }

    /// The types of symbols. Functions are skipped if tools from before 2021 wrote them, in another
    /// form.
    fn entries(&self) -> Result<Entries<'a>> {
        let [objects, functions, object_names, function_names] = self.symbols;
        let functions = if self.flags & NEW_FUNCTIONS != 0 { functions } else { &[] };
        Ok(Entries {
            objects: self.entries_of(objects, object_names)?,
            functions: self.entries_of(functions, function_names)?,
            is_dynamic: self.flags & DYNAMIC != 0,
        })
    }

    fn entries_of(&self, types: &[u8], names: &[u8]) -> Result<SymbolTypes<'a>> {
        let types = words(types, self.endian)
            .map(|n| self.number(n).ok_or_else(damage))
            .collect::<Result<_>>()?;
        let names = (!names.is_empty())
            .then(|| words(names, self.endian).map(|one| self.name(one)).collect::<Result<_>>())
            .transpose()?;
        Ok(SymbolTypes { types, names })
    }

    fn number(&self, n: u32) -> Option<u32> {
        match &self.parent {
            Some(parent) if n < CHILD => parent.of(n),
            _ => self.own.of(n & (CHILD - 1)),
        }
    }

    /// The slice with a number, in this dictionary or its parent.
    fn slice(&self, n: u32) -> Option<Slice> {
        match &self.parent {
            Some(parent) if n < CHILD => parent.slices.get(&n).copied(),
            _ => self.own.slices.get(&(n & (CHILD - 1))).copied(),
        }
    }

    fn name(&self, reference: u32) -> Result<Name<'a>> {
        let (place, is_outer) = (reference & 0x7fff_ffff, reference >> 31 != 0);
        if is_outer && self.strings.0.is_empty() {
            return refuse(
                "its names stand in the strings of the ELF file that it was taken from: name that \
                 file in place of the section",
            );
        }
        let names = if is_outer { self.strings } else { self.names };
        names.at(place.into()).map(Cow::Borrowed).ok_or_else(damage)
    }

    /// The next record; `None` if it is a slice.
    fn record(&mut self) -> Result<Option<Record<'a>>> {
        let (name, info, field) = (self.types.word()?, self.types.word()?, self.types.word()?);
        let mut size = u64::from(field);
        if field == LONG {
            size = u64::from(self.types.word()?) << 32 | u64::from(self.types.word()?);
        }
        let (number, count) = (info >> 26, info & 0x1ff_ffff);
        if number == SLICE {
            let (of, offset, bits) = (self.types.word()?, self.types.half()?, self.types.half()?);
            let own = self.own.numbers.len() as u32;
            self.own.slices.insert(own, Slice { of, offset, bits });
            return Ok(None);
        }
        let kind = u16::try_from(number).ok().and_then(Kind::of_number).ok_or_else(damage)?;
        let name = match kind {
            // gcc gives the type of a function the function's name, which C has not as a type's.
            Kind::Function => Cow::Borrowed(&b""[..]),
            _ => self.name(name)?,
        };
        let mut record = Record::new(kind, name);
        self.fields(&mut record, size, count)?;
        Ok(Some(record))
    }

    /// Reads the fields of a record after its name.
    fn fields(&mut self, record: &mut Record<'a>, size: u64, count: u32) -> Result<()> {
        match record.kind {
            Kind::Integer | Kind::Float => {
                record.size = size;
                record.encoding = Encoding::of_word(self.types.word()?);
            }
            Kind::Array => {
                record.of = self.types.word()?;
                record.index = self.types.word()?;
                record.elements = self.types.word()?.into();
            }
            Kind::Function => {
                record.of = size as u32;
                self.arguments(record, count as usize)?;
            }
            Kind::Struct | Kind::Union => {
                record.size = size;
                record.parts = Parts::Members(self.members(size, count)?);
            }
            Kind::Enum => {
                record.size = size;
                record.parts = Parts::Values(self.values(count)?);
            }
            Kind::Forward => record.tag = Kind::of_forward(size),
            Kind::Unknown | Kind::Atomic => {}
            _ => record.of = size as u32,
        }
        Ok(())
    }

    fn arguments(&mut self, record: &mut Record<'a>, count: usize) -> Result<()> {
        let listed = self.types.take(4 * (count + count % 2))?;
        let mut listed: Vec<u32> = words(listed, self.endian).take(count).collect();
        record.varargs = listed.last() == Some(&0);
        if record.varargs {
            listed.pop();
        }
        record.parts = Parts::Arguments(listed.into());
        Ok(())
    }

    fn members(&mut self, size: u64, count: u32) -> Result<Box<[Member<'a>]>> {
        let mut members = Vec::new();
        for _ in 0..count {
            let name = self.types.word()?;
            let (of, offset) = if size < LONG_MEMBERS {
                let offset = self.types.word()?;
                (self.types.word()?, offset.into())
            } else {
                let (high, of, low) = (self.types.word()?, self.types.word()?, self.types.word()?);
                (of, u64::from(high) << 32 | u64::from(low))
            };
            members.push(Member { name: self.name(name)?, of, offset, width: None });
        }
        Ok(members.into())
    }

    fn values(&mut self, count: u32) -> Result<Box<[Enumerator<'a>]>> {
        let mut values = Vec::new();
        for _ in 0..count {
            let (name, value) = (self.types.word()?, self.types.word()?);
            values.push(Enumerator { name: self.name(name)?, value: i128::from(value as i32) });
        }
        Ok(values.into())
    }
}

/// The 32-bit numbers in some bytes.
fn words(bytes: &[u8], endian: Endianness) -> impl Iterator<Item = u32> + '_ {
    bytes.chunks_exact(4).map(move |one| endian.read_u32_bytes([one[0], one[1], one[2], one[3]]))
}

/// The byte order of a dictionary, from its first bytes.
fn endian(bytes: &[u8]) -> Endianness {
    if bytes.starts_with(&MAGICS[1]) {
        Endianness::Big
    } else {
        Endianness::Little
    }
}

fn damage() -> Error {
    Error("its GNU CTF is damaged or cut off".to_owned())
}
