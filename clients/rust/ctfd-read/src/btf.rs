//! Reads BTF, the kernel's own type information, into a table.
//!
//! The format is described in the kernel's `Documentation/bpf/btf.rst`: a header, types numbered in
//! order, and names. The numbers of a module's types continue those of its base.

use crate::bytes::{part, Names, Reader};
use crate::error::{refuse, Error, Result};
use crate::table::{Encoding, Enumerator, Kind, Member, Name, Parts, Record, Table};
use object::endian::Endianness;
use std::borrow::Cow;
use std::collections::HashMap;

const MAGIC: [u8; 2] = [0x9f, 0xeb];
const BIG_ENDIAN_MAGIC: [u8; 2] = [0xeb, 0x9f];
const WHAT: &str = "BTF";

const SIGNED: u8 = 1;
const CHARACTER: u8 = 2;
const BOOLEAN: u8 = 4;

/// A function or a variable, with the number of its type in the table.
pub struct NamedSymbol<'a> {
    /// Its name.
    pub name: Name<'a>,
    /// The number of its type; 0 if it has none.
    pub of: u32,
}

/// A BTF section that was read.
#[derive(Default)]
pub struct Btf<'a> {
    /// For each BTF number the number in the table; 0 for entries that are no types.
    numbers: Vec<u32>,
    names: JoinedNames<'a>,
    /// The types with a name, and all enums.
    pub roots: Vec<u32>,
    /// The functions, by name.
    pub functions: Vec<NamedSymbol<'a>>,
    /// The variables, by name.
    pub objects: Vec<NamedSymbol<'a>>,
}

/// The names of a base, followed by those of a module.
#[derive(Clone, Default)]
struct JoinedNames<'a> {
    tables: Vec<&'a [u8]>,
}

impl<'a> JoinedNames<'a> {
    fn at(&self, place: u32) -> Result<&'a [u8]> {
        let mut place = u64::from(place);
        for table in &self.tables {
            if place < table.len() as u64 {
                return Names(table).at(place).ok_or_else(damage);
            }
            place -= table.len() as u64;
        }
        Err(damage())
    }
}

/// Whether bytes begin like BTF, in either byte order.
pub fn is_btf(bytes: &[u8]) -> bool {
    bytes.starts_with(&MAGIC) || bytes.starts_with(&BIG_ENDIAN_MAGIC)
}

/// Adds the types of a section to a table, after those of its base, which the table has already.
pub fn read<'a>(bytes: &'a [u8], table: &mut Table<'a>, base: Option<&Btf<'a>>) -> Result<Btf<'a>> {
    Section::new(bytes, base)?.read(table).map_err(|error| match base {
        None => error,
        Some(_) => Error(format!("{error}, or is not that of a module over this base")),
    })
}

/// An entry of BTF: a type, whose references are BTF numbers, or something else.
enum Entry<'a> {
    Type(Record<'a>),
    Function(Name<'a>, u32),
    Variable(Name<'a>, u32),
    Alias(u32),
    Other,
}

/// State while a section is read.
struct Section<'a> {
    types: Reader<'a>,
    made: Btf<'a>,
    records: Vec<(u32, Record<'a>)>,
    aliases: HashMap<u32, u32>,
    functions: Vec<(Name<'a>, u32)>,
    objects: Vec<(Name<'a>, u32)>,
}

impl<'a> Section<'a> {
    fn new(bytes: &'a [u8], base: Option<&Btf<'a>>) -> Result<Section<'a>> {
        let endian = match bytes.get(..2) {
            Some(magic) if magic == MAGIC => Endianness::Little,
            Some(magic) if magic == BIG_ENDIAN_MAGIC => Endianness::Big,
            _ => return Err(damage()),
        };
        let mut head = Reader::new(&bytes[2..], endian, WHAT);
        let (version, _flags) = (head.byte()?, head.byte()?);
        if version != 1 {
            return refuse(format!("is BTF of version {version}, and only 1 is known"));
        }
        let length = u64::from(head.word()?);
        let [type_at, types, name_at, names] =
            [head.word()?, head.word()?, head.word()?, head.word()?];
        let of_body = |at: u32, count: u32| part(bytes, length + u64::from(at), count.into(), WHAT);
        let mut made = Btf { numbers: vec![0], ..Btf::default() };
        if let Some(base) = base {
            made.numbers.clone_from(&base.numbers);
            made.names.tables.clone_from(&base.names.tables);
        }
        made.names.tables.push(of_body(name_at, names)?);
        Ok(Section {
            types: Reader::new(of_body(type_at, types)?, endian, WHAT),
            made,
            records: Vec::new(),
            aliases: HashMap::new(),
            functions: Vec::new(),
            objects: Vec::new(),
        })
    }

    /// Reads all types. Numbers are assigned first, since types may refer to later ones.
    fn read(mut self, table: &mut Table<'a>) -> Result<Btf<'a>> {
        while !self.types.is_empty() {
            let own = self.made.numbers.len() as u32;
            let entry = self.entry()?;
            let mut number = 0;
            match entry {
                Entry::Type(record) => {
                    number = table.add(Record::unknown());
                    self.records.push((number, record));
                }
                Entry::Function(name, of) => self.functions.push((name, of)),
                Entry::Variable(name, of) => self.objects.push((name, of)),
                Entry::Alias(of) => {
                    self.aliases.insert(own, of);
                }
                Entry::Other => {}
            }
            self.made.numbers.push(number);
        }
        for (number, mut record) in std::mem::take(&mut self.records) {
            let mut is_sound = true;
            record.renumber(|n| {
                let known = self.number(n);
                is_sound &= known.is_some();
                known.unwrap_or(0)
            });
            if !is_sound {
                return Err(damage());
            }
            if !record.name.is_empty() || record.kind == Kind::Enum {
                self.made.roots.push(number);
            }
            table.records[number as usize - 1] = record;
        }
        self.made.functions = self.symbols(|section| std::mem::take(&mut section.functions))?;
        self.made.objects = self.symbols(|section| std::mem::take(&mut section.objects))?;
        Ok(self.made)
    }

    fn symbols(
        &mut self,
        listed: impl FnOnce(&mut Self) -> Vec<(Name<'a>, u32)>,
    ) -> Result<Vec<NamedSymbol<'a>>> {
        listed(self)
            .into_iter()
            .map(|(name, n)| Ok(NamedSymbol { name, of: self.number(n).ok_or_else(damage)? }))
            .collect()
    }

    /// The number in the table for a BTF number, through the tags on it; `None` if there is no such
    /// type.
    fn number(&mut self, mut n: u32) -> Option<u32> {
        let mut passed = Vec::new();
        while let Some(&next) = self.aliases.get(&n).filter(|_| passed.len() <= self.aliases.len())
        {
            passed.push(n);
            n = next;
        }
        for one in passed {
            self.aliases.insert(one, n);
        }
        self.made.numbers.get(n as usize).copied()
    }

    fn name(&self, place: u32) -> Result<Name<'a>> {
        self.made.names.at(place).map(Cow::Borrowed)
    }

    fn entry(&mut self) -> Result<Entry<'a>> {
        let (place, info, field) = (self.types.word()?, self.types.word()?, self.types.word()?);
        let (kind, count, has_flag) = (info >> 24 & 0x1f, info & 0xffff, info >> 31 != 0);
        let name = self.name(place)?;
        match kind {
            12 => return Ok(Entry::Function(name, field)),
            14 => {
                self.types.word()?;
                return Ok(Entry::Variable(name, field));
            }
            15 | 17 => {
                let length = if kind == 15 { 12 * count } else { 4 };
                self.types.take(length as usize)?;
                return Ok(Entry::Other);
            }
            18 => return Ok(Entry::Alias(field)),
            1..=19 => {}
            _ => {
                return refuse(format!(
                    "it has a type of kind {kind}, which is newer than this program: kinds 1 to 19 \
                     are read"
                ))
            }
        }
        let mut record = Record::new(kind_of(kind), name);
        self.fields(&mut record, field, count, (kind, has_flag))?;
        Ok(Entry::Type(record))
    }

    /// Reads the fields of a type after its name; `field` is the type's size, or the type that it
    /// refers to.
    fn fields(
        &mut self,
        record: &mut Record<'a>,
        field: u32,
        count: u32,
        (kind, has_flag): (u32, bool),
    ) -> Result<()> {
        match record.kind {
            Kind::Integer => self.integer(record, field)?,
            Kind::Float => {
                record.size = field.into();
                record.encoding.bits = 8 * u64::from(field);
            }
            Kind::Struct | Kind::Union => {
                record.size = field.into();
                record.parts = Parts::Members(self.members(count, has_flag)?);
            }
            Kind::Enum => {
                record.size = field.into();
                record.parts = Parts::Values(self.values(count, kind == 19, has_flag)?);
            }
            Kind::Forward => record.tag = if has_flag { Kind::Union } else { Kind::Struct },
            Kind::Typedef => record.of = field,
            Kind::Array => {
                record.name = Cow::Borrowed(b"");
                record.of = self.types.word()?;
                record.index = self.types.word()?;
                record.elements = self.types.word()?.into();
            }
            Kind::Function => self.function(record, field, count)?,
            _ => {
                record.name = Cow::Borrowed(b"");
                record.of = field;
            }
        }
        Ok(())
    }

    fn integer(&mut self, record: &mut Record<'a>, size: u32) -> Result<()> {
        let said = self.types.word()?;
        let mut flags = 0;
        for (theirs, ours) in [(1, SIGNED), (2, CHARACTER), (4, BOOLEAN)] {
            if said >> 24 & theirs != 0 {
                flags |= ours;
            }
        }
        if size == 1 && matches!(&*record.name, b"char" | b"signed char" | b"unsigned char") {
            flags |= CHARACTER;
        }
        record.size = size.into();
        let [bits, _, offset, _] = said.to_le_bytes();
        record.encoding = Encoding { flags, offset, bits: bits.into() };
        Ok(())
    }

    fn members(&mut self, count: u32, has_widths: bool) -> Result<Box<[Member<'a>]>> {
        let mut members = Vec::new();
        for _ in 0..count {
            let (name, of, place) = (self.types.word()?, self.types.word()?, self.types.word()?);
            let (width, offset) =
                if has_widths { (place >> 24, place & 0xff_ffff) } else { (0, place) };
            members.push(Member {
                name: self.name(name)?,
                of,
                offset: offset.into(),
                width: (width != 0).then_some(width as u16),
            });
        }
        Ok(members.into())
    }

    fn values(
        &mut self,
        count: u32,
        is_long: bool,
        is_signed: bool,
    ) -> Result<Box<[Enumerator<'a>]>> {
        let mut values = Vec::new();
        for _ in 0..count {
            let (name, low) = (self.types.word()?, self.types.word()?);
            let value = match (is_long, is_signed) {
                (false, false) => i128::from(low),
                (false, true) => i128::from(low as i32),
                (true, _) => {
                    let value = u64::from(self.types.word()?) << 32 | u64::from(low);
                    if is_signed {
                        i128::from(value as i64)
                    } else {
                        i128::from(value)
                    }
                }
            };
            values.push(Enumerator { name: self.name(name)?, value });
        }
        Ok(values.into())
    }

    /// Reads a function. A last argument of no type means that more may follow.
    fn function(&mut self, record: &mut Record<'a>, returns: u32, count: u32) -> Result<()> {
        let mut arguments = Vec::new();
        for _ in 0..count {
            self.types.word()?;
            arguments.push(self.types.word()?);
        }
        record.name = Cow::Borrowed(b"");
        record.of = returns;
        record.varargs = arguments.last() == Some(&0);
        if record.varargs {
            arguments.pop();
        }
        record.parts = Parts::Arguments(arguments.into());
        Ok(())
    }
}

/// The kind of a record for a BTF kind.
fn kind_of(number: u32) -> Kind {
    match number {
        1 => Kind::Integer,
        2 => Kind::Pointer,
        3 => Kind::Array,
        4 => Kind::Struct,
        5 => Kind::Union,
        6 | 19 => Kind::Enum,
        7 => Kind::Forward,
        8 => Kind::Typedef,
        9 => Kind::Volatile,
        10 => Kind::Const,
        11 => Kind::Restrict,
        13 => Kind::Function,
        16 => Kind::Float,
        _ => Kind::Unknown,
    }
}

fn damage() -> Error {
    Error("its BTF is damaged or cut off".to_owned())
}
