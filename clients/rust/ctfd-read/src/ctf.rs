//! Reads CTF version 2: its sections, decompressed, and its records, as a table that continues that
//! of a parent. FreeBSD's version 3 is the same with type numbers of 32 bits instead of 16.
//!
//! The library checks each dictionary before it is used, so this module only refuses what it cannot
//! read.

use crate::bytes::{part, Names, Reader};
use crate::error::{refuse, Error, Result};
use crate::section::{LONG_MEMBERS, LONG_SIZE};
use crate::table::{Encoding, Enumerator, Kind, Member, Name, Parts, Record, Table};
use flate2::write::ZlibEncoder;
use flate2::{Compression, Decompress, FlushDecompress, Status};
use object::endian::{Endian as _, Endianness};
use std::borrow::Cow;
use std::io::Write as _;

/// The size of a header in bytes.
pub const HEADER: usize = 36;
/// The greatest size of a dictionary in bytes.
pub const LONGEST: u64 = 67_108_864;
/// The first bytes of a dictionary of version 2, in either byte order.
const BEGINS: [[u8; 3]; 2] = [[0xf1, 0xcf, 2], [0xcf, 0xf1, 2]];
/// The first bytes of version 3, which FreeBSD has written since release 14, in either byte order.
const BEGINS_WIDE: [[u8; 3]; 2] = [[0xf1, 0xcf, 3], [0xcf, 0xf1, 3]];
/// The own types of a child have numbers above this one.
const CHILD: u32 = 0x8000;
const WIDE_CHILD: u32 = 0x8000_0000;
const WIDE_LONG_SIZE: u32 = 0xffff_ffff;
const WIDE_LONG_MEMBERS: u64 = 536_870_912;
/// The offset of the flags in a header.
const FLAGS: usize = 3;
const COMPRESSED: u8 = 1;
const MOST_PADDING: usize = 16;
const WHAT: &str = "dictionary";

/// The byte order of a dictionary, and whether it has version 3.
#[derive(Clone, Copy, PartialEq, Eq)]
pub struct Layout {
    endian: Endianness,
    /// Whether type numbers have 32 bits.
    pub is_wide: bool,
}

impl Layout {
    /// The layout of a dictionary; `None` if the bytes do not begin like one.
    pub fn of(bytes: &[u8]) -> Option<Layout> {
        let begins = |listed: &[[u8; 3]; 2]| listed.iter().position(|one| bytes.starts_with(one));
        let of = |place, is_wide| Layout {
            endian: if place == 0 { Endianness::Little } else { Endianness::Big },
            is_wide,
        };
        let narrow = begins(&BEGINS).map(|place| of(place, false));
        narrow.or_else(|| begins(&BEGINS_WIDE).map(|place| of(place, true)))
    }

    /// Whether this is the layout of the dictionaries that this program writes.
    pub fn is_native(self) -> bool {
        self.endian == Endianness::Little && !self.is_wide
    }

    fn child(self) -> u32 {
        if self.is_wide {
            WIDE_CHILD
        } else {
            CHILD
        }
    }

    /// The type numbers that some bytes encode.
    fn numbers(self, bytes: &[u8]) -> Vec<u32> {
        if self.is_wide {
            let word = |one: &[u8]| self.endian.read_u32_bytes([one[0], one[1], one[2], one[3]]);
            return bytes.chunks_exact(4).map(word).collect();
        }
        let half = |one: &[u8]| self.endian.read_u16_bytes([one[0], one[1]]).into();
        bytes.chunks_exact(2).map(half).collect()
    }

    /// The size of a type number in bytes.
    fn width(self) -> usize {
        if self.is_wide {
            4
        } else {
            2
        }
    }
}

/// The sections of a dictionary whose body is not compressed.
pub struct Sections<'a> {
    /// The encoding of its numbers.
    pub layout: Layout,
    /// A reference to the name of its parent's label.
    pub parent_label: u32,
    /// A reference to the name of its parent; 0 if it has none.
    pub parent_name: u32,
    /// The labels, each a reference to a name and a type number.
    pub labels: &'a [u8],
    /// The types of objects.
    pub objects: &'a [u8],
    /// The entries of functions.
    pub functions: &'a [u8],
    /// The records of types.
    pub types: &'a [u8],
    /// The names.
    pub names: &'a [u8],
}

impl<'a> Sections<'a> {
    /// The sections of a dictionary.
    pub fn of(bytes: &'a [u8]) -> Result<Sections<'a>> {
        let little = Layout { endian: Endianness::Little, is_wide: false };
        let layout = Layout::of(bytes).unwrap_or(little);
        let mut head = Reader::new(bytes, layout.endian, WHAT);
        head.take(4)?;
        let (parent_label, parent_name) = (head.word()?, head.word()?);
        let mut ends = [0; 6];
        for end in &mut ends {
            *end = u64::from(head.word()?);
        }
        let body = part(bytes, HEADER as u64, (bytes.len() - HEADER) as u64, WHAT)?;
        let between = |from: u64, to: u64| {
            let length = to.checked_sub(from).ok_or_else(|| head.damage())?;
            part(body, from, length, WHAT)
        };
        Ok(Sections {
            layout,
            parent_label,
            parent_name,
            labels: between(ends[0], ends[1])?,
            objects: between(ends[1], ends[2])?,
            functions: between(ends[2], ends[3])?,
            types: between(ends[3], ends[4])?,
            names: part(body, ends[4], ends[5], WHAT)?,
        })
    }
}

/// The dictionaries of a section that has several, one after another, as ld concatenates those of
/// object files. The whole section if it has one or none.
pub fn each(section: &[u8]) -> Vec<&[u8]> {
    let mut found = Vec::new();
    let mut at = 0;
    while Layout::of(&section[at..]).is_some() {
        let Some(length) = length_of(&section[at..]) else {
            found.push(&section[at..]);
            break;
        };
        found.push(&section[at..at + length]);
        at += length;
        at += section[at..].iter().take(MOST_PADDING).take_while(|&&byte| byte == 0).count();
    }
    if found.len() > 1 {
        found
    } else {
        vec![section]
    }
}

/// Compresses the body of a dictionary.
pub fn deflate(ctf: &[u8]) -> Result<Vec<u8>> {
    let Some((header, body)) = ctf.split_at_checked(HEADER) else {
        return refuse("a damaged dictionary");
    };
    let mut made = header.to_vec();
    made[FLAGS] |= COMPRESSED;
    let mut encoder = ZlibEncoder::new(made, Compression::best());
    encoder.write_all(body)?;
    Ok(encoder.finish()?)
}

/// The size of the first dictionary in bytes; `None` if it can't be determined. Decompresses no
/// more than its header states.
fn length_of(bytes: &[u8]) -> Option<usize> {
    let (names, length) = lengths(bytes)?;
    let end = HEADER as u64 + names + length;
    if bytes[FLAGS] & COMPRESSED == 0 {
        return usize::try_from(end).ok().filter(|&end| end <= bytes.len());
    }
    if end > LONGEST {
        return None;
    }
    let mut inflater = Decompress::new(true);
    let mut out = vec![0; 1 << 16];
    loop {
        let from = &bytes[HEADER + inflater.total_in() as usize..];
        let before = (inflater.total_in(), inflater.total_out());
        match inflater.decompress(from, &mut out, FlushDecompress::None).ok()? {
            Status::StreamEnd => return Some(HEADER + inflater.total_in() as usize),
            _ if before == (inflater.total_in(), inflater.total_out()) => return None,
            _ if inflater.total_out() > names + length => return None,
            _ => {}
        }
    }
}

/// The offset of the names after the header, and their length, from the header.
fn lengths(bytes: &[u8]) -> Option<(u64, u64)> {
    let endian = Layout::of(bytes).map_or(Endianness::Little, |layout| layout.endian);
    let number = |at: usize| {
        let bytes = bytes.get(at..at + 4)?;
        Some(u64::from(endian.read_u32_bytes([bytes[0], bytes[1], bytes[2], bytes[3]])))
    };
    (bytes.len() >= HEADER).then(|| Some((number(28)?, number(32)?)))?
}

/// Decompresses the body of a dictionary and clears the flag; a dictionary without the flag is
/// returned as it is. The size in the header is a bound, since a small body may decompress to any
/// size.
pub fn inflate(bytes: &[u8]) -> Result<Cow<'_, [u8]>> {
    if bytes.len() < HEADER || bytes[FLAGS] & COMPRESSED == 0 {
        return Ok(Cow::Borrowed(bytes));
    }
    let (names, length) = lengths(bytes).unwrap_or_default();
    let wanted = names + length;
    if HEADER as u64 + wanted > LONGEST {
        return refuse(format!(
            "its body inflates to {wanted} bytes, and the service takes {LONGEST} in all"
        ));
    }
    let mut body = vec![0; wanted as usize + 1];
    let mut inflater = Decompress::new(true);
    inflater
        .decompress(&bytes[HEADER..], &mut body, FlushDecompress::Finish)
        .map_err(|error| Error(format!("its body does not inflate ({error}): damage")))?;
    let count = inflater.total_out();
    if count != wanted {
        let said = if count > wanted { format!("more than {wanted}") } else { count.to_string() };
        return refuse(format!(
            "its body inflates to {said} bytes, where its header says {wanted}"
        ));
    }
    body.truncate(wanted as usize);
    let mut whole = bytes[..HEADER].to_vec();
    whole[FLAGS] &= !COMPRESSED;
    whole.append(&mut body);
    Ok(Cow::Owned(whole))
}

/// The records of a section as a table, after those of its parent. For a child without its parent,
/// they come after unknown records, as many as a parent may have. `strings` is the string table of
/// the ELF file.
pub fn table_of<'a>(
    sections: &Sections<'a>,
    strings: &'a [u8],
    parent: Option<Table<'a>>,
) -> Result<Table<'a>> {
    let is_child = sections.parent_name != 0;
    let mut table = Table { lacks_parent: is_child && parent.is_none(), ..Table::default() };
    if is_child {
        table.records = match parent {
            Some(parent) => parent.records,
            None => vec![Record::unknown(); CHILD as usize - 1],
        };
    }
    table.bases = table.len();
    let mut section = Section {
        names: Names(sections.names),
        strings: Names(strings),
        has_outer_names: false,
        is_child,
        parents: table.bases,
        layout: sections.layout,
        types: Reader::new(sections.types, sections.layout.endian, WHAT),
    };
    while !section.types.is_empty() {
        let record = section.record()?;
        table.records.push(record);
    }
    section.symbols(sections, &mut table)?;
    table.has_outer_names = section.has_outer_names;
    Ok(table)
}

/// State while the records of a section are read.
struct Section<'a> {
    names: Names<'a>,
    strings: Names<'a>,
    has_outer_names: bool,
    is_child: bool,
    parents: u32,
    layout: Layout,
    types: Reader<'a>,
}

impl<'a> Section<'a> {
    /// Reads the types of symbols, and the labels. An entry that refers to a missing type counts as
    /// absent: the library checks entries only together with the symbols.
    fn symbols(&mut self, sections: &Sections<'a>, table: &mut Table<'a>) -> Result<()> {
        let count = table.len();
        let objects = self.layout.numbers(sections.objects).into_iter();
        table.objects =
            objects.map(|n| self.number(n)).map(|n| if n <= count { n } else { 0 }).collect();
        table.functions = self
            .entries(sections.functions)
            .into_iter()
            .map(|one| one.filter(|one| one.references().all(|n| n <= count)))
            .collect();
        for label in sections.labels.chunks_exact(8) {
            let mut label = Reader::new(label, self.layout.endian, WHAT);
            let (name, last) = (label.word()?, label.word()?);
            let last = if self.layout.is_wide { last } else { last & 0xffff };
            let last = self.number(last);
            table.labels.push((self.name(name)?, last));
        }
        table.parent_name = self.name(sections.parent_name)?;
        table.parent_label = self.name(sections.parent_label)?;
        Ok(())
    }

    /// The entries of functions, up to the first that is cut off.
    fn entries(&self, functions: &[u8]) -> Vec<Option<Record<'a>>> {
        let words: Vec<u32> = self.layout.numbers(functions);
        let mut found = Vec::new();
        let mut at = 0;
        while at < words.len() {
            let most = if self.layout.is_wide { 0x1ff_ffff } else { 0x3ff };
            let count = (words[at] & most) as usize;
            if words[at] == 0 {
                found.push(None);
                at += 1;
                continue;
            }
            let Some(listed) = words.get(at + 2..at + 2 + count) else { break };
            let mut record = Record::new(Kind::Function, Cow::Borrowed(b""));
            record.of = self.number(words[at + 1]);
            self.arguments(&mut record, listed);
            found.push(Some(record));
            at += 2 + count;
        }
        found
    }

    /// Sets the arguments of a function. A 0 after them means that more may follow.
    fn arguments(&self, record: &mut Record<'a>, listed: &[u32]) {
        record.varargs = listed.last() == Some(&0);
        let listed = &listed[..listed.len() - usize::from(record.varargs)];
        record.parts = Parts::Arguments(listed.iter().map(|&n| self.number(n)).collect());
    }

    /// A name, from the dictionary's strings or those of the ELF file.
    fn name(&mut self, reference: u32) -> Result<Name<'a>> {
        let (place, is_outer) = (reference & 0x7fff_ffff, reference >> 31 != 0);
        if place == 0 {
            return Ok(Cow::Borrowed(b""));
        }
        if is_outer && self.strings.0.is_empty() {
            return refuse(
                "its names stand in the strings of the ELF file that it was taken from: name that \
                 file in place of the section",
            );
        }
        self.has_outer_names |= is_outer;
        let names = if is_outer { self.strings } else { self.names };
        names.at(place.into()).map(Cow::Borrowed).ok_or_else(|| self.types.damage())
    }

    /// The number in the table for a type number of the dictionary.
    fn number(&self, n: u32) -> u32 {
        let child = self.layout.child();
        if self.is_child && n > child {
            (n - child).saturating_add(self.parents)
        } else {
            n
        }
    }

    /// Reads a type number.
    fn reference(&mut self) -> Result<u32> {
        let n = if self.layout.is_wide { self.types.word()? } else { self.types.half()?.into() };
        Ok(self.number(n))
    }

    fn record(&mut self) -> Result<Record<'a>> {
        let name = self.types.word()?;
        let (kind, is_root, count, mut size, is_long) = if self.layout.is_wide {
            let (info, field) = (self.types.word()?, self.types.word()?);
            let is_long = field == WIDE_LONG_SIZE;
            (info >> 26, info >> 25 & 1 != 0, info & 0x1ff_ffff, u64::from(field), is_long)
        } else {
            let (info, field) = (u32::from(self.types.half()?), u64::from(self.types.half()?));
            (info >> 11, info >> 10 & 1 != 0, info & 0x3ff, field, field == LONG_SIZE)
        };
        if is_long {
            size = u64::from(self.types.word()?) << 32 | u64::from(self.types.word()?);
        }
        let Some(kind) = Kind::of_number(kind as u16) else { return Err(self.types.damage()) };
        let count = count as usize;
        let mut record = Record::new(kind, self.name(name)?);
        record.root = is_root;
        self.fields(&mut record, size, count)?;
        Ok(record)
    }

    /// Reads the fields of a record after its name.
    fn fields(&mut self, record: &mut Record<'a>, size: u64, count: usize) -> Result<()> {
        match record.kind {
            Kind::Integer | Kind::Float => {
                record.size = size;
                record.encoding = Encoding::of_word(self.types.word()?);
            }
            Kind::Array => {
                record.size = size;
                record.of = self.reference()?;
                record.index = self.reference()?;
                record.elements = self.types.word()?.into();
            }
            Kind::Function => {
                record.of = self.number(size as u32);
                let listed = self.types.take(self.layout.width() * (count + count % 2))?;
                self.arguments(record, &self.layout.numbers(listed)[..count]);
            }
            Kind::Struct | Kind::Union => {
                record.size = size;
                record.parts = Parts::Members(self.members(size, count)?);
            }
            Kind::Enum => {
                record.size = size;
                record.parts = Parts::Values(self.values(count)?);
            }
            Kind::Forward => record.tag = Kind::of_forward(size),
            Kind::Unknown | Kind::Atomic => {}
            _ => record.of = self.number(size as u32),
        }
        Ok(())
    }

    fn members(&mut self, size: u64, count: usize) -> Result<Box<[Member<'a>]>> {
        let mut members = Vec::new();
        for _ in 0..count {
            let (name, of) = (self.types.word()?, self.reference()?);
            let is_wide = self.layout.is_wide;
            let most = if is_wide { WIDE_LONG_MEMBERS } else { LONG_MEMBERS };
            let offset = if size >= most {
                if !is_wide {
                    self.types.half()?;
                }
                u64::from(self.types.word()?) << 32 | u64::from(self.types.word()?)
            } else if is_wide {
                self.types.word()?.into()
            } else {
                self.types.half()?.into()
            };
            let name = self.name(name)?;
            members.push(Member { name, of, offset, width: None });
        }
        Ok(members.into())
    }

    fn values(&mut self, count: usize) -> Result<Box<[Enumerator<'a>]>> {
        let mut values = Vec::new();
        for _ in 0..count {
            let (name, value) = (self.types.word()?, self.types.word()?);
            values.push(Enumerator { name: self.name(name)?, value: i128::from(value as i32) });
        }
        Ok(values.into())
    }
}
