//! The parts of a program that its debug file needs: header, sections, segments, symbols, code and
//! build-id.

mod symbols;

pub use symbols::{listed_symbols, ProgramSymbol};

use crate::bytes::Names;
use crate::error::{refuse, Error, Result};
use crate::image::{Data, Image};
use ctfd::Model;
use object::elf::{self, FileHeader32, FileHeader64};
use object::read::elf::{FileHeader, ProgramHeader, SectionHeader};
use object::{Endianness, Object as _, SectionIndex};

/// The size of an ELF64 symbol, in bytes. The library takes such symbols.
const ENTRY: usize = 24;
/// Names may overlap: those that are read may have this many times the bytes of their table and its
/// entries.
const MOST_TIMES: u64 = 64;
/// With more sections than these, symbols do not have the numbers of theirs.
const MOST_SECTIONS: usize = 0xff00;

/// The fields of a file's header.
#[derive(Clone, Copy, Debug)]
pub struct Head {
    /// The type of the file, such as object file, program or library.
    pub kind: u16,
    /// Its machine.
    pub machine: u16,
    /// The address of the entry point.
    pub entry: u64,
    /// Flags of the machine.
    pub flags: u32,
    /// The system that the file is for.
    pub system: u8,
}

/// A section.
#[derive(Clone, Copy, Debug)]
pub struct Section<'a> {
    /// Its name.
    pub name: &'a [u8],
    /// Its type.
    pub kind: u32,
    /// Its flags.
    pub flags: u64,
    /// Its address in memory.
    pub address: u64,
    /// Its offset in the file.
    pub offset: u64,
    /// Its size in bytes.
    pub size: u64,
    /// The number of the section that it links to.
    pub link: u32,
    /// For a symbol table, the number of local symbols.
    pub info: u32,
    /// Its alignment.
    pub align: u64,
}

impl Section<'_> {
    /// Whether it is in memory when the program runs.
    pub fn is_loaded(&self) -> bool {
        self.flags & u64::from(elf::SHF_ALLOC) != 0
    }

    fn is_symbol_table(&self) -> bool {
        matches!(self.kind, elf::SHT_SYMTAB | elf::SHT_DYNSYM)
    }
}

/// A part of a file that is loaded into memory.
#[derive(Clone, Copy, Debug)]
pub struct Segment {
    /// Its flags: readable, writable, executable.
    pub flags: u32,
    /// Its offset in the file.
    pub offset: u64,
    /// Its address in memory.
    pub address: u64,
    /// Its physical address.
    pub physical: u64,
    /// Its size in memory, in bytes.
    pub size: u64,
    /// Its alignment.
    pub align: u64,
}

/// A program's file.
pub struct Debuggee<'a> {
    image: &'a Image,
    /// Its header.
    pub head: Head,
    /// Its data model, from its ELF class.
    pub model: Model,
    /// Its sections; the first is the empty one.
    pub sections: Vec<Section<'a>>,
    /// The segments that are loaded.
    pub segments: Vec<Segment>,
}

impl<'a> Debuggee<'a> {
    /// Reads the program in an ELF file.
    pub fn of(image: &'a Image) -> Result<Debuggee<'a>> {
        let parse = || {
            let file = image.elf()?;
            if !file.is_little_endian() {
                return refuse(
                    "a big-endian ELF file, which is not read: take a little-endian build of the \
                     program",
                );
            }
            match file.is_64() {
                true => Debuggee::parse::<FileHeader64<Endianness>>(image, Model::Lp64),
                false => Debuggee::parse::<FileHeader32<Endianness>>(image, Model::Ilp32),
            }
        };
        parse().map_err(|error| error.within(&image.path().display().to_string()))
    }

    fn parse<F>(image: &'a Image, model: Model) -> Result<Debuggee<'a>>
    where
        F: FileHeader<Endian = Endianness>,
    {
        let data = image.data();
        let header = F::parse(data)?;
        let endian = header.endian()?;
        let head = Head {
            kind: header.e_type(endian),
            machine: header.e_machine(endian),
            entry: header.e_entry(endian).into(),
            flags: header.e_flags(endian),
            system: header.e_ident().os_abi,
        };
        let is_loaded = |one: &&F::ProgramHeader| one.p_type(endian) == elf::PT_LOAD;
        let segments = header.program_headers(endian, data)?.iter().filter(is_loaded);
        let segment = |one: &F::ProgramHeader| Segment {
            flags: one.p_flags(endian),
            offset: one.p_offset(endian).into(),
            address: one.p_vaddr(endian).into(),
            physical: one.p_paddr(endian).into(),
            size: one.p_memsz(endian).into(),
            align: one.p_align(endian).into(),
        };
        let segments = segments.map(segment).collect();
        Ok(Debuggee { image, head, model, sections: sections_of(header, endian, data)?, segments })
    }

    /// The path of the file, for messages.
    pub fn path(&self) -> String {
        self.image.path().display().to_string()
    }

    /// The file.
    pub fn image(&self) -> &'a Image {
        self.image
    }

    /// Whether it is an object file or a kernel module, whose sections have no addresses.
    pub fn is_relocatable(&self) -> bool {
        self.head.kind == elf::ET_REL
    }

    /// The build-id; empty if there is none.
    pub fn build_id(&self) -> &'a [u8] {
        self.image.elf().and_then(|file| Ok(file.build_id()?)).ok().flatten().unwrap_or_default()
    }

    /// Whether another file is of the same build: the build-ids are equal, if both have one, and
    /// the loaded sections are the same.
    pub fn is_same_build(&self, other: &Debuggee<'_>) -> bool {
        let (own, others) = (self.build_id(), other.build_id());
        if !own.is_empty() && !others.is_empty() && own != others {
            return false;
        }
        self.loaded_sections().eq(other.loaded_sections())
    }

    /// The names, addresses and sizes of the loaded sections.
    fn loaded_sections(&self) -> impl Iterator<Item = (&'a [u8], u64, u64)> + '_ {
        let loaded = self.sections.iter().filter(|one| one.is_loaded());
        loaded.map(|one| (one.name, one.address, one.size))
    }

    /// The number of the first section with a name.
    pub fn section_of(&self, name: &str) -> Option<usize> {
        self.sections.iter().position(|one| one.name == name.as_bytes())
    }

    /// The number of the symbol table that a section links to; `None` if it links to none.
    pub fn linked_table(&self, link: u32) -> Option<usize> {
        let at = usize::try_from(link).ok()?;
        self.sections.get(at).is_some_and(Section::is_symbol_table).then_some(at)
    }

    /// The bytes of a section in the file.
    pub fn bytes(&self, section: &Section<'_>) -> Result<&'a [u8]> {
        use object::ReadRef as _;
        if section.kind == elf::SHT_NOBITS {
            return Ok(&[]);
        }
        let found = self.image.data().read_bytes_at(section.offset, section.size);
        found.map_err(|()| Error(format!("{}: a section is cut off", self.path())))
    }

    /// The string table of a symbol table.
    pub fn strings(&self, table: &Section<'_>) -> Result<&'a [u8]> {
        match self.sections.get(table.link as usize).filter(|_| table.link != 0) {
            Some(strings) => self.bytes(strings),
            None => refuse(format!("{}: a symbol table names no strings: damage", self.path())),
        }
    }

    /// At most `length` bytes of the program at an address, from its file; empty if they are not in
    /// it. In an object file, the address counts from the beginning of the section with the number
    /// `section`.
    pub fn code(&self, address: u64, length: u64, section: u16) -> &'a [u8] {
        use object::ReadRef as _;
        let listed = match section {
            0 => &self.sections[..],
            number => self
                .sections
                .get(usize::from(number)..)
                .and_then(|rest| rest.get(..1))
                .unwrap_or_default(),
        };
        let has = |one: &&Section<'_>| {
            let behind = address.checked_sub(one.address);
            one.is_loaded()
                && one.kind != elf::SHT_NOBITS
                && behind.is_some_and(|behind| behind < one.size)
        };
        let Some(one) = listed.iter().find(has) else { return &[] };
        let behind = address - one.address;
        let Some(at) = one.offset.checked_add(behind) else { return &[] };
        self.image.data().read_bytes_at(at, length.min(one.size - behind)).unwrap_or_default()
    }
}

fn sections_of<'a, F>(header: &'a F, endian: Endianness, data: Data<'a>) -> Result<Vec<Section<'a>>>
where
    F: FileHeader<Endian = Endianness>,
{
    let table = header.sections(endian, data)?;
    if table.len() > MOST_SECTIONS {
        return refuse(format!("more than {MOST_SECTIONS} sections, which is not read"));
    }
    let at = if table.is_empty() { 0 } else { header.shstrndx(endian, data)? };
    let names = match table.section(SectionIndex(at as usize)) {
        Ok(section) if at != 0 => Names(section.data(endian, data)?),
        _ => Names(&[]),
    };
    let mut left = MOST_TIMES * (names.0.len() + ENTRY * table.len()) as u64;
    let mut listed = Vec::with_capacity(table.len());
    for one in table.iter() {
        let name = names.at(one.sh_name(endian).into()).unwrap_or_default();
        left = left.saturating_sub(name.len() as u64);
        if left == 0 {
            return refuse("an ELF file whose section names are damaged");
        }
        listed.push(Section {
            name,
            kind: one.sh_type(endian),
            flags: one.sh_flags(endian).into(),
            address: one.sh_addr(endian).into(),
            offset: one.sh_offset(endian).into(),
            size: one.sh_size(endian).into(),
            link: one.sh_link(endian),
            info: one.sh_info(endian),
            align: one.sh_addralign(endian).into(),
        });
    }
    Ok(listed)
}
