//! The ELF file that is written: a program's sections without their bytes, and debug information.
//!
//! Debuggers take it for what `objcopy --only-keep-debug` keeps of the program: its sections have
//! the program's names, order, addresses and sizes, and it has the program's notes (with the
//! build-id) and symbols.

use super::numbering::{local_count, section_and_address, WrittenSections};
use super::sections::{DebugSection, RelocationKind};
use ctfd::Model;
use ctfd_read::debuggee::{Debuggee, Head, Section, Segment};
use ctfd_read::entry_symbols::identity_of;
use ctfd_read::error::{Error, Result};
use ctfd_read::opening::deflate;
use ctfd_read::symbols::SymbolTable;
use object::elf::{self, SHN_LORESERVE};
use object::write::elf::{FileHeader, ProgramHeader, Rel, SectionHeader, Writer};
use object::Endianness;
use std::borrow::Cow;
use std::collections::HashMap;

const LONGEST_ALIGN: u64 = 16;
const DICTIONARY: &[u8] = b".SUNW_ctf";
const ALIGN_OF_DICTIONARY: u64 = 4;

/// The bytes of a section in the output.
enum Bytes<'a> {
    /// No bytes: the section only has the size of the program's.
    None,
    Some(Cow<'a, [u8]>),
    Relocations(&'a [Rel], bool),
}

/// A section of the output.
struct OutputSection<'a> {
    name: Cow<'a, [u8]>,
    header: SectionHeader,
    bytes: Bytes<'a>,
}

impl<'a> OutputSection<'a> {
    fn new(name: impl Into<Cow<'a, [u8]>>, kind: u32, bytes: Bytes<'a>) -> OutputSection<'a> {
        let header = SectionHeader {
            name: None,
            sh_type: kind,
            sh_flags: 0,
            sh_addr: 0,
            sh_offset: 0,
            sh_size: 0,
            sh_link: 0,
            sh_info: 0,
            sh_addralign: 1,
            sh_entsize: 0,
        };
        OutputSection { name: name.into(), header, bytes }
    }

    fn of_debug(section: &'a DebugSection) -> OutputSection<'a> {
        let bytes = Bytes::Some(Cow::Borrowed(&section.bytes));
        let mut made = OutputSection::new(section.name.as_bytes(), elf::SHT_PROGBITS, bytes);
        if section.is_compressed {
            made.header.sh_flags = elf::SHF_COMPRESSED.into();
        }
        made
    }

    /// The number of bytes that the section takes in the file.
    fn length(&self, model: Model) -> usize {
        match &self.bytes {
            Bytes::None => 0,
            Bytes::Some(bytes) => bytes.len(),
            Bytes::Relocations(listed, is_rela) => listed.len() * relocation_size(model, *is_rela),
        }
    }

    fn align(&self) -> usize {
        self.header.sh_addralign.clamp(1, LONGEST_ALIGN).next_power_of_two() as usize
    }
}

/// A debug file for a program. The symbols may come from another copy of the program; the
/// dictionary is added if given.
pub fn beside(
    program: &Debuggee<'_>,
    symbols: &Debuggee<'_>,
    debug: &[DebugSection],
    dictionary: Option<&[u8]>,
) -> Result<Vec<u8>> {
    let mut numbers = HashMap::new();
    let mut listed = Vec::new();
    for (number, section) in program.sections.iter().enumerate() {
        if number != 0 && section.is_loaded() {
            listed.push(program_section(program, section)?);
            numbers.insert(number, listed.len());
        }
    }
    let table = listed.len() + 1;
    if let Some(at) = symbols.section_of(".symtab") {
        let section = &symbols.sections[at];
        listed.extend(symbol_table(program, symbols, section, table, &numbers)?);
    }
    let first = listed.len() + 1;
    listed.extend(debug.iter().map(OutputSection::of_debug));
    if let Some(kind) = RelocationKind::of(program) {
        for (place, section) in debug.iter().enumerate() {
            if !section.relocations.is_empty() {
                let of = (table as u32, (first + place) as u32);
                listed.push(relocations(section, kind.is_rela, of, program.model));
            }
        }
    }
    listed.extend(dictionary.map(|ctf| of_dictionary(ctf, symbols, table)).transpose()?);
    file(program.model, &program.head, &program.segments, listed)
}

/// The section of a dictionary, compressed as CTF defines. It links to the symbol table of index
/// `table` if the dictionary's symbols are in the order of `.symtab`.
fn of_dictionary<'a>(
    ctf: &'a [u8],
    symbols: &Debuggee<'_>,
    table: usize,
) -> Result<OutputSection<'a>> {
    let bytes = Bytes::Some(deflate(ctf)?);
    let mut made = OutputSection::new(DICTIONARY, elf::SHT_PROGBITS, bytes);
    let is_by_table = identity_of(ctf).is_some_and(|one| one.table == SymbolTable::Symtab);
    if is_by_table && symbols.section_of(SymbolTable::Symtab.word()).is_some() {
        made.header.sh_link = table as u32;
    }
    made.header.sh_addralign = ALIGN_OF_DICTIONARY;
    Ok(made)
}

/// A file with types only.
pub fn of_types(model: Model, debug: &[DebugSection]) -> Result<Vec<u8>> {
    file(model, &head_of(model), &[], debug.iter().map(OutputSection::of_debug).collect())
}

/// The header of a file that belongs to no program.
fn head_of(model: Model) -> Head {
    let machine = match model {
        Model::Lp64 => elf::EM_X86_64,
        Model::Ilp32 => elf::EM_386,
    };
    Head { kind: elf::ET_EXEC, machine, entry: 0, flags: 0, system: 0 }
}

/// A file with a dictionary, and its symbols if given: a table and its strings.
pub fn of_dictionary_alone(
    model: Model,
    ctf: &[u8],
    symbols: Option<(&[u8], &[u8])>,
) -> Result<Vec<u8>> {
    let mut listed = Vec::new();
    if let Some((table, strings)) = symbols {
        let bytes = Bytes::Some(table.into());
        let mut made = OutputSection::new(&b".symtab"[..], elf::SHT_SYMTAB, bytes);
        let size = if model == Model::Lp64 { 24 } else { 16 };
        made.header.sh_link = 2;
        made.header.sh_info = local_count(table, size, model);
        made.header.sh_addralign = word_of(model);
        made.header.sh_entsize = size as u64;
        let strings = Bytes::Some(strings.into());
        listed.extend([made, OutputSection::new(&b".strtab"[..], elf::SHT_STRTAB, strings)]);
    }
    listed.push(OutputSection::new(DICTIONARY, elf::SHT_PROGBITS, Bytes::Some(ctf.into())));
    file(model, &head_of(model), &[], listed)
}

/// A section of the program. A note keeps its bytes; other sections only their size in memory.
fn program_section<'a>(program: &Debuggee<'a>, section: &Section<'a>) -> Result<OutputSection<'a>> {
    let is_note = section.kind == elf::SHT_NOTE;
    let bytes = match is_note {
        true => Bytes::Some(Cow::Borrowed(program.bytes(section)?)),
        false => Bytes::None,
    };
    let kind = if is_note { elf::SHT_NOTE } else { elf::SHT_NOBITS };
    let mut made = OutputSection::new(section.name, kind, bytes);
    made.header.sh_flags = section.flags & !u64::from(elf::SHF_COMPRESSED);
    made.header.sh_addr = section.address;
    made.header.sh_size = section.size;
    made.header.sh_addralign = section.align;
    Ok(made)
}

/// The symbol table with the new section numbers, and its strings.
fn symbol_table<'a>(
    program: &Debuggee<'_>,
    symbols: &Debuggee<'a>,
    table: &Section<'a>,
    place: usize,
    numbers: &HashMap<usize, usize>,
) -> Result<[OutputSection<'a>; 2]> {
    let written = WrittenSections::new(program, symbols, numbers);
    let mut bytes = symbols.bytes(table)?.to_vec();
    for entry in bytes.chunks_exact_mut(symbols.entry_size()) {
        let (at, old, address) = section_and_address(entry, symbols.model);
        let new = match old {
            0 | SHN_LORESERVE.. => old,
            // The section of this symbol is not written, so the symbol gets the number of the table
            // itself, which has no address either.
            _ => written.number_of(old, address).unwrap_or(place as u16),
        };
        entry[at..at + 2].copy_from_slice(&new.to_le_bytes());
    }
    let mut made = OutputSection::new(&b".symtab"[..], elf::SHT_SYMTAB, Bytes::Some(bytes.into()));
    made.header.sh_link = place as u32 + 1;
    made.header.sh_info = table.info;
    made.header.sh_addralign = word_of(symbols.model);
    made.header.sh_entsize = symbols.entry_size() as u64;
    let strings = Bytes::Some(Cow::Borrowed(symbols.strings(table)?));
    Ok([made, OutputSection::new(&b".strtab"[..], elf::SHT_STRTAB, strings)])
}

/// The relocations of a section, by the indices of the symbol table and of the section.
fn relocations(
    section: &DebugSection,
    is_rela: bool,
    (table, number): (u32, u32),
    model: Model,
) -> OutputSection<'_> {
    let kind = if is_rela { elf::SHT_RELA } else { elf::SHT_REL };
    let prefix = if is_rela { ".rela" } else { ".rel" };
    let name = format!("{prefix}{}", section.name).into_bytes();
    let bytes = Bytes::Relocations(&section.relocations, is_rela);
    let mut made = OutputSection::new(name, kind, bytes);
    made.header.sh_flags = elf::SHF_INFO_LINK.into();
    made.header.sh_link = table;
    made.header.sh_info = number;
    made.header.sh_addralign = word_of(model);
    made.header.sh_entsize = relocation_size(model, is_rela) as u64;
    made
}

fn word_of(model: Model) -> u64 {
    match model {
        Model::Lp64 => 8,
        Model::Ilp32 => 4,
    }
}

fn relocation_size(model: Model, is_rela: bool) -> usize {
    (if is_rela { 3 } else { 2 }) * word_of(model) as usize
}

/// The bytes of a file with these sections.
fn file(
    model: Model,
    head: &Head,
    segments: &[Segment],
    mut listed: Vec<OutputSection<'_>>,
) -> Result<Vec<u8>> {
    let mut made = Vec::new();
    let names: Vec<Vec<u8>> = listed.iter().map(|one| one.name.to_vec()).collect();
    let mut writer = Writer::new(Endianness::Little, model == Model::Lp64, &mut made);
    writer.reserve_file_header();
    writer.reserve_program_headers(segments.len() as u32);
    for (one, name) in listed.iter_mut().zip(&names) {
        one.header.name = Some(writer.add_section_name(name));
        reserve(&mut writer, one, model);
    }
    writer.reserve_shstrtab_section_index();
    writer.reserve_shstrtab();
    writer.reserve_section_headers();
    let header = FileHeader {
        os_abi: head.system,
        abi_version: 0,
        e_type: head.kind,
        e_machine: head.machine,
        e_entry: head.entry,
        e_flags: head.flags,
    };
    let whole = |error: object::write::Error| Error(error.to_string());
    writer.write_file_header(&header).map_err(whole)?;
    writer.write_align_program_headers();
    segments.iter().for_each(|one| writer.write_program_header(&program_header(one)));
    for one in &listed {
        write_bytes(&mut writer, one);
    }
    writer.write_shstrtab();
    writer.write_null_section_header();
    listed.iter().for_each(|one| writer.write_section_header(&one.header));
    writer.write_shstrtab_section_header();
    Ok(made)
}

/// Gives a section its index, offset and size.
fn reserve(writer: &mut Writer<'_>, one: &mut OutputSection<'_>, model: Model) {
    writer.reserve_section_index();
    let length = one.length(model);
    one.header.sh_offset = writer.reserve(length, one.align()) as u64;
    if !matches!(one.bytes, Bytes::None) {
        one.header.sh_size = length as u64;
    }
}

fn write_bytes(writer: &mut Writer<'_>, one: &OutputSection<'_>) {
    match &one.bytes {
        Bytes::Some(bytes) if !bytes.is_empty() => {
            writer.write_align(one.align());
            writer.write(bytes);
        }
        Bytes::Relocations(listed, is_rela) => {
            writer.write_align_relocation();
            listed.iter().for_each(|rel| writer.write_relocation(*is_rela, rel));
        }
        _ => {}
    }
}

/// The program header of a segment, with no bytes in the file.
fn program_header(one: &Segment) -> ProgramHeader {
    ProgramHeader {
        p_type: elf::PT_LOAD,
        p_flags: one.flags,
        p_offset: one.offset,
        p_vaddr: one.address,
        p_paddr: one.physical,
        p_filesz: 0,
        p_memsz: one.size,
        p_align: one.align,
    }
}
