//! The section numbers of a program's symbols in its debug file.

use ctfd::Model;
use ctfd_read::debuggee::{Debuggee, Section};
use object::elf;
use std::collections::HashMap;

/// The offset of the section number in a symbol, in bytes.
const SECTION_IN_64: usize = 6;
const SECTION_IN_32: usize = 14;
/// The offset of the byte with a symbol's binding.
const BINDING_IN_64: usize = 4;
const BINDING_IN_32: usize = 12;

/// The offset of the section number in a symbol, that number, and the symbol's address.
pub fn section_and_address(entry: &[u8], model: Model) -> (usize, u16, u64) {
    let number = |at: usize| u16::from_le_bytes([entry[at], entry[at + 1]]);
    let word = |at: usize| u64::from(number(at)) | u64::from(number(at + 2)) << 16;
    match model {
        Model::Lp64 => (SECTION_IN_64, number(SECTION_IN_64), word(8) | word(12) << 32),
        Model::Ilp32 => (SECTION_IN_32, number(SECTION_IN_32), word(4)),
    }
}

/// The number of local symbols at the start of a table whose entries have `size` bytes.
pub fn local_count(table: &[u8], size: usize, model: Model) -> u32 {
    let at = match model {
        Model::Lp64 => BINDING_IN_64,
        Model::Ilp32 => BINDING_IN_32,
    };
    let is_local = |entry: &&[u8]| entry[at] >> 4 == elf::STB_LOCAL;
    table.chunks_exact(size).take_while(is_local).count() as u32
}

/// The sections of a program that are written, as its symbols refer to them.
#[allow(clippy::enum_variant_names)]
pub enum WrittenSections<'s> {
    /// The symbols come from another copy of the program, whose sections have other numbers but the
    /// same names.
    ByName(&'s [Section<'s>], HashMap<&'s [u8], u16>),
    /// The symbols come without their sections, so their section numbers mean nothing: the start,
    /// end and number of each section, in order of addresses.
    ByAddress(Vec<(u64, u64, u16)>),
    /// The same for an object file, which has no addresses: the symbols have the written numbers,
    /// up to this one.
    ByNumber(u16),
}

impl<'s> WrittenSections<'s> {
    /// The written sections of a program, for the symbols of a file. `numbers` maps old numbers to
    /// new ones.
    pub fn new(
        program: &'s Debuggee<'_>,
        symbols: &'s Debuggee<'_>,
        numbers: &HashMap<usize, usize>,
    ) -> WrittenSections<'s> {
        let written = program.sections.iter().enumerate();
        let written =
            written.filter_map(|(old, section)| Some((section, *numbers.get(&old)? as u16)));
        if symbols.sections.iter().any(Section::is_loaded) {
            let by_name = written.map(|(section, number)| (section.name, number)).collect();
            return WrittenSections::ByName(&symbols.sections, by_name);
        }
        if program.is_relocatable() {
            return WrittenSections::ByNumber(numbers.len() as u16);
        }
        // Thread-local sections take no room in the address space.
        let has_room = |section: &Section<'_>| section.flags & u64::from(elf::SHF_TLS) == 0;
        let placed = written.filter(|(section, _)| has_room(section)).map(|(section, number)| {
            (section.address, section.address.saturating_add(section.size), number)
        });
        let mut placed: Vec<_> = placed.collect();
        placed.sort_unstable();
        WrittenSections::ByAddress(placed)
    }

    /// The new number of a symbol's section; None if the section is not written.
    pub fn number_of(&self, old: u16, address: u64) -> Option<u16> {
        match self {
            WrittenSections::ByName(sections, numbers) => {
                numbers.get(sections.get(usize::from(old))?.name).copied()
            }
            WrittenSections::ByAddress(placed) => {
                let behind = placed.partition_point(|&(begins, ..)| begins <= address);
                let (_, end, number) = placed[..behind].last()?;
                (address <= *end).then_some(*number)
            }
            WrittenSections::ByNumber(most) => (old <= *most).then_some(old),
        }
    }
}
