//! Sections of DWARF: their bytes and, in an object file, their relocations.

use ctfd::Model;
use ctfd_read::debuggee::Debuggee;
use ctfd_read::error::{Error, Result};
use flate2::write::ZlibEncoder;
use flate2::Compression;
use gimli::write::{Address, Dwarf, EndianVec, Sections, Writer};
use gimli::{LittleEndian, SectionId};
use object::elf::{self, CompressionHeader32, CompressionHeader64};
use object::endian::{Endianness, U32, U64};
use object::write::elf::Rel;
use object::{pod, Endianness::Little};
use std::io::Write as _;

/// The relocations of addresses in a machine's object files.
#[derive(Clone, Copy, Debug)]
pub struct RelocationKind {
    /// The relocation type of an absolute address.
    number: u32,
    /// Whether the addend is in the relocation, rather than in the relocated bytes.
    pub is_rela: bool,
}

impl RelocationKind {
    /// The relocations for a program's machine, if it is known.
    pub fn of(program: &Debuggee<'_>) -> Option<RelocationKind> {
        let (number, is_rela) = match (program.head.machine, program.model) {
            (elf::EM_X86_64, Model::Lp64) => (elf::R_X86_64_64, true),
            (elf::EM_X86_64, Model::Ilp32) => (elf::R_X86_64_32, true),
            (elf::EM_386, Model::Ilp32) => (elf::R_386_32, false),
            (elf::EM_AARCH64, Model::Lp64) => (elf::R_AARCH64_ABS64, true),
            (elf::EM_ARM, Model::Ilp32) => (elf::R_ARM_ABS32, false),
            (elf::EM_RISCV, Model::Lp64) => (elf::R_RISCV_64, true),
            (elf::EM_RISCV, Model::Ilp32) => (elf::R_RISCV_32, true),
            _ => return None,
        };
        Some(RelocationKind { number, is_rela })
    }
}

/// A section of DWARF while it is written.
#[derive(Clone)]
struct SectionWriter {
    bytes: EndianVec<LittleEndian>,
    kind: Option<RelocationKind>,
    relocations: Vec<Rel>,
}

impl Writer for SectionWriter {
    type Endian = LittleEndian;

    fn endian(&self) -> LittleEndian {
        LittleEndian
    }

    fn len(&self) -> usize {
        self.bytes.len()
    }

    fn write(&mut self, bytes: &[u8]) -> gimli::write::Result<()> {
        self.bytes.write(bytes)
    }

    fn write_at(&mut self, offset: usize, bytes: &[u8]) -> gimli::write::Result<()> {
        self.bytes.write_at(offset, bytes)
    }

    fn write_address(&mut self, address: Address, size: u8) -> gimli::write::Result<()> {
        let (symbol, addend) = match address {
            Address::Constant(address) => return self.write_udata(address, size),
            Address::Symbol { symbol, addend } => (symbol, addend),
        };
        let kind = self.kind.ok_or(gimli::write::Error::InvalidAddress)?;
        self.relocations.push(Rel {
            r_offset: self.len() as u64,
            r_sym: symbol as u32,
            r_type: kind.number,
            r_addend: if kind.is_rela { addend } else { 0 },
        });
        let in_place = if kind.is_rela { 0 } else { addend as u64 };
        self.write_udata(in_place, size)
    }
}

/// A finished section.
pub struct DebugSection {
    pub name: &'static str,
    /// Its bytes; if they are compressed, a header comes first.
    pub bytes: Vec<u8>,
    /// Whether the bytes are compressed.
    pub is_compressed: bool,
    /// Its relocations.
    pub relocations: Vec<Rel>,
}

/// The sections of a debug file that are not empty, `.debug_info` first. `kind` is needed if there
/// are relocations.
pub fn of_dwarf(dwarf: &mut Dwarf, kind: Option<RelocationKind>) -> Result<Vec<DebugSection>> {
    let bytes = EndianVec::new(LittleEndian);
    let mut sections = Sections::new(SectionWriter { bytes, kind, relocations: Vec::new() });
    dwarf
        .write(&mut sections)
        .map_err(|error| Error(format!("its types can't be written as DWARF: {error}")))?;
    let mut made = Vec::new();
    let add = |id: SectionId, section: &mut SectionWriter| {
        let bytes = section.bytes.take();
        if !bytes.is_empty() {
            let relocations = std::mem::take(&mut section.relocations);
            made.push(DebugSection { name: id.name(), bytes, is_compressed: false, relocations });
        }
        Ok::<_, Error>(())
    };
    sections.for_each_mut(add)?;
    made.sort_by_key(|one| one.name != SectionId::DebugInfo.name());
    Ok(made)
}

/// Compresses a section if that makes it smaller.
pub fn compress(section: &mut DebugSection, model: Model) -> Result<()> {
    let mut encoder = ZlibEncoder::new(header(section.bytes.len(), model), Compression::default());
    let packed = encoder.write_all(&section.bytes).and_then(|()| encoder.finish())?;
    if packed.len() < section.bytes.len() {
        section.bytes = packed;
        section.is_compressed = true;
    }
    Ok(())
}

/// The header of a compressed section that unpacks to `size` bytes.
fn header(size: usize, model: Model) -> Vec<u8> {
    let kind = U32::new(Little, elf::ELFCOMPRESS_ZLIB);
    match model {
        Model::Lp64 => pod::bytes_of(&CompressionHeader64::<Endianness> {
            ch_type: kind,
            ch_reserved: U32::new(Little, 0),
            ch_size: U64::new(Little, size as u64),
            ch_addralign: U64::new(Little, 1),
        })
        .to_vec(),
        Model::Ilp32 => pod::bytes_of(&CompressionHeader32::<Endianness> {
            ch_type: kind,
            ch_size: U32::new(Little, size as u32),
            ch_addralign: U32::new(Little, 1),
        })
        .to_vec(),
    }
}

#[cfg(test)]
mod tests {
    use super::*;

    fn section(is_rela: bool) -> SectionWriter {
        let kind = Some(RelocationKind { number: 1, is_rela });
        SectionWriter { bytes: EndianVec::new(LittleEndian), kind, relocations: Vec::new() }
    }

    #[test]
    fn what_is_added_stands_in_the_table_or_in_the_place() {
        for (is_rela, in_place, in_table) in [(true, 0, 5), (false, 5, 0)] {
            let mut made = section(is_rela);
            made.write_u8(9).unwrap();
            made.write_address(Address::Symbol { symbol: 3, addend: 5 }, 4).unwrap();
            made.write_address(Address::Constant(7), 4).unwrap();
            assert_eq!(made.bytes.slice(), [9, in_place, 0, 0, 0, 7, 0, 0, 0]);
            let [one] = &made.relocations[..] else { panic!("one address has no place yet") };
            assert_eq!((one.r_offset, one.r_sym, one.r_addend), (1, 3, in_table));
        }
    }

    #[test]
    fn what_would_grow_is_not_compressed() {
        let section = |bytes: Vec<u8>| {
            let relocations = Vec::new();
            let mut made =
                DebugSection { name: ".debug_str", bytes, is_compressed: false, relocations };
            compress(&mut made, Model::Lp64).unwrap();
            made
        };
        assert!(!section(vec![1, 2, 3]).is_compressed);
        let packed = section(vec![0; 1000]);
        assert!(packed.is_compressed);
        assert_eq!(packed.bytes[..16], [1, 0, 0, 0, 0, 0, 0, 0, 232, 3, 0, 0, 0, 0, 0, 0]);
    }
}
