//! The segments of an ELF file, and the build-id in its notes.

use crate::bytes::Reader;
use crate::error::{Error, Result};
use crate::image::{Data, Image};
use object::elf::{FileHeader32, FileHeader64, PF_W, PT_LOAD, PT_NOTE};
use object::read::elf::{FileHeader, ProgramHeader};
use object::Endianness;

/// The type of a note with a build-id, and the name of its owner.
const BUILD_ID: u32 = 3;
const GNU: &[u8] = b"GNU\0";

/// The purpose of a segment.
#[derive(Clone, Copy, Debug, PartialEq, Eq)]
pub enum Purpose {
    /// Loaded into memory.
    Load,
    /// Contains notes.
    Note,
    /// Anything else.
    Other,
}

/// A segment of a file.
#[derive(Clone, Copy, Debug, PartialEq, Eq)]
pub struct Segment {
    /// Its purpose.
    pub purpose: Purpose,
    /// Its offset in the file.
    pub offset: u64,
    /// Its address in memory.
    pub address: u64,
    /// Its size in the file, in bytes.
    pub in_file: u64,
    /// Its size in memory, in bytes.
    pub in_memory: u64,
    /// Whether the program may write to it.
    pub is_writable: bool,
}

impl Segment {
    /// The address after its last byte.
    pub fn end(&self) -> u64 {
        self.address.saturating_add(self.in_memory)
    }
}

/// The segments of an ELF file, in their order.
pub fn segments(image: &Image) -> Result<Vec<Segment>> {
    match image.data_is_64()? {
        true => segments_of::<FileHeader64<Endianness>>(image.data()),
        false => segments_of::<FileHeader32<Endianness>>(image.data()),
    }
}

fn segments_of<F: FileHeader<Endian = Endianness>>(data: Data<'_>) -> Result<Vec<Segment>> {
    let header = F::parse(data)?;
    let endian = header.endian()?;
    let segment = |one: &F::ProgramHeader| Segment {
        purpose: match one.p_type(endian) {
            PT_LOAD => Purpose::Load,
            PT_NOTE => Purpose::Note,
            _ => Purpose::Other,
        },
        offset: one.p_offset(endian).into(),
        address: one.p_vaddr(endian).into(),
        in_file: one.p_filesz(endian).into(),
        in_memory: one.p_memsz(endian).into(),
        is_writable: one.p_flags(endian) & PF_W != 0,
    };
    Ok(header.program_headers(endian, data)?.iter().map(segment).collect())
}

/// A note of a segment.
#[derive(Clone, Copy, Debug)]
pub struct Note<'a> {
    /// Its type, a number whose meaning depends on the owner.
    pub kind: u32,
    /// The name of its owner.
    pub owner: &'a [u8],
    /// Its contents.
    pub text: &'a [u8],
}

/// The notes of a segment of a little-endian file, up to the first that is cut off.
pub fn notes(bytes: &[u8]) -> impl Iterator<Item = Note<'_>> {
    let mut rest = Reader::new(bytes, Endianness::Little, "notes");
    std::iter::from_fn(move || next_note(&mut rest).ok())
}

fn next_note<'a>(rest: &mut Reader<'a>) -> Result<Note<'a>> {
    let (names, length, kind) = (rest.word()?, rest.word()?, rest.word()?);
    let owner = padded_bytes(rest, names)?;
    Ok(Note { kind, owner, text: padded_bytes(rest, length)? })
}

/// Some bytes, with the padding to a multiple of four; the last in a file may lack the padding.
fn padded_bytes<'a>(rest: &mut Reader<'a>, length: u32) -> Result<&'a [u8]> {
    let taken = rest.take(length as usize)?;
    rest.take((length.wrapping_neg() & 3) as usize).or_else(|_| rest.take(0))?;
    Ok(taken)
}

/// The build-id among the notes of a segment.
pub fn build_id(bytes: &[u8]) -> Option<&[u8]> {
    let is_id = |one: &Note<'_>| one.kind == BUILD_ID && one.owner == GNU;
    notes(bytes).find(is_id).map(|one| one.text)
}

impl Image {
    /// Whether a little-endian ELF file has 64 bits. Refuses any other file.
    pub fn data_is_64(&self) -> Result<bool> {
        let head = self.data();
        let bytes = object::read::ReadRef::read_bytes_at(head, 0, 6).unwrap_or_default();
        let no_elf = || Error("no ELF file".to_owned());
        match bytes.strip_prefix(&object::elf::ELFMAG).ok_or_else(no_elf)? {
            [_, 2] => Err(Error(
                "a big-endian ELF file, which is not read: take a little-endian build of the \
                 program"
                    .to_owned(),
            )),
            [1, 1] => Ok(false),
            [2, 1] => Ok(true),
            _ => Err(Error("an ELF file whose header is damaged or cut off".to_owned())),
        }
    }
}
