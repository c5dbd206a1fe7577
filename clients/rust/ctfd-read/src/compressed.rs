//! Compressed sections of ELF files, with zlib or zstd.

use crate::error::{refuse, Error, Result};
use crate::image::{Elf, ElfSection, Image, Pieces};
use ctfd_zstd::Refusal;
use flate2::{Decompress, FlushDecompress, Status};
use object::elf::{FileHeader32, FileHeader64, SHF_COMPRESSED};
use object::read::elf::{CompressionHeader as _, FileHeader};
use object::{pod, CompressedFileRange, CompressionFormat, Endianness};
use object::{Object as _, ObjectSection as _, ReadRef as _, SectionFlags};
use std::borrow::Cow;

/// The most bytes that deflate makes of one: a header that states more is damaged. The same limit
/// serves for zstd, which exceeds it for bytes crafted to exhaust memory, but not for debug
/// information.
const MOST_INFLATED: u64 = 1032;
/// The error for a section that is no valid zlib data.
const INVALID: &str = "a damaged ELF file (Invalid zlib compressed data)";
/// The compression type of zstd in a section's header.
const ZSTD: u32 = 2;

/// A section as stored in its file.
pub enum StoredSection<'a> {
    /// Not compressed.
    Plain(&'a [u8]),
    /// Compressed with zlib, and the size that its header states.
    Zlib(Pieces<'a>, u64),
    /// Compressed with zstd, and the size that its header states.
    Zstd(Pieces<'a>, u64),
}

impl<'a> StoredSection<'a> {
    /// Finds a section in its file. Its compressed bytes are not kept in memory.
    pub fn of(
        image: &'a Image,
        file: &Elf<'a>,
        section: &ElfSection<'a, '_>,
        name: &str,
    ) -> Result<StoredSection<'a>> {
        if let Some(range) = zstd_range(image, file, section)? {
            return Ok(StoredSection::Zstd(range.pieces(image, name)?, range.whole_size));
        }
        let range = section.compressed_file_range()?;
        match range.format {
            CompressionFormat::None => Ok(StoredSection::Plain(section.data()?)),
            CompressionFormat::Zlib => {
                let range = Range::from(&range);
                Ok(StoredSection::Zlib(range.pieces(image, name)?, range.whole_size))
            }
            _ => refuse("a damaged ELF file (Unsupported compressed data.)"),
        }
    }

    /// Whether the section has to be decompressed.
    pub fn is_compressed(&self) -> bool {
        !matches!(self, StoredSection::Plain(_))
    }

    /// The contents of the section.
    pub fn inflate(self, name: &str) -> Result<Cow<'a, [u8]>> {
        match self {
            StoredSection::Plain(data) => Ok(Cow::Borrowed(data)),
            StoredSection::Zlib(pieces, whole_size) => {
                of_zlib(name, pieces, whole_size).map(Cow::Owned)
            }
            StoredSection::Zstd(mut pieces, whole_size) => {
                of_zstd(name, &pieces.all()?, whole_size)
            }
        }
    }
}

fn damage_of(name: &str) -> Error {
    Error(format!("{name} does not inflate to the size that its header states: it is damaged"))
}

/// The offset and size of compressed bytes, and the size when decompressed.
struct Range {
    offset: u64,
    size: u64,
    whole_size: u64,
}

impl Range {
    /// The compressed bytes, refused if the stated size is too great for them.
    fn pieces<'a>(&self, image: &'a Image, name: &str) -> Result<Pieces<'a>> {
        if self.whole_size > MOST_INFLATED.saturating_mul(self.size) {
            return Err(damage_of(name));
        }
        image.pieces(self.offset, self.size)
    }
}

impl From<&CompressedFileRange> for Range {
    fn from(range: &CompressedFileRange) -> Range {
        let (size, whole_size) = (range.compressed_size, range.uncompressed_size);
        Range { offset: range.offset, size, whole_size }
    }
}

/// The range of a section compressed with zstd; `None` for any other.
fn zstd_range(image: &Image, file: &Elf<'_>, one: &ElfSection<'_, '_>) -> Result<Option<Range>> {
    let SectionFlags::Elf { sh_flags } = one.flags() else { return Ok(None) };
    let Some((offset, size)) = one.file_range() else { return Ok(None) };
    if sh_flags & u64::from(SHF_COMPRESSED) == 0 {
        return Ok(None);
    }
    let endian = match file.is_little_endian() {
        true => Endianness::Little,
        false => Endianness::Big,
    };
    let (kind, whole_size, length) = match file.is_64() {
        true => compression::<FileHeader64<Endianness>>(image, offset, endian)?,
        false => compression::<FileHeader32<Endianness>>(image, offset, endian)?,
    };
    let Some(size) = size.checked_sub(length) else { return Ok(None) };
    Ok((kind == ZSTD).then_some(Range { offset: offset + length, size, whole_size }))
}

/// The header of a compressed section: the type of compression, the decompressed size, and the
/// length of the header.
fn compression<F>(image: &Image, offset: u64, endian: Endianness) -> Result<(u32, u64, u64)>
where
    F: FileHeader<Endian = Endianness>,
{
    let length = std::mem::size_of::<F::CompressionHeader>() as u64;
    let damaged = || Error("a compressed section is cut off".to_owned());
    let bytes = image.data().read_bytes_at(offset, length).map_err(|()| damaged())?;
    let (head, _) = pod::from_bytes::<F::CompressionHeader>(bytes).map_err(|()| damaged())?;
    Ok((head.ch_type(endian), head.ch_size(endian).into(), length))
}

/// Decompresses a zlib section, to at most the size that its header states.
fn of_zlib(name: &str, mut pieces: Pieces<'_>, whole_size: u64) -> Result<Vec<u8>> {
    let length = usize::try_from(whole_size).map_err(|_| damage_of(name))?;
    let mut made = Vec::with_capacity(length);
    let mut inflater = Decompress::new(true);
    loop {
        let mut piece = pieces.next_piece()?;
        if piece.is_empty() {
            return refuse(INVALID);
        }
        while !piece.is_empty() {
            let before = (inflater.total_in(), made.len());
            let status = inflater.decompress_vec(piece, &mut made, FlushDecompress::None);
            let status = status.map_err(|_| Error(INVALID.to_owned()))?;
            let is_stuck = before == (inflater.total_in(), made.len());
            match status {
                Status::StreamEnd => return Ok(made),
                _ if is_stuck && made.len() >= length => return Ok(made),
                _ if is_stuck => return refuse(INVALID),
                _ => piece = &piece[(inflater.total_in() - before.0) as usize..],
            }
        }
    }
}

/// Decompresses a zstd section, to exactly the size that its header states.
fn of_zstd(name: &str, data: &[u8], whole_size: u64) -> Result<Cow<'static, [u8]>> {
    let length = usize::try_from(whole_size).map_err(|_| damage_of(name))?;
    let made = ctfd_zstd::decompress(data, length);
    made.map(Cow::Owned).map_err(|refusal| match refusal {
        Refusal::Damaged => damage_of(name),
        Refusal::NotBuilt => Error(format!(
            "{name} is compressed by zstd, which is not read by commands that were built without \
             libzstd: objcopy --decompress-debug-sections undoes that"
        )),
    })
}
