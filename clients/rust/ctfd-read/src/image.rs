//! Input files, read as far as needed. They are not mapped, since a mapped file may be truncated
//! while it is read.

use crate::error::{refuse, Error, Result};
use flate2::Crc;
use object::read::{ReadCache, ReadRef};
use std::fs::File;
use std::io::{Cursor, Read, Seek, SeekFrom};
use std::ops::Range;
use std::path::{Path, PathBuf};

/// The source of a file's bytes: the file, or all that came through a pipe.
pub trait Source: Read + Seek {}
impl<T: Read + Seek> Source for T {}

/// The bytes of a file, read on demand. Reads past the end are refused here, since the cache
/// allocates memory before it reads, as much as a damaged file asks for.
#[derive(Clone, Copy)]
pub struct Data<'a> {
    cache: &'a ReadCache<Box<dyn Source>>,
    length: u64,
}

impl<'a> ReadRef<'a> for Data<'a> {
    fn len(self) -> std::result::Result<u64, ()> {
        Ok(self.length)
    }

    fn read_bytes_at(self, offset: u64, size: u64) -> std::result::Result<&'a [u8], ()> {
        match offset.checked_add(size) {
            Some(end) if end <= self.length => self.cache.read_bytes_at(offset, size),
            _ => Err(()),
        }
    }

    fn read_bytes_at_until(
        self,
        range: Range<u64>,
        delimiter: u8,
    ) -> std::result::Result<&'a [u8], ()> {
        if range.start > range.end || range.start > self.length {
            return Err(());
        }
        self.cache.read_bytes_at_until(range, delimiter)
    }
}

/// An ELF file.
pub type Elf<'a> = object::File<'a, Data<'a>>;
/// A section of an ELF file.
pub type ElfSection<'a, 'f> = object::Section<'a, 'f, Data<'a>>;

/// The most bytes that are read from a pipe, which has no length.
const LONGEST_PIPE: u64 = 1 << 32;
/// The size of the pieces in which a checksum is computed, in bytes.
const PIECE: u64 = 1 << 20;
/// The size of pieces that are not kept, in bytes.
const PASSING: u64 = 1 << 16;

/// A file and its path.
pub struct Image {
    path: PathBuf,
    file: Option<File>,
    cache: ReadCache<Box<dyn Source>>,
    length: u64,
}

impl Image {
    /// Opens a regular file, or reads a pipe to its end. Anything else is refused: a device may
    /// have no end.
    pub fn open(path: &Path) -> Result<Image> {
        let open = || -> Result<(Box<dyn Source>, Option<File>)> {
            let kind = std::fs::metadata(path)?.file_type();
            if kind.is_file() {
                let file = File::open(path)?;
                return Ok((Box::new(file.try_clone()?), Some(file)));
            }
            if kind.is_dir() {
                return refuse("is a directory");
            }
            if !is_pipe(&kind) {
                return refuse("not a regular file: devices and the like are not read");
            }
            let mut bytes = Vec::new();
            File::open(path)?.take(LONGEST_PIPE).read_to_end(&mut bytes)?;
            Ok((Box::new(Cursor::new(bytes)), None))
        };
        let of_path = |error: Error| error.of(path.display());
        let (mut source, file) = open().map_err(of_path)?;
        let length = source.seek(SeekFrom::End(0)).map_err(|error| of_path(error.into()))?;
        Ok(Image { path: path.to_owned(), file, cache: ReadCache::new(source), length })
    }

    /// Opens a regular file that another file names; `None` if it is none or can't be read. The
    /// name is not trusted: it may be that of a device.
    pub fn open_linked(path: &Path) -> Option<Image> {
        let is_file = std::fs::metadata(path).is_ok_and(|about| about.is_file());
        is_file.then(|| Image::open(path).ok()).flatten()
    }

    /// Opens the file at `place` as `open_linked` does, for which errors name `path`.
    pub fn linked_as(place: &Path, path: &Path) -> Option<Image> {
        Some(Image { path: path.to_owned(), ..Image::open_linked(place)? })
    }

    /// Bytes that have no file of their own, such as a member of an archive.
    pub fn of_bytes(path: PathBuf, bytes: Vec<u8>) -> Image {
        let length = bytes.len() as u64;
        Image { path, file: None, cache: ReadCache::new(Box::new(Cursor::new(bytes))), length }
    }

    /// All bytes of the file.
    pub fn all(&self) -> Result<&[u8]> {
        self.data().read_bytes_at(0, self.length).map_err(|()| Error("can't be read".to_owned()))
    }

    /// Some bytes of the file, in pieces that are not kept in memory.
    pub fn pieces(&self, offset: u64, length: u64) -> Result<Pieces<'_>> {
        let end = offset.checked_add(length).filter(|&end| end <= self.length);
        let end = end.ok_or_else(|| Error("it ends too early".to_owned()))?;
        match &self.file {
            Some(file) => Ok(Pieces::OfFile { file, at: offset, end, piece: Vec::new() }),
            None => {
                let bytes = self.data().read_bytes_at(offset, length);
                bytes.map(Pieces::Whole).map_err(|()| Error("it ends too early".to_owned()))
            }
        }
    }

    /// The path of the file.
    pub fn path(&self) -> &Path {
        &self.path
    }

    /// The bytes of the file, read on demand.
    pub fn data(&self) -> Data<'_> {
        Data { cache: &self.cache, length: self.length }
    }

    /// Whether it begins like an ELF file.
    pub fn is_elf(&self) -> bool {
        self.data().read_bytes_at(0, 4) == Ok(&object::elf::ELFMAG[..])
    }

    /// Parses the file as ELF.
    pub fn elf(&self) -> Result<Elf<'_>> {
        Ok(object::File::parse(self.data())?)
    }

    /// The checksum that `.gnu_debuglink` has for a file.
    pub fn crc(&self) -> Result<u32> {
        let mut crc = Crc::new();
        let mut file = File::open(&self.path)?.take(LONGEST_PIPE);
        let mut piece = vec![0; PIECE as usize];
        loop {
            let count = file.read(&mut piece)?;
            if count == 0 {
                return Ok(crc.sum());
            }
            crc.update(&piece[..count]);
        }
    }
}

/// Some bytes of a file, in pieces.
pub enum Pieces<'a> {
    /// All bytes at once, if they are in memory.
    Whole(&'a [u8]),
    /// Bytes of a file, one piece at a time.
    OfFile {
        /// The file.
        file: &'a File,
        /// The offset of the next piece.
        at: u64,
        /// The end of the last piece.
        end: u64,
        /// The piece that was read last.
        piece: Vec<u8>,
    },
}

impl Pieces<'_> {
    /// The next piece; empty after the last.
    pub fn next_piece(&mut self) -> Result<&[u8]> {
        match self {
            Pieces::Whole(bytes) => Ok(std::mem::take(bytes)),
            Pieces::OfFile { file, at, end, piece } => {
                let length = PASSING.min(*end - *at);
                piece.resize(length as usize, 0);
                read_at(file, piece, *at)?;
                *at += length;
                Ok(piece)
            }
        }
    }

    /// All remaining bytes.
    pub fn all(&mut self) -> Result<Vec<u8>> {
        let mut made = Vec::new();
        loop {
            let piece = self.next_piece()?;
            if piece.is_empty() {
                return Ok(made);
            }
            made.extend_from_slice(piece);
        }
    }
}

/// Reads bytes at an offset, independently of other readers of the file.
#[cfg(unix)]
fn read_at(file: &File, bytes: &mut [u8], offset: u64) -> std::io::Result<()> {
    std::os::unix::fs::FileExt::read_exact_at(file, bytes, offset)
}

#[cfg(not(unix))]
fn read_at(mut file: &File, bytes: &mut [u8], offset: u64) -> std::io::Result<()> {
    file.seek(SeekFrom::Start(offset))?;
    file.read_exact(bytes)
}

#[cfg(unix)]
fn is_pipe(kind: &std::fs::FileType) -> bool {
    use std::os::unix::fs::FileTypeExt as _;
    kind.is_fifo()
}

#[cfg(not(unix))]
fn is_pipe(_: &std::fs::FileType) -> bool {
    false
}
