//! Core files: the memory of a process, and the files that were mapped there.

use crate::bytes::Reader;
use crate::error::{refuse, Error, Result};
use crate::image::Image;
use crate::segments::{notes, segments, Purpose};
use ctfd::Model;
use object::read::ReadRef as _;
use object::Endianness;
use std::collections::HashMap;
use std::ffi::OsStr;
use std::os::unix::ffi::OsStrExt as _;
use std::path::{Path, PathBuf};

/// The ELF type of core files, and the offset of the type in the header.
const CORE: u16 = 4;
const KIND: u64 = 16;
/// The types of the notes that are read: `NT_AUXV` and `NT_FILE`.
const AUXILIARY: u32 = 6;
const FILES: u32 = 0x4649_4c45;
/// The key of the program's entry point among the auxiliary values.
const ENTRY: u64 = 9;

/// A range of addresses to which a part of a file is mapped.
#[derive(Clone, Copy, Debug, PartialEq, Eq)]
pub struct Mapping {
    /// The first address.
    pub start: u64,
    /// The address after the last.
    pub end: u64,
    /// The offset of the part in the file.
    pub offset: u64,
}

/// A mapped file.
#[derive(Clone, Debug, PartialEq, Eq)]
pub struct MappedFile {
    /// Its name.
    pub path: PathBuf,
    /// The paths at which it may be; it is opened at the first that exists.
    pub places: Vec<PathBuf>,
    /// The parts of it that are mapped.
    pub mappings: Vec<Mapping>,
    /// Whether it is the program itself.
    pub is_program: bool,
}

/// A range of memory that is in the core file.
#[derive(Clone, Copy, Debug)]
struct Part {
    start: u64,
    offset: u64,
    length: u64,
}

/// A core file.
pub struct CoreFile {
    image: Image,
    parts: Vec<Part>,
    files: Vec<MappedFile>,
    model: Model,
}

impl CoreFile {
    /// Opens a core file. `program` is the path of its program, if that is not the recorded one.
    pub fn open(path: &Path, program: Option<&Path>) -> Result<CoreFile> {
        CoreFile::of_image(Image::open(path)?, program)
    }

    /// Reads a core file that is open already; `program` as for `open`.
    pub fn of_image(image: Image, program: Option<&Path>) -> Result<CoreFile> {
        let named = |error: Error| error.within(&image.path().display().to_string());
        let model = match image.data_is_64().map_err(named)? {
            true => Model::Lp64,
            false => Model::Ilp32,
        };
        let cut = "a core file that is cut off or damaged".to_owned();
        let damage = |_| Error(cut.clone()).of(image.path().display());
        if image.data().read_bytes_at(KIND, 2).map_err(|()| damage(()))? != CORE.to_le_bytes() {
            return refuse(format!("{}: an ELF file that is no core file", image.path().display()));
        }
        let (parts, noted) = contents(&image).map_err(|_| damage(()))?;
        let files = noted.files(model).map_err(|_| damage(()))?;
        let mut made = CoreFile { image, parts, files, model };
        made.name_program(program)?;
        Ok(made)
    }

    /// The path of the core file.
    pub fn path(&self) -> &Path {
        self.image.path()
    }

    /// The data model of its program.
    pub fn model(&self) -> Model {
        self.model
    }

    /// The mapped files. The program, which is the file that has the entry point, comes first.
    pub fn files(&self) -> &[MappedFile] {
        &self.files
    }

    /// The bytes at an address, at most `length`, up to the first that the file does not have.
    pub fn read(&self, address: u64, length: u64) -> Vec<u8> {
        let mut made = Vec::new();
        while (made.len() as u64) < length {
            let Some(at) = address.checked_add(made.len() as u64) else { break };
            let behind = self.parts.partition_point(|part| part.start <= at);
            let Some(part) = behind.checked_sub(1).map(|number| self.parts[number]) else { break };
            let within = at - part.start;
            let count = part.length.saturating_sub(within).min(length - made.len() as u64);
            let found = self.image.data().read_bytes_at(part.offset + within, count);
            match found {
                Ok(bytes) if !bytes.is_empty() => made.extend(bytes),
                _ => break,
            }
        }
        made
    }

    /// Uses another file as the program.
    fn name_program(&mut self, program: Option<&Path>) -> Result<()> {
        let Some(path) = program else { return Ok(()) };
        match self.files.first_mut().filter(|one| one.is_program) {
            Some(file) => {
                file.path = path.to_owned();
                file.places = vec![path.to_owned()];
                Ok(())
            }
            None => refuse(format!(
                "{} does not record where its program was in memory",
                self.image.path().display()
            )),
        }
    }
}

/// The notes that are read.
#[derive(Default)]
struct Notes {
    auxiliary: Vec<u8>,
    files: Vec<u8>,
}

/// The ranges of memory, ordered by address, and the notes. Those that are cut off are shortened.
fn contents(image: &Image) -> Result<(Vec<Part>, Notes)> {
    let data = image.data();
    let end = data.len().unwrap_or(0);
    let (mut parts, mut noted) = (Vec::new(), Notes::default());
    for segment in segments(image)? {
        let length = segment.in_file.min(end.saturating_sub(segment.offset));
        match segment.purpose {
            Purpose::Load if length != 0 => {
                parts.push(Part { start: segment.address, offset: segment.offset, length });
            }
            Purpose::Note => {
                let bytes = data.read_bytes_at(segment.offset, length).unwrap_or_default();
                for note in notes(bytes) {
                    let kept = match note.kind {
                        AUXILIARY => &mut noted.auxiliary,
                        FILES => &mut noted.files,
                        _ => continue,
                    };
                    if kept.is_empty() {
                        kept.extend(note.text);
                    }
                }
            }
            _ => {}
        }
    }
    parts.sort_by_key(|part| part.start);
    Ok((parts, noted))
}

/// The next number of the width of an address.
fn address(rest: &mut Reader<'_>, model: Model) -> Result<u64> {
    match model {
        Model::Lp64 => rest.long(),
        Model::Ilp32 => Ok(rest.word()?.into()),
    }
}

impl Notes {
    /// The mapped files, the program first.
    fn files(&self, model: Model) -> Result<Vec<MappedFile>> {
        let mut made: Vec<MappedFile> = Vec::new();
        let mut numbers: HashMap<&[u8], usize> = HashMap::new();
        let entry = self.entry(model);
        for (name, mapping) in self.mappings(model)? {
            let number = *numbers.entry(name).or_insert_with(|| {
                let path = PathBuf::from(OsStr::from_bytes(name));
                let places = vec![path.clone()];
                made.push(MappedFile { path, places, mappings: Vec::new(), is_program: false });
                made.len() - 1
            });
            made[number].mappings.push(mapping);
        }
        let begins_in = |file: &MappedFile| {
            file.mappings.iter().any(|one| (one.start..one.end).contains(&entry))
        };
        if let Some(number) = made.iter().position(begins_in) {
            made[number].is_program = true;
            made[..=number].rotate_right(1);
        }
        Ok(made)
    }

    /// The mapped parts of files, each with its file's name.
    fn mappings(&self, model: Model) -> Result<Vec<(&[u8], Mapping)>> {
        if self.files.is_empty() {
            return Ok(Vec::new());
        }
        let mut rest = Reader::new(&self.files, Endianness::Little, "list of files");
        let (count, page) = (address(&mut rest, model)?, address(&mut rest, model)?);
        let count = usize::try_from(count).map_err(|_| rest.damage())?;
        let width = if model == Model::Lp64 { 8 } else { 4 };
        if count > rest.rest().len() / (3 * width) {
            return Err(rest.damage());
        }
        let listed = (0..count).map(|_| {
            let (start, end) = (address(&mut rest, model)?, address(&mut rest, model)?);
            let offset = address(&mut rest, model)?.saturating_mul(page);
            Ok(Mapping { start, end, offset })
        });
        let listed = listed.collect::<Result<Vec<Mapping>>>()?;
        let names: Vec<&[u8]> = rest.rest().split(|&byte| byte == 0).take(count).collect();
        match names.len() == count {
            true => Ok(names.into_iter().zip(listed).collect()),
            false => Err(rest.damage()),
        }
    }

    /// The address of the program's entry point; 0 if it is not recorded.
    fn entry(&self, model: Model) -> u64 {
        let mut rest = Reader::new(&self.auxiliary, Endianness::Little, "auxiliary values");
        let pair = |_| Some((address(&mut rest, model).ok()?, address(&mut rest, model).ok()?));
        let found = std::iter::repeat(()).map_while(pair).find(|&(key, _)| key == ENTRY);
        found.map_or(0, |(_, value)| value)
    }
}
