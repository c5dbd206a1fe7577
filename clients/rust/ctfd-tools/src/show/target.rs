//! An address space for expressions: its memory, its symbols, and the types of its files.

use super::file_types::FileTypes;
use super::modules::Module;
use super::options::Words;
use super::space::Space;
use crate::types::catalog::Catalog;
use crate::types::text::printable;
use ctfd::Model;
use ctfd_read::error::{refuse, Error, Result};
use ctfd_read::inputs::Options;
use std::cell::OnceCell;
use std::path::{Path, PathBuf};

const PAGE: u64 = 4096;

/// The types of each source, which is opened when it is needed.
pub type TypesOfFiles = Vec<OnceCell<Result<FileTypes>>>;

/// A source of types: a mapped file, or a file that the user named for the program.
pub struct Source<'t> {
    /// The mapped file; None if no symbol of the source has an address.
    pub module: Option<&'t Module>,
    /// The file that has the types in its place.
    pub named: Option<PathBuf>,
    /// Whether it has a dictionary, so that it need not be converted.
    pub has_dictionary: bool,
}

/// A source, with its types and catalog once it is open.
pub(super) struct Home<'t> {
    pub(super) source: Source<'t>,
    pub(super) typed: &'t OnceCell<Result<FileTypes>>,
    pub(super) catalog: OnceCell<Catalog<'t>>,
}

/// An address space; look-ups go through its sources in order.
pub struct Target<'t> {
    pub(super) space: &'t Space,
    pub(super) modules: &'t [Module],
    pub(super) homes: Vec<Home<'t>>,
    parent: Option<&'t Path>,
    reading: &'t Options,
    /// The data model of the program.
    pub model: Model,
}

impl<'t> Target<'t> {
    /// The target of an address space, its modules, and the sources of types.
    pub fn new(
        space: &'t Space,
        modules: &'t [Module],
        sources: Vec<Source<'t>>,
        typed: &'t TypesOfFiles,
        words: &'t Words,
    ) -> Target<'t> {
        let is_64 = modules.first().is_none_or(|one| one.image.data_is_64().unwrap_or(true));
        let home = |(source, typed)| Home { source, typed, catalog: OnceCell::new() };
        let homes = sources.into_iter().zip(typed).map(home).collect();
        let model = if is_64 { Model::Lp64 } else { Model::Ilp32 };
        let parent = words.parent.as_deref();
        Target { space, modules, homes, parent, reading: &words.reading, model }
    }

    /// Refuses a file that the user named for the program, if it cannot be read.
    pub fn judge_types(&self) -> Result<()> {
        match self.homes.first().filter(|one| one.source.named.is_some()) {
            Some(_) => self.open(0).map(drop),
            None => Ok(()),
        }
    }

    /// The name for messages.
    pub fn name(&self) -> String {
        self.space.name()
    }

    /// Whether it is a process that has ended meanwhile.
    pub fn has_ended(&self) -> bool {
        self.space.has_ended()
    }

    /// At most `length` bytes at an address: as many as can be read.
    pub fn bytes(&self, address: u64, length: u64) -> Vec<u8> {
        let mut made = Vec::new();
        while (made.len() as u64) < length {
            let Some(at) = address.checked_add(made.len() as u64) else { break };
            let piece = self.piece(at, length - made.len() as u64);
            if piece.is_empty() {
                break;
            }
            made.extend(piece);
        }
        made
    }

    /// The same; fails if the first byte cannot be read.
    pub fn read(&self, address: u64, length: u64) -> Result<Vec<u8>> {
        let found = self.bytes(address, length);
        match found.is_empty() && length != 0 {
            true if self.space.has_ended() => refuse(format!("{} has ended", self.name())),
            true => {
                refuse(format!("{} has no memory at 0x{address:x} that can be read", self.name()))
            }
            false => Ok(found),
        }
    }

    /// Some bytes at an address, from memory. What a core file leaves out comes from the mapped
    /// files.
    fn piece(&self, address: u64, length: u64) -> Vec<u8> {
        let found = self.space.read(address, length);
        if !found.is_empty() {
            return found;
        }
        let length = length.min(PAGE - address % PAGE);
        let constant = self.modules.iter().map(|one| one.constant_bytes(address, length));
        constant.into_iter().find(|bytes| !bytes.is_empty()).unwrap_or_default().to_vec()
    }

    /// The symbol at an address, as `<main+4>`; empty if there is none.
    pub fn label(&self, address: u64) -> String {
        let module = self.modules.iter().find(|one| one.has(address));
        let label = module.map(|one| one.label(address)).unwrap_or_default();
        printable(&label).into_owned()
    }

    /// The catalog of a source, which must be open.
    pub fn catalog(&self, home: usize) -> &Catalog<'t> {
        let catalog = &self.homes[home].catalog;
        catalog.get().unwrap_or_else(|| unreachable!("a type is of a dictionary that is open"))
    }

    /// Opens the types of a source.
    pub(super) fn open(&self, home: usize) -> Result<(&'t FileTypes, &Catalog<'t>)> {
        let Home { source, typed, catalog } = &self.homes[home];
        let typed = typed.get_or_init(|| match (&source.named, source.module) {
            (Some(path), module) => FileTypes::of_path(path, module, self.parent, self.reading),
            (None, Some(module)) => FileTypes::of_module(module, self.parent, self.reading),
            (None, None) => refuse("no file has types"),
        });
        let typed = typed.as_ref().map_err(|error| Error(error.0.clone()))?;
        let catalog = catalog.get_or_init(|| typed.catalog());
        Ok((typed, catalog))
    }
}
