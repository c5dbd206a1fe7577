//! Opens a file to compare, with its parent if there is one.

use super::options::NAME;
use super::packages::UnpackedPackage;
use super::Read;
use crate::elsewhere;
use crate::progress::with_bar;
use crate::types::catalog::Catalog;
use crate::types::crowded::{is_crowded, CROWDED};
use crate::types::failure::{Failure, Outcome};
use crate::types::names::Names;
use crate::types::open::{display_path, judge_model, with_catalog, without_parent, Parents};
use crate::types::symbol_lists::has_symbol_types;
use ctfd_read::beyond::Beyond;
use ctfd_read::declared::SourceFiles;
use ctfd_read::exports::{exports, Exports};
use ctfd_read::image::Image;
use ctfd_read::opening::{self, LibraryInput};
use std::borrow::Cow;
use std::path::Path;

const ALONE: &str = "a parent goes with a dictionary, and this file's types are converted first: \
                     leave the parent out, or make the dictionary by ctfd-convert (--parent makes \
                     a child)";

/// An open file.
pub struct OpenFile<'o, 'd> {
    /// Its bytes.
    pub image: &'o Image,
    /// Its types and their names.
    pub names: &'o Names<'o, 'd>,
    unpacked: Option<&'o UnpackedPackage>,
    is_library: bool,
    /// The library's input for its dictionary.
    pub handed: &'o LibraryInput<'o>,
    losses: &'o [String],
    beyond: Option<&'o Beyond>,
    /// The source files in which its types are defined, if they are needed.
    pub sources: &'o SourceFiles,
}

impl<'o, 'd> OpenFile<'o, 'd> {
    /// The file's path as messages have it.
    pub fn path(&self) -> String {
        let path = display_path(self.image.path());
        self.unpacked.map_or(path.clone(), |unpacked| unpacked.with_package_name(&path))
    }

    /// Its types.
    pub fn catalog(&self) -> &'o Catalog<'d> {
        self.names.catalog
    }

    /// What the file records that its dictionary cannot represent, and the losses that remain.
    pub fn beyond(&self) -> Cow<'o, Beyond> {
        let losses = || self.losses.to_vec();
        match self.beyond {
            Some(found) => Cow::Borrowed(found),
            None => Cow::Owned(Beyond { losses: losses(), ..Beyond::default() }),
        }
    }

    /// What it exports. None if the types of its symbols are not known, or if it exports no
    /// functions and is no library.
    pub fn exports(&self) -> Outcome<Option<Exports<'o>>> {
        let (Some(table), true) = (&self.handed.symbols, self.image.is_elf()) else {
            return Ok(None);
        };
        if !has_symbol_types(self.handed.origin) {
            return Ok(None);
        }
        let strings = self.handed.strings.as_deref().unwrap_or_default();
        let found = exports(self.image, table, strings)?;
        Ok((found.has_functions() || self.is_library).then_some(found))
    }
}

/// Opens a file and its parent, and calls `run` with it.
pub fn with_file<T>(
    &Read { path, reading, unpacked, is_library }: &Read<'_>,
    parent: Option<&Path>,
    run: impl FnOnce(&OpenFile<'_, '_>) -> Outcome<T>,
) -> Outcome<T> {
    let image = elsewhere::open(path, reading)?;
    let mut found = opening::library_input(&image, &with_bar(reading, path))?;
    if found.is_made && parent.is_some() {
        return Err(Failure::Refused(format!("{}: {ALONE}", display_path(path))));
    }
    judge_model(&mut found, reading.model, path)?;
    if found.has_more_names() {
        found.add_names();
    }
    let parents = Parents::new(NAME, parent, reading.model);
    with_catalog(path, &found, &parents, |opened| {
        let catalog = opened.catalog;
        if catalog.is_child() && parent.is_none() {
            return Err(without_parent(path, catalog));
        }
        let handed = opened.handed;
        if is_crowded(catalog) {
            return Err(Failure::Refused(format!("{}: {CROWDED}", display_path(path))));
        }
        let names = Names::new(catalog);
        let (losses, beyond, sources) = (&found.losses, found.beyond.as_ref(), &found.sources);
        run(&OpenFile {
            is_library,
            unpacked,
            image: &image,
            names: &names,
            handed,
            losses,
            beyond,
            sources,
        })
    })
}
