//! The types of a file: its own dictionary, or one converted from its debug information.

use super::modules::{written_name, Module};
use super::options::NAME;
use crate::elsewhere;
use crate::progress::with_bar;
use crate::types::catalog::{Catalog, Lists, Volume};
use crate::types::failure::refusal_text;
use crate::types::open::display_path;
use crate::types::warn_by;
use ctfd::{Dictionary, Fault, Model};
use ctfd_read::beside::is_same_build;
use ctfd_read::dictionary::notice;
use ctfd_read::error::{refuse, Error, Result};
use ctfd_read::image::Image;
use ctfd_read::inputs::Options;
use ctfd_read::opening::{self, LibraryInput, Origin};
use std::cell::RefCell;
use std::path::Path;

/// The size of a symbol in ELF64, and of its longest name, in bytes.
const ENTRY: usize = 24;
const LONGEST_NAME: usize = 4096;
/// Names may overlap: all names may have this many times the bytes of the symbol table and its
/// strings.
const MOST_TIMES: usize = 64;
const OBJECT: u8 = 1;
const FUNCTION: u8 = 2;
/// How many lines report the losses of a converted file.
const FEW: usize = 1;

/// A symbol that may have a type in a dictionary.
#[derive(Clone, Copy, Debug)]
pub struct SymbolEntry {
    /// The index of the dictionary in the file to which the symbol was given.
    pub place: usize,
    /// Its index in the symbol table.
    pub number: u32,
    /// Its address in the file. None if the dictionary has only its name, as for a stripped
    /// program.
    pub address: Option<u64>,
    pub is_function: bool,
}

/// The lists from which a dictionary was opened.
struct OwnLists {
    ctf: Vec<u8>,
    strings: Vec<u8>,
}

impl OwnLists {
    fn of(handed: &LibraryInput<'_>) -> OwnLists {
        OwnLists {
            ctf: handed.ctf.to_vec(),
            strings: handed.strings.as_deref().unwrap_or_default().to_vec(),
        }
    }

    fn borrow_all(&self) -> Lists<'_> {
        Lists { ctf: &self.ctf, strings: &self.strings }
    }
}

/// A dictionary of a file, with its symbols.
struct Part {
    types: Dictionary<'static>,
    lists: OwnLists,
    symbols: SymbolList,
    has_first_symbols: bool,
}

impl Part {
    fn of(
        types: Dictionary<'static>,
        handed: &LibraryInput<'_>,
        place: usize,
        has_first_symbols: bool,
    ) -> Part {
        // The first part lists the symbols for all parts that share them.
        let symbols = match place == 0 || !has_first_symbols {
            true => SymbolList::of(handed, place),
            false => SymbolList::default(),
        };
        Part { types, lists: OwnLists::of(handed), symbols, has_first_symbols }
    }

    fn volume(&self) -> Volume<'_> {
        let has_first_symbols = self.has_first_symbols;
        Volume { types: &self.types, lists: self.lists.borrow_all(), has_first_symbols }
    }
}

/// The types of a file.
pub struct FileTypes {
    /// Its dictionary; for a program in parts, the parent followed by the children.
    parts: Vec<Part>,
    /// The lists of the parent, if there is only one dictionary.
    parent: Option<OwnLists>,
    /// Lines on what CTF cannot represent of a converted file; empty once they were printed.
    losses: RefCell<Vec<String>>,
}

impl FileTypes {
    /// Prints what CTF cannot represent of the file, the first time that something of it is used.
    pub fn warn_of_losses(&self) {
        self.losses.take().iter().for_each(|line| warn_by(NAME, line));
    }

    /// The symbols with a name. If there are none, those that had this name in C before link-time
    /// optimisation renamed them.
    pub fn symbols(&self, name: &[u8]) -> Vec<SymbolEntry> {
        let matching = |meets: &dyn Fn(&[u8]) -> bool| -> Vec<SymbolEntry> {
            self.parts.iter().flat_map(|part| part.symbols.matching(meets)).collect()
        };
        let found = matching(&|one| one == name);
        match found.is_empty() {
            true => matching(&|one| written_name(one) == name),
            false => found,
        }
    }

    /// The types by their numbers.
    pub fn catalog(&self) -> Catalog<'_> {
        let mut volumes = self.parts.iter().map(Part::volume);
        match (self.parts.len(), volumes.next()) {
            (1, Some(only)) => Catalog::new(only, self.parent.as_ref().map(OwnLists::borrow_all)),
            (_, Some(first)) => Catalog::in_parts(first, volumes.collect()),
            (_, None) => unreachable!("a file with types has a dictionary"),
        }
    }

    /// The types of a mapped file.
    pub fn of_module(
        module: &Module,
        parent: Option<&Path>,
        reading: &Options,
    ) -> Result<FileTypes> {
        let image = &module.image;
        let mut handed = opening::handed_before_strip(image, &with_bar(reading, image.path()))?;
        handed.widen(image)?;
        FileTypes::open(handed, image.path(), parent)
    }

    /// The types of the file that the user named for the program, which may not be known.
    pub fn of_path(
        path: &Path,
        program: Option<&Module>,
        parent: Option<&Path>,
        reading: &Options,
    ) -> Result<FileTypes> {
        let image = elsewhere::open(path, reading)?;
        let mut handed = opening::handed_before_strip(&image, &with_bar(reading, path))?;
        if image.is_elf() {
            if let Some(program) = program {
                judge_build(&image, program)?;
            }
            handed.widen(&image)?;
        } else {
            if let Some(program) = program {
                let is_64 = program.image.data_is_64()?;
                let model = if is_64 { Model::Lp64 } else { Model::Ilp32 };
                handed.model = handed.model.or(Some(model));
                handed.add_symbols_of(&program.image)?;
            }
        }
        FileTypes::open(handed, path, parent)
    }

    fn open(mut handed: LibraryInput<'_>, path: &Path, parent: Option<&Path>) -> Result<FileTypes> {
        if handed.has_more_names() {
            handed.add_names();
        }
        warn_of_symbols(&handed, path);
        let mut types = open_dictionary(&mut handed, path)?;
        let losses = RefCell::new(losses(&handed, path));
        let is_alone = handed.children.is_empty();
        let parent = match types.is_child() && is_alone {
            true => Some(import(&mut types, path, parent)?),
            false => None,
        };
        let mut parts = Vec::new();
        for (place, child) in handed.children.iter().enumerate() {
            let what = format!("{}, part {}", display_path(path), place + 1);
            let refusal = |refusal| Error(refusal_text(&what, refusal));
            let mut own = Dictionary::open_with(&child.ctf, child.options()).map_err(refusal)?;
            own.import(&types).map_err(refusal)?;
            let has_first_symbols = child.symbols == handed.symbols;
            parts.push(Part::of(own, child, place + 1, has_first_symbols));
        }
        parts.insert(0, Part::of(types, &handed, 0, true));
        Ok(FileTypes { parts, parent, losses })
    }
}

/// Opens the dictionary of a file. If guessed symbols do not fit, it is opened without symbols.
fn open_dictionary(handed: &mut LibraryInput<'_>, path: &Path) -> Result<Dictionary<'static>> {
    let refusal = |refusal| Error(refusal_text(display_path(path), refusal));
    match Dictionary::open_with(&handed.ctf, handed.options()) {
        Err(refused) => {
            let is_of_symbols =
                matches!(refused.fault, Fault::BadFuncs | Fault::BadSymbolType | Fault::BadSymtab);
            if !is_of_symbols || handed.origin != Origin::Guessed {
                return Err(refusal(refused));
            }
            handed.without_guess();
            warn_of_symbols(handed, path);
            Dictionary::open_with(&handed.ctf, handed.options()).map_err(refusal)
        }
        types => types.map_err(refusal),
    }
}

/// Refuses types of another build than the program's.
fn judge_build(image: &Image, program: &Module) -> Result<()> {
    match is_same_build(&program.image, image)? {
        true => Ok(()),
        false => refuse(format!(
            "{} is of another build than {}, so its types may not be those of the program: name a \
             file of that build, or a section by itself",
            display_path(image.path()),
            display_path(program.path())
        )),
    }
}

/// Lines on what CTF cannot represent of a converted file.
fn losses(handed: &LibraryInput<'_>, path: &Path) -> Vec<String> {
    let path = display_path(path);
    let how = format!("`ctfd-convert --report - {path} /dev/null` lists them all");
    if handed.losses.is_empty() {
        return Vec::new();
    }
    let lines = notice(&handed.losses, FEW, &how);
    lines.into_iter().map(|line| format!("{path}: {line}")).collect()
}

/// Warns of symbols for which the dictionary may not have been written.
fn warn_of_symbols(handed: &LibraryInput<'_>, path: &Path) {
    if !handed.origin.warning().is_empty() {
        warn_by(NAME, &format!("{}: {}", display_path(path), handed.origin.warning()));
    }
}

/// Imports the parent from the file that the user named.
fn import(types: &mut Dictionary<'static>, path: &Path, parent: Option<&Path>) -> Result<OwnLists> {
    let name = types.parent_name();
    let Some(parent) = parent else {
        return refuse(format!(
            "{} is a child of {name}: name the parent's file by --parent",
            display_path(path)
        ));
    };
    let what = format!("{}, as the parent of {}", display_path(parent), display_path(path));
    let image = Image::open(parent)?;
    let mut handed = opening::library_input(&image, &Options::default())?;
    handed.model = Some(types.model());
    if let Some(why) = opening::why_not_parent(types, &handed.ctf) {
        return refuse(format!("{what}: {why}"));
    }
    let refusal = |refusal| Error(refusal_text(&what, refusal));
    let opened = Dictionary::open_with(&handed.ctf, handed.options()).map_err(refusal)?;
    types.import(&opened).map_err(refusal)?;
    Ok(OwnLists::of(&handed))
}

/// The functions and objects of a symbol table.
#[derive(Default)]
struct SymbolList {
    /// All names, one after the other.
    names: Vec<u8>,
    /// The end of each name in `names`, and its symbol.
    listed: Vec<(usize, SymbolEntry)>,
}

impl SymbolList {
    fn of(handed: &LibraryInput<'_>, place: usize) -> SymbolList {
        let mut made = SymbolList::default();
        let (Some(table), Some(strings)) = (&handed.symbols, &handed.strings) else { return made };
        let most = MOST_TIMES * (table.len() + strings.len());
        for (number, entry) in table.chunks_exact(ENTRY).enumerate() {
            if let Some((name, symbol)) = symbol((place, number), entry, strings) {
                if made.names.len() + name.len() > most {
                    break;
                }
                made.names.extend(name);
                made.listed.push((made.names.len(), symbol));
            }
        }
        made
    }

    /// The symbols whose names `meets` accepts.
    fn matching<'s>(
        &'s self,
        meets: impl Fn(&[u8]) -> bool + 's,
    ) -> impl Iterator<Item = SymbolEntry> + 's {
        let mut start = 0;
        self.listed.iter().filter_map(move |&(end, symbol)| {
            let name = &self.names[start..end];
            start = end;
            meets(name).then_some(symbol)
        })
    }
}

/// The name and symbol of a table's entry, if it is a function or object that the file defines.
fn symbol<'s>(
    (place, number): (usize, usize),
    entry: &[u8],
    strings: &'s [u8],
) -> Option<(&'s [u8], SymbolEntry)> {
    let at = u32::from_le_bytes(entry[..4].try_into().ok()?) as usize;
    let section = u16::from_le_bytes(entry[6..8].try_into().ok()?);
    let address = u64::from_le_bytes(entry[8..16].try_into().ok()?);
    let kind = entry[4] & 15;
    if at == 0 || section == 0 || !matches!(kind, OBJECT | FUNCTION) {
        return None;
    }
    let rest = strings.get(at..)?;
    let rest = &rest[..rest.len().min(LONGEST_NAME)];
    // A library's symbols have a version after `@`.
    let end = rest.iter().position(|&byte| byte == 0 || byte == b'@').unwrap_or(rest.len());
    let symbol = SymbolEntry {
        place,
        number: number as u32,
        address: (address != 0).then_some(address),
        is_function: kind == FUNCTION,
    };
    Some((&rest[..end], symbol))
}
