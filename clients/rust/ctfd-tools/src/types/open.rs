//! Opens the dictionaries of a command line, with their parents.

use super::catalog::{Catalog, Lists, Volume};
use super::failure::{refusal_text, Failure, Outcome};
use super::options::{Words, NAME};
use super::text::printable;
use super::warn_by;
use crate::progress::with_bar;
use ctfd::{Dictionary, Fault, Model, Refusal};
use ctfd_read::dictionary::notice;
use ctfd_read::image::Image;
use ctfd_read::opening::{self, LibraryInput, Origin};
use std::borrow::Cow;
use std::cell::OnceCell;
use std::os::unix::ffi::OsStrExt as _;
use std::path::Path;

/// How many lines report the losses of a converted file.
const FEW: usize = 3;
const ALONE: &str =
    "--parent, --symbols and --strings go with a dictionary, and this file's types \
                     are converted first: leave them out, or make the dictionary by ctfd-convert \
                     (--parent makes a child)";

const NO_PARENT: &str =
    "it has the parts of one program, and a parent is one dictionary: make one by \
                         ctfd-convert --split";
const IN_PARTS: &str =
    "its dictionaries are the parts of one program, which need no other parent: \
                        leave --parent out";

/// A path as messages have it.
pub fn display_path(path: &Path) -> String {
    printable(path.as_os_str().as_bytes()).into_owned()
}

/// The parent of the command line, which is read once for all files.
pub struct Parents<'w> {
    command: &'static str,
    path: Option<&'w Path>,
    model: Option<Model>,
    image: OnceCell<Image>,
}

impl<'w> Parents<'w> {
    /// The parent at a path, which is not read yet; `model` is the data model of the command line.
    pub fn new(command: &'static str, path: Option<&'w Path>, model: Option<Model>) -> Parents<'w> {
        Parents { command, path, model, image: OnceCell::new() }
    }

    /// The library's input for the parent; None if none is named.
    fn parent_input(&self) -> Outcome<Option<(&Path, LibraryInput<'_>)>> {
        let Some(path) = self.path else { return Ok(None) };
        if self.image.get().is_none() {
            let _ = self.image.set(Image::open(path)?);
        }
        let Some(image) = self.image.get() else { return Ok(None) };
        let reading = ctfd_read::inputs::Options {
            model: self.model,
            ..ctfd_read::inputs::Options::default()
        };
        let mut handed = opening::library_input(image, &reading)?;
        if !handed.children.is_empty() {
            let path = display_path(path);
            return Err(Failure::Refused(format!("{path}: {NO_PARENT}")));
        }
        judge_model(&mut handed, self.model, path)?;
        Ok(Some((path, handed)))
    }
}

/// The library's input for a file, with the options of the command line.
pub fn library_input<'i>(image: &'i Image, words: &Words) -> Outcome<LibraryInput<'i>> {
    let is_given = words.parent.is_some() || words.symbols.is_some() || words.strings.is_some();
    handed_by(NAME, image, &words.reading, is_given)
}

/// The same for another command. `is_given` says whether an option is given that applies only to
/// dictionaries.
pub fn handed_by<'i>(
    command: &str,
    image: &'i Image,
    reading: &ctfd_read::inputs::Options,
    is_given: bool,
) -> Outcome<LibraryInput<'i>> {
    let path = image.path();
    let mut found = opening::library_input(image, &with_bar(reading, path))?;
    for line in losses(&found, path) {
        warn_by(command, &format!("{}: {line}", display_path(path)));
    }
    if found.is_made && is_given {
        return Err(Failure::Refused(format!("{}: {ALONE}", display_path(path))));
    }
    judge_model(&mut found, reading.model, path)?;
    Ok(found)
}

/// Lines on what CTF cannot represent of a file: each construct, if there are few.
fn losses(found: &LibraryInput<'_>, path: &Path) -> Vec<String> {
    let how = format!("`ctfd-convert --report - {} /dev/null` lists them all", display_path(path));
    match found.losses.is_empty() {
        true => Vec::new(),
        false => notice(&found.losses, FEW, &how),
    }
}

/// Sets the wanted data model, if there is one. Refuses it if the dictionary names another.
pub fn judge_model(
    found: &mut LibraryInput<'_>,
    wanted: Option<Model>,
    path: &Path,
) -> Outcome<()> {
    let Some(wanted) = wanted else { return Ok(()) };
    let word = |model| match model {
        ctfd::Model::Ilp32 => "ilp32",
        ctfd::Model::Lp64 => "lp64",
    };
    if let Some(said) = opening::model_named(&found.ctf).filter(|&said| said != wanted) {
        return Err(Failure::Refused(format!(
            "{}: its model is {}, but {} was asked for: leave the model out",
            display_path(path),
            word(said),
            word(wanted)
        )));
    }
    found.model = Some(wanted);
    found.children.iter_mut().for_each(|child| child.model = Some(wanted));
    Ok(())
}

/// A symbol table and strings, each in place of the file's own.
pub struct GivenSymbols {
    symbols: Option<Image>,
    strings: Option<Image>,
}

impl GivenSymbols {
    /// The symbol table and strings of the command line.
    pub fn of(words: &Words) -> Outcome<GivenSymbols> {
        let open = |path: &Option<std::path::PathBuf>| {
            path.as_deref().map(Image::open).transpose().map_err(Failure::from)
        };
        Ok(GivenSymbols { symbols: open(&words.symbols)?, strings: open(&words.strings)? })
    }

    /// Replaces the symbol table and strings of a file. A whole program may be given for its symbol
    /// table.
    pub fn put<'a>(&'a self, found: &mut LibraryInput<'a>) -> Outcome<()> {
        if let Some(image) = &self.symbols {
            found.origin = Origin::Given;
            if image.is_elf() {
                let Some((symbols, strings)) = opening::table_of_program(image) else {
                    return Err(Failure::Refused(format!(
                        "{}: it has no symbol table of 64 bits",
                        display_path(image.path())
                    )));
                };
                found.symbols = Some(symbols.into());
                found.strings = Some(strings.into());
            } else {
                found.symbols = Some(image.all()?.into());
            }
        }
        if let Some(image) = &self.strings {
            found.origin = Origin::Given;
            found.strings = Some(image.all()?.into());
        }
        Ok(())
    }
}

/// An open dictionary, and how its symbols were found.
pub struct OpenDictionary<'o, 'd> {
    pub catalog: &'o Catalog<'d>,
    /// The parent of the command line.
    pub parent: Option<&'o Volume<'d>>,
    /// The library's input for the dictionary.
    pub handed: &'o LibraryInput<'o>,
}

/// Opens a file's dictionary, and calls `run` with it. If guessed symbols do not fit, or those of a
/// converted file, it is opened without symbols.
pub fn with_catalog<T>(
    path: &Path,
    handed: &LibraryInput<'_>,
    parents: &Parents<'_>,
    run: impl FnOnce(&OpenDictionary<'_, '_>) -> Outcome<T>,
) -> Outcome<T> {
    let refusal = match Dictionary::open_lent(&handed.ctf, handed.options()) {
        Ok(types) => return over_parent(path, types, handed, parents, run),
        Err(refusal) => refusal,
    };
    let is_guess = handed.origin == Origin::Guessed;
    if !is_of_symbols(&refusal) || !(is_guess || handed.is_made) {
        return Err(Failure::of_library(display_path(path), refusal));
    }
    if handed.is_made {
        let line = "the types of its symbols do not fit its symbol table: symbols are left out";
        warn_by(parents.command, &format!("{}: {line}", display_path(path)));
    }
    let bare = LibraryInput {
        strings: handed.strings.as_deref().filter(|_| is_guess).map(Cow::Borrowed),
        origin: if is_guess { Origin::Refused } else { Origin::None },
        ..handed.without_symbols()
    };
    let types = Dictionary::open_lent(&bare.ctf, bare.options())
        .map_err(|refusal| Failure::of_library(display_path(path), refusal))?;
    over_parent(path, types, &bare, parents, run)
}

/// Whether a refusal is about symbols.
fn is_of_symbols(refusal: &Refusal) -> bool {
    matches!(refusal.fault, Fault::BadFuncs | Fault::BadSymbolType | Fault::BadSymtab)
}

fn over_parent<T>(
    path: &Path,
    types: Dictionary<'_>,
    handed: &LibraryInput<'_>,
    parents: &Parents<'_>,
    run: impl FnOnce(&OpenDictionary<'_, '_>) -> Outcome<T>,
) -> Outcome<T> {
    if !handed.children.is_empty() {
        return in_parts(path, &types, handed, parents, run);
    }
    let Some((parent_path, parent)) = parents.parent_input()? else {
        let catalog = Catalog::new(volume(&types, handed), None);
        return run(&OpenDictionary { catalog: &catalog, parent: None, handed });
    };
    let what = format!("{}, as the parent of {}", display_path(parent_path), display_path(path));
    if let Some(why) = opening::why_not_parent(&types, &parent.ctf) {
        return Err(Failure::Refused(format!("{what}: {why}")));
    }
    let opened = Dictionary::open_lent(&parent.ctf, parent.options())
        .map_err(|refusal| Failure::of_library(display_path(parent_path), refusal))?;
    let mut types = types; // shortened to the lifetime of the parent
    types.import(&opened).map_err(|refusal| Failure::Refused(refusal_text(what, refusal)))?;
    let catalog = Catalog::new(volume(&types, handed), Some(lists(&parent)));
    let beneath = volume(&opened, &parent);
    run(&OpenDictionary { catalog: &catalog, parent: Some(&beneath), handed })
}

/// Opens a program in parts, with all its children.
fn in_parts<T>(
    path: &Path,
    parent: &Dictionary<'_>,
    handed: &LibraryInput<'_>,
    parents: &Parents<'_>,
    run: impl FnOnce(&OpenDictionary<'_, '_>) -> Outcome<T>,
) -> Outcome<T> {
    if parents.path.is_some() {
        return Err(Failure::Refused(format!("{}: {IN_PARTS}", display_path(path))));
    }
    let open = |(place, child): (usize, &LibraryInput<'_>)| {
        let what = || format!("{}, part {}", display_path(path), place + 1);
        let mut types = Dictionary::open_with(&child.ctf, child.options())
            .map_err(|refusal| Failure::of_library(what(), refusal))?;
        types.import(parent).map_err(|refusal| Failure::Refused(refusal_text(what(), refusal)))?;
        Ok(types)
    };
    let children: Vec<Dictionary<'_>> =
        handed.children.iter().enumerate().map(open).collect::<Outcome<_>>()?;
    let listed = children.iter().zip(&handed.children);
    let listed = listed.map(|(types, child)| Volume {
        has_first_symbols: child.symbols == handed.symbols,
        ..volume(types, child)
    });
    let catalog = Catalog::in_parts(volume(parent, handed), listed.collect());
    run(&OpenDictionary { catalog: &catalog, parent: None, handed })
}

fn volume<'h>(types: &'h Dictionary<'h>, handed: &'h LibraryInput<'_>) -> Volume<'h> {
    Volume { types, lists: lists(handed), has_first_symbols: true }
}

fn lists<'h>(handed: &'h LibraryInput<'_>) -> Lists<'h> {
    Lists { ctf: &handed.ctf, strings: handed.strings.as_deref().unwrap_or_default() }
}

/// The failure that the parent of a child is not named.
pub fn without_parent(path: &Path, catalog: &Catalog<'_>) -> Failure {
    let name = catalog.parent_name();
    let name = match name.is_empty() {
        true => Cow::Borrowed("a parent without a name"),
        false => printable(&name),
    };
    Failure::Refused(format!(
        "{} is a child of {name}, whose types it names: name the parent's file by --parent",
        display_path(path)
    ))
}
