//! The input of the library for a file: its own dictionary, or one made from its types, and the
//! symbols that go with it.

use crate::archive::{has_dictionaries, members};
use crate::beyond::Beyond;
use crate::ctf::{self, Sections};
use crate::declared::SourceFiles;
use crate::dictionary::{alone, select, select_in_full, MOST_TYPES};
use crate::elf;
use crate::elsewhere::Elsewhere;
use crate::error::{refuse, Error, Result};
use crate::image::{Data, Image};
use crate::inputs::{plain_bytes, with_types, Form, Options, ProgramTypes};
use crate::labels;
use crate::limits::fit;
use crate::parts;
use crate::symbol_places::symbols_before_strip;
use crate::symbols::SymbolTable;
use crate::table::Table;
use ctfd::Model;
use object::elf::{FileHeader32, FileHeader64, SHF_COMPRESSED};
use object::elf::{SHT_DYNSYM, SHT_NOBITS, SHT_STRTAB, SHT_SYMTAB};
use object::read::elf::{FileHeader, SectionHeader, SectionTable};
use object::{Endianness, Object as _, ObjectSection as _, SectionFlags, SectionIndex};
use std::borrow::Cow;
use std::path::PathBuf;

/// The sections that may have a dictionary.
pub const SECTIONS: [&str; 2] = [".SUNW_ctf", ".ctf"];
/// The sections with types of any form but DWARF, and the sections of files whose types can be
/// converted.
const TYPES: [&str; 3] = [".SUNW_ctf", ".ctf", ".BTF"];
const OTHERS: [&str; 4] = [".debug_info", ".zdebug_info", ".gnu_debuglink", ".BTF"];

/// How the symbols for a dictionary were found.
#[derive(Clone, Copy, Debug, PartialEq, Eq)]
pub enum Origin {
    /// No symbols.
    None,
    /// The dictionary's label names them.
    Named,
    /// The section with the dictionary links to them.
    Linked,
    /// They are those of `.symtab`, for which the dictionary may not have been written.
    Guessed,
    /// The caller passed them.
    Given,
    /// They were guessed, and do not fit.
    Refused,
    /// The file no longer has the symbols that the dictionary was written for.
    Differs,
    /// The symbols that the dictionary was written for were stripped from the file.
    Stripped,
    /// They have 32 bits.
    Unread,
}

impl Origin {
    /// The word for the origin.
    pub fn word(self) -> &'static str {
        match self {
            Origin::None => "none",
            Origin::Named => "named",
            Origin::Linked => "linked",
            Origin::Guessed => "guessed",
            Origin::Given => "given",
            Origin::Refused => "refused",
            Origin::Differs => "differs",
            Origin::Stripped => "stripped",
            Origin::Unread => "unread",
        }
    }

    /// A warning for the user on such symbols; empty if there is none.
    pub fn warning(self) -> &'static str {
        match self {
            Origin::Guessed => {
                "the section names no symbol table: if the types were not written for the file's \
                 .symtab, the types of symbols are wrong"
            }
            Origin::Refused => {
                "the types were not written for the file's symbol table: symbols are left out"
            }
            Origin::Differs => {
                "the file was linked, stripped or changed after its types were written, so they no \
                 longer fit its symbol table: symbols are left out, and ctfd-convert writes the \
                 types anew"
            }
            Origin::Stripped => {
                "the symbol table that the types were written for was stripped from the file: \
                 symbols are left out; ctfd-convert --symbols dynsym writes for the one that strip \
                 keeps"
            }
            Origin::Unread => {
                "the file's symbol table has 32 bits, which is not read: symbols are left out"
            }
            Origin::None | Origin::Named | Origin::Linked | Origin::Given => "",
        }
    }
}

/// The input of the library for a file.
pub struct LibraryInput<'a> {
    /// The dictionary, decompressed.
    pub ctf: Cow<'a, [u8]>,
    /// The symbol table, in the form of ELF64.
    pub symbols: Option<Cow<'a, [u8]>>,
    /// Its strings. Names of the dictionary may be in them too.
    pub strings: Option<Cow<'a, [u8]>>,
    /// How the symbols were found.
    pub origin: Origin,
    /// The data model, if it is known.
    pub model: Option<Model>,
    /// Whether the dictionary was made from other types.
    pub is_made: bool,
    /// What CTF cannot represent, one line for each loss.
    pub losses: Vec<String>,
    /// The facts about the file's types that the dictionary lacks, if they were asked for.
    pub beyond: Option<Beyond>,
    /// The source files that define the types, if they were asked for.
    pub sources: SourceFiles,
    /// The children, if this is the parent of a program in parts.
    pub children: Vec<LibraryInput<'a>>,
}

impl<'a> LibraryInput<'a> {
    fn of_dictionary(ctf: Cow<'a, [u8]>) -> LibraryInput<'a> {
        LibraryInput {
            ctf,
            symbols: None,
            strings: None,
            origin: Origin::None,
            model: None,
            is_made: false,
            losses: Vec::new(),
            beyond: None,
            sources: SourceFiles::default(),
            children: Vec::new(),
        }
    }

    /// Copies what is borrowed.
    pub fn into_owned(self) -> LibraryInput<'static> {
        let owned = |bytes: Cow<'a, [u8]>| Cow::Owned(bytes.into_owned());
        LibraryInput {
            ctf: owned(self.ctf),
            symbols: self.symbols.map(owned),
            strings: self.strings.map(owned),
            origin: self.origin,
            model: self.model,
            is_made: self.is_made,
            losses: self.losses,
            beyond: self.beyond,
            sources: self.sources,
            children: self.children.into_iter().map(LibraryInput::into_owned).collect(),
        }
    }

    /// The dictionary and its children, without symbols.
    pub fn without_symbols(&self) -> LibraryInput<'_> {
        LibraryInput {
            model: self.model,
            is_made: self.is_made,
            children: self.children.iter().map(LibraryInput::without_symbols).collect(),
            ..LibraryInput::of_dictionary(Cow::Borrowed(&self.ctf))
        }
    }

    /// Whether a dictionary has names of symbols that `add_names` would add.
    pub fn has_more_names(&self) -> bool {
        let is_bare = self.symbols.is_none() && self.origin == Origin::None;
        let has_names = is_bare
            && Sections::of(&self.ctf)
                .ok()
                .and_then(|sections| labels::symbols(&sections))
                .is_some_and(|wanted| wanted.table == SymbolTable::Names);
        has_names || self.children.iter().any(LibraryInput::has_more_names)
    }

    /// Adds the symbols whose names the dictionaries themselves have.
    pub fn add_names(&mut self) {
        let own = Sections::of(&self.ctf).ok().and_then(|sections| {
            labels::own_symbols(&sections).map(|symbols| symbols.made_table())
        });
        if let Some((symbols, strings)) = own {
            self.symbols = Some(symbols.into());
            self.strings = Some(strings.into());
        }
        self.children.iter_mut().for_each(LibraryInput::add_names);
        if self.symbols.is_some() || self.children.iter().any(|one| one.symbols.is_some()) {
            self.origin = Origin::Named;
        }
    }

    /// The options for opening the dictionary with the library.
    pub fn options(&self) -> ctfd::Options<'_> {
        ctfd::Options {
            symbols: self.symbols.as_deref(),
            strings: self.strings.as_deref(),
            model: self.model.unwrap_or_default(),
        }
    }
}

/// Whether an ELF file has a section for a dictionary, with bytes in the file.
pub fn has_dictionary(image: &Image) -> bool {
    let Ok(file) = image.elf() else { return false };
    let mut listed = SECTIONS.iter().filter_map(|name| file.section_by_name(name));
    listed.any(|section| section.file_range().is_some())
}

/// The data model in a dictionary's label.
pub fn model_named(ctf: &[u8]) -> Option<Model> {
    Sections::of(ctf).ok().and_then(|sections| labels::model(&sections))
}

/// Compresses a dictionary, unless that takes as many bytes.
pub fn deflate(ctf: &[u8]) -> Result<Cow<'_, [u8]>> {
    let packed = ctf::deflate(ctf)?;
    Ok(if packed.len() < ctf.len() { packed.into() } else { ctf.into() })
}

/// The label by which a child identifies this dictionary as its parent; `None` if it is cut off.
pub fn label_of_parent(ctf: &[u8]) -> Option<Vec<u8>> {
    Sections::of(ctf).ok().map(|sections| labels::of_types(&sections))
}

/// The reason why a dictionary is not the parent that a child names; `None` if it may be.
pub fn why_not_parent(child: &ctfd::Dictionary<'_>, parent: &[u8]) -> Option<&'static str> {
    let sections = Sections::of(parent).ok()?;
    let of_parent = labels::of_types(&sections);
    child.is_child().then(|| labels::not_its_parent(&child.parent_label(), &of_parent)).flatten()
}

/// The symbol table of an ELF file and its strings: `.symtab` or else `.dynsym`.
pub fn table_of_program(image: &Image) -> Option<(&[u8], &[u8])> {
    let listed = |table| elf::symbol_lists(image, table).filter(|(symbols, _)| !symbols.is_empty());
    listed(SymbolTable::Symtab).or_else(|| listed(SymbolTable::Dynsym))
}

/// The file with the debug information of another file; `None` if that has it itself.
pub fn debug_file_of(image: &Image, folders: &[PathBuf]) -> Result<Option<Image>> {
    let found = elf::debug_file(image, folders);
    Ok(found.map_err(|error| error.of(image.path().display()))?.debug)
}

/// The input of the library for a file: its own dictionary, or one made from its types.
pub fn library_input<'a>(image: &'a Image, options: &Options) -> Result<LibraryInput<'a>> {
    match own_or_found(image, options)? {
        Some(found) => Ok(found),
        None => {
            let options = Options { symbols: table_wanted(image)?, ..options.clone() };
            convert(image, &options)
        }
    }
}

/// The dictionary of a file. If it has no types, that of a file found by its build-id; `None` if
/// there is none either.
fn own_or_found<'a>(image: &'a Image, options: &Options) -> Result<Option<LibraryInput<'a>>> {
    if let Some(found) = own_dictionary(image, options)? {
        return Ok(Some(found));
    }
    let is_wanted = options.elsewhere.is_there() && options.form.is_none() && image.is_elf();
    if !is_wanted || has_types(image)? || elf::debug_file(image, &options.folders).is_ok() {
        return Ok(None);
    }
    let id = image.elf()?.build_id()?.unwrap_or_default();
    let Some(found) = options.elsewhere.find(id)? else { return Ok(None) };
    let options = Options { elsewhere: Elsewhere::default(), ..options.clone() };
    Ok(Some(library_input(&found, &options)?.into_owned()))
}

/// Whether an ELF file itself has types.
fn has_types(image: &Image) -> Result<bool> {
    let file = image.elf()?;
    Ok(TYPES.iter().any(|name| file.section_by_name(name).is_some()) || elf::has_debug(&file))
}

/// As [`library_input`]. If strip has left a program only the symbols that it exports, the result
/// has its former symbols with their addresses, if the debug file has them.
pub fn handed_before_strip<'a>(image: &'a Image, options: &Options) -> Result<LibraryInput<'a>> {
    let is_stripped = symbols_before_strip(image).is_some();
    match own_or_found(image, options)? {
        None if is_stripped => {
            let options = Options { symbols: SymbolTable::Symtab, ..options.clone() };
            convert(image, &options)
        }
        Some(found) => Ok(found),
        None => library_input(image, options),
    }
}

/// The dictionary of a file, unless the file has other types that are wanted.
fn own_dictionary<'a>(image: &'a Image, options: &Options) -> Result<Option<LibraryInput<'a>>> {
    let is_plain = matches!(options.form, None | Some(Form::Ctf)) && options.base.is_none();
    if is_plain && !image.is_elf() && has_dictionaries(image.all()?) {
        return in_archive(image, options).map(Some);
    }
    if is_plain {
        match dictionary_of(image, options.number) {
            Ok(found) => return Ok(found),
            Err(error) if has_others(image) => drop(error),
            Err(error) => return Err(error.within(&image.path().display().to_string())),
        }
    }
    Ok(None)
}

/// The dictionary of a file; `None` if it has none of version 2.
pub fn dictionary_of<'a>(
    image: &'a Image,
    number: Option<usize>,
) -> Result<Option<LibraryInput<'a>>> {
    if image.is_elf() {
        return match image.elf()?.is_64() {
            true => in_elf::<FileHeader64<Endianness>>(image, number, Model::Lp64),
            false => in_elf::<FileHeader32<Endianness>>(image, number, Model::Ilp32),
        };
    }
    let data = image.all().map_err(|error| error.of(image.path().display()))?;
    if !ctf::Layout::of(data).is_some_and(ctf::Layout::is_native) {
        return Ok(None);
    }
    let ctf = match number.is_none() && ctf::each(data).len() == 1 {
        true => ctf::inflate(data)?,
        false => Cow::Owned(plain_bytes(image, number)?),
    };
    let model = model_named(&ctf);
    Ok(Some(LibraryInput { model, ..LibraryInput::of_dictionary(ctf) }))
}

/// The dictionaries of a program in parts, as `ctfd-convert` writes them; `None` for other files.
pub fn parts_of(image: &Image) -> Result<Option<LibraryInput<'_>>> {
    let is_archive = !image.is_elf() && has_dictionaries(image.all()?);
    is_archive.then(|| in_archive(image, &Options::default())).transpose()
}

/// The dictionaries of an archive, as `ctfd-convert` writes it for a program in parts.
fn in_archive<'a>(image: &'a Image, options: &Options) -> Result<LibraryInput<'a>> {
    let path = image.path().display();
    if options.number.is_some() {
        return refuse(format!(
            "{path}: its dictionaries are the parts of one program, and are read as one: leave the \
             number out"
        ));
    }
    let mut parts = members(image.all()?).map_err(|error| error.of(&path))?.into_iter();
    let part = |(name, bytes): (String, &'a [u8])| -> Result<LibraryInput<'a>> {
        if !ctf::Layout::of(bytes).is_some_and(ctf::Layout::is_native) {
            return refuse(format!(
                "{path}, {name}: no dictionary of CTF version 2: let ctfd-convert make the file anew"
            ));
        }
        let ctf = ctf::inflate(bytes).map_err(|error| error.of(format!("{path}, {name}")))?;
        Ok(LibraryInput { model: model_named(&ctf), ..LibraryInput::of_dictionary(ctf) })
    };
    let mut made = part(parts.next().unwrap_or_default())?;
    made.children = parts.map(part).collect::<Result<_>>()?;
    Ok(made)
}

/// Whether an ELF file has types besides those of its dictionary.
pub(crate) fn has_others(image: &Image) -> bool {
    let file = image.is_elf().then(|| image.elf().ok()).flatten();
    file.is_some_and(|file| OTHERS.iter().any(|name| file.section_by_name(name).is_some()))
}

fn in_elf<'a, F: FileHeader<Endian = Endianness>>(
    image: &'a Image,
    number: Option<usize>,
    model: Model,
) -> Result<Option<LibraryInput<'a>>> {
    let file = image.elf()?;
    let has_bytes = |name: &&str| {
        file.section_by_name(name).is_some_and(|section| section.file_range().is_some())
    };
    let Some(name) = SECTIONS.into_iter().find(|name| has_bytes(name)) else { return Ok(None) };
    let flags = file.section_by_name(name).map(|section| section.flags());
    let packed = u64::from(SHF_COMPRESSED);
    if matches!(flags, Some(SectionFlags::Elf { sh_flags }) if sh_flags & packed != 0) {
        return refuse(format!(
            "{}: {name} is compressed as ELF has it, which is not read: objcopy \
             --decompress-debug-sections undoes that",
            image.path().display()
        ));
    }
    let data = elf::section_bytes(image, name)?;
    if !ctf::Layout::of(data).is_some_and(ctf::Layout::is_native) {
        return Ok(None);
    }
    let place = format!("{}, {name}", image.path().display());
    let ctf = match number.is_none() && ctf::each(data).len() == 1 {
        true => ctf::inflate(data).map_err(|error| error.of(&place))?,
        false => Cow::Owned(plain_bytes(image, number)?),
    };
    let of_ctf = model_named(&ctf).unwrap_or(model);
    if of_ctf != model {
        return refuse(format!(
            "{place}: its model is {}, but that of the file is {}: it was put into another program",
            labels::model_word(of_ctf),
            labels::model_word(model)
        ));
    }
    let mut made = LibraryInput { model: Some(model), ..LibraryInput::of_dictionary(ctf) };
    match Sections::of(&made.ctf).ok().and_then(|sections| labels::symbols(&sections)) {
        Some(wanted) => add_named(&mut made, image, wanted.table)?,
        None => add_unnamed::<F>(&mut made, image.data(), name, model)?,
    }
    Ok(Some(made))
}

/// Adds the symbols that the dictionary's label names, if its file has them.
fn add_named<'a>(made: &mut LibraryInput<'a>, image: &'a Image, table: SymbolTable) -> Result<()> {
    if table == SymbolTable::Names {
        made.add_names();
        if made.symbols.is_none() {
            made.origin = Origin::Stripped;
        }
        return Ok(());
    }
    let wanted = Sections::of(&made.ctf).ok().and_then(|sections| labels::symbols(&sections));
    let found = elf::symbols_of(image, table)?;
    let is_same = found.as_ref().is_some_and(|found| Some(found.identity()) == wanted);
    made.origin = match (&found, is_same) {
        (Some(_), true) => Origin::Unread,
        (Some(_), false) => Origin::Differs,
        (None, _) => Origin::Stripped,
    };
    if let (true, Some((symbols, strings))) = (is_same, elf::symbol_lists(image, table)) {
        made.symbols = Some(symbols.into());
        made.strings = Some(strings.into());
        made.origin = Origin::Named;
    }
    Ok(())
}

/// Adds the symbol table and strings of a section whose dictionary has no label for them. What
/// strip leaves in .dynsym is never taken for .symtab.
fn add_unnamed<'a, F: FileHeader<Endian = Endianness>>(
    made: &mut LibraryInput<'a>,
    data: Data<'a>,
    name: &str,
    model: Model,
) -> Result<()> {
    let header = F::parse(data)?;
    let endian = header.endian()?;
    let sections: SectionTable<'a, F, Data<'a>> = header.sections(endian, data)?;
    let numbered = |number: u32| sections.section(SectionIndex(number as usize)).ok();
    let of_name = |name: &str| sections.section_by_name(endian, name.as_bytes());
    let link = of_name(name).map_or(0, |(_, section)| section.sh_link(endian));
    let mut table = (link != 0).then(|| numbered(link)).flatten();
    let mut origin = Origin::Linked;
    if let Some(strings) = table.filter(|one| one.sh_type(endian) == SHT_STRTAB) {
        made.strings = Some(strings.data(endian, data)?.into());
        made.origin = origin;
        return Ok(());
    }
    let is_table = |kind: u32| matches!(kind, SHT_SYMTAB | SHT_DYNSYM);
    if !table.is_some_and(|one| is_table(one.sh_type(endian))) {
        table = of_name(SymbolTable::Symtab.word()).map(|(_, section)| section);
        origin = Origin::Guessed;
    }
    let table = table.filter(|one| one.sh_type(endian) != SHT_NOBITS);
    let strings = table.and_then(|one| numbered(one.sh_link(endian)));
    let (Some(table), Some(strings)) = (table, strings) else {
        let is_guess = origin == Origin::Guessed;
        made.origin = if is_guess { Origin::Stripped } else { Origin::None };
        return Ok(());
    };
    made.strings = Some(strings.data(endian, data)?.into());
    made.origin = Origin::Unread;
    if model == Model::Lp64 {
        made.symbols = Some(table.data(endian, data)?.into());
        made.origin = origin;
    }
    Ok(())
}

/// Makes a dictionary from the types of a file.
fn convert<'a>(image: &'a Image, options: &Options) -> Result<LibraryInput<'a>> {
    let is_ilp32 = image.is_elf() && !image.elf()?.is_64();
    with_types(image, options, |found| {
        let named = |error: Error| error.within(&image.path().display().to_string());
        let (found, full) = match options.is_in_full {
            true => fit_to_ctf(select_in_full(found, &[]).map_err(named)?.0),
            false => (select(found, &[]).map_err(named)?.0, None),
        };
        if found.table.len() > MOST_TYPES && !options.is_one {
            return in_parts(image, found, is_ilp32).map_err(named);
        }
        let mut dictionary = alone(found.table, found.symbols);
        let ctf = dictionary.bytes().map_err(named)?;
        let table = dictionary.symbols.table;
        let mut made = LibraryInput {
            model: Some(dictionary.table.model()),
            is_made: true,
            beyond: full.and_then(|full| Beyond::of_written(&full, &dictionary.table)),
            sources: std::mem::take(&mut dictionary.table.sources),
            losses: std::mem::take(&mut dictionary.table.losses),
            ..LibraryInput::of_dictionary(Cow::Owned(ctf))
        };
        let has_places = dictionary.symbols.listed.iter().any(|one| one.address != 0);
        if dictionary.has_label() && table == SymbolTable::Names && !has_places {
            return Ok(made); // the dictionary has the names
        }
        let lists = match is_ilp32 {
            true => None,
            false => elf::symbol_lists(image, table),
        };
        if let Some((symbols, strings)) = lists.filter(|_| dictionary.has_label()) {
            made.symbols = Some(symbols.into());
            made.strings = Some(strings.into());
            made.origin = Origin::Named;
        } else if dictionary.has_label() {
            let (symbols, strings) = dictionary.symbols.made_table();
            made.symbols = Some(symbols.into());
            made.strings = Some(strings.into());
            made.origin = Origin::Named;
        }
        Ok(made)
    })
}

/// The dictionaries of a program with more types than one holds.
fn in_parts<'a>(
    image: &'a Image,
    found: ProgramTypes<'_>,
    is_ilp32: bool,
) -> Result<LibraryInput<'a>> {
    let written = parts::write(found.table, found.symbols, image, image.path())?;
    let mut whole = written.whole;
    let table = whole.symbols.table;
    let made_lists = is_ilp32.then(|| whole.symbols.made_table());
    let part = |(_, bytes): (String, &[u8])| -> Result<LibraryInput<'a>> {
        let mut made = LibraryInput {
            model: Some(whole.table.model()),
            is_made: true,
            ..LibraryInput::of_dictionary(Cow::Owned(bytes.to_vec()))
        };
        let has_label = labels::symbols(&Sections::of(bytes)?).is_some();
        match &made_lists {
            _ if !has_label || table == SymbolTable::Names => {}
            Some((symbols, strings)) => {
                made.symbols = Some(symbols.clone().into());
                made.strings = Some(strings.clone().into());
                made.origin = Origin::Named;
            }
            None => add_named(&mut made, image, table)?,
        }
        Ok(made)
    };
    let mut listed = members(&written.bytes)?.into_iter().map(part);
    let mut made =
        listed.next().transpose()?.unwrap_or_else(|| LibraryInput::of_dictionary(Cow::default()));
    made.children = listed.collect::<Result<_>>()?;
    made.losses = std::mem::take(&mut whole.table.losses);
    made.sources = std::mem::take(&mut whole.table.sources);
    Ok(made)
}

/// Reduces types to what CTF can represent. Also returns the full types if that lost anything.
fn fit_to_ctf<'a>(found: ProgramTypes<'a>) -> (ProgramTypes<'a>, Option<Table<'a>>) {
    let full = found.table.clone();
    let mut found = found;
    if found.form != Form::Ctf {
        fit(&mut found.table);
    }
    let has_losses = !found.table.losses.is_empty();
    (found, has_losses.then_some(full))
}

/// The symbol table for the entries: `.dynsym` if strip has left nothing else.
fn table_wanted(image: &Image) -> Result<SymbolTable> {
    if !image.is_elf() {
        return Ok(SymbolTable::Symtab);
    }
    let named = |error: Error| error.within(&image.path().display().to_string());
    let count = |table| -> Result<usize> {
        Ok(elf::symbols_of(image, table).map_err(named)?.map_or(0, |found| found.listed.len()))
    };
    let is_exported = count(SymbolTable::Symtab)? == 0 && count(SymbolTable::Dynsym)? != 0;
    Ok(if is_exported { SymbolTable::Dynsym } else { SymbolTable::Symtab })
}
