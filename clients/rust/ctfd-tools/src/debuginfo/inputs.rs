//! The input files of a debug file, and checks that they belong together.

use super::debug_file;
use super::options::Words;
use crate::types::failure::{Failure, Outcome};
use crate::types::open::{display_path, judge_model};
use ctfd::Model;
use ctfd_read::debuggee::{Debuggee, Section};
use ctfd_read::elsewhere::Elsewhere;
use ctfd_read::entry_symbols::{identity_of, likeness, own_symbols, Likeness};
use ctfd_read::foreign::why_no_dictionary;
use ctfd_read::image::Image;
use ctfd_read::opening::{dictionary_of, parts_of, LibraryInput, Origin, SECTIONS};
use ctfd_read::symbols::SymbolTable;
use std::path::Path;

const NAME_IT: &str = "name the program before it was stripped by --symbols";

/// The input files.
pub struct Files {
    file: Image,
    program: Option<Image>,
    symbols: Option<Image>,
}

impl Files {
    /// Opens the files, and refuses those that do not belong together. If the program has no types
    /// and stores are given, these are asked for its types.
    pub fn open(words: &Words) -> Outcome<Files> {
        let open = |path: &Option<std::path::PathBuf>| path.as_deref().map(Image::open).transpose();
        let file = Image::open(&words.file)?;
        let is_alone = words.program.is_none() && words.symbols.is_none();
        if is_alone && words.elsewhere.is_there() && file.is_elf() && !has_dictionary(&file)? {
            if let Some((dictionary, symbols)) = of_stores(&file, &words.elsewhere)? {
                return Ok(Files::of_images(dictionary, file, symbols));
            }
        }
        let made = Files { program: open(&words.program)?, symbols: open(&words.symbols)?, file };
        made.judge()?;
        Ok(made)
    }

    /// The files for a dictionary by itself, its program, and perhaps another copy of the program.
    pub fn of_images(dictionary: Image, program: Image, symbols: Option<Image>) -> Files {
        Files { file: dictionary, program: Some(program), symbols }
    }

    fn judge(&self) -> Outcome<()> {
        let path = display_path(self.file.path());
        let why = match &self.program {
            Some(program) if !program.is_elf() => format!(
                "{} is no ELF file: --program names the program that the types are of",
                display_path(program.path())
            ),
            Some(_) if self.file.is_elf() => format!(
                "{path} is an ELF file itself: --program is for a section without one, and \
                 --symbols names a copy that has more symbols"
            ),
            None if !self.file.is_elf() && self.symbols.is_some() => format!(
                "{path} is no ELF file: name the program that its types are of by --program, in \
                 place of --symbols"
            ),
            _ => return Ok(()),
        };
        Err(Failure::Refused(why))
    }

    /// The program; None if only a section is given.
    pub fn debuggee(&self) -> Outcome<Option<Debuggee<'_>>> {
        let image = self.program.as_ref().unwrap_or(&self.file);
        Ok(image.is_elf().then(|| Debuggee::of(image)).transpose()?)
    }

    /// The copy of the program that has its symbols, if one is given. A copy of another build is
    /// refused.
    pub fn copy(&self, program: Option<&Debuggee<'_>>) -> Outcome<Option<Debuggee<'_>>> {
        let Some(image) = &self.symbols else { return Ok(None) };
        let copy = Debuggee::of(image)?;
        match program {
            Some(program) if !program.is_same_build(&copy) => Err(Failure::Refused(format!(
                "{} is of another build than {}: name the file that this program was stripped from",
                display_path(image.path()),
                display_path(program.image().path())
            ))),
            _ => Ok(Some(copy)),
        }
    }

    /// The dictionary, with the data model of the options or the program.
    pub fn dictionary(
        &self,
        wanted: Option<Model>,
        program: Option<&Debuggee<'_>>,
    ) -> Outcome<LibraryInput<'_>> {
        let path = self.file.path();
        let read = || match parts_of(&self.file)? {
            Some(parts) => Ok(Some(parts)),
            None => dictionary_of(&self.file, None),
        };
        let found = read().map_err(|error| error.within(&display_path(path)))?;
        let mut found = found.ok_or_else(|| why_no_dictionary(&self.file))?;
        judge_model(&mut found, wanted, path)?;
        if let Some(program) = program {
            judge_program(&found, path, program)?;
            found.model = Some(program.model);
            found.children.iter_mut().for_each(|child| child.model = found.model);
        }
        Ok(found)
    }

    /// Whether the symbols may differ from those that the dictionary's section links to.
    fn has_others(&self) -> bool {
        self.program.is_some() || self.symbols.is_some()
    }

    /// Adds the symbols of a program to the dictionary that was written for them. Otherwise the
    /// result has the reason.
    pub fn add_symbols<'a>(
        &self,
        found: &mut LibraryInput<'a>,
        program: &Debuggee<'a>,
    ) -> Outcome<Numbers<'a>> {
        if !found.children.is_empty() {
            return Ok(Numbers::None(format!(
                "{}: it has the parts of a program, so the types are written, and nothing of its \
                 symbols: let ctfd-convert write one dictionary by --one",
                display_path(self.file.path())
            )));
        }
        found.symbols = None;
        found.origin = Origin::None;
        let table = |name: &str| program.section_of(name).map(|at| program.sections[at]);
        let Some(wanted) = identity_of(&found.ctf) else {
            return add_unnamed(found, program, self.has_others());
        };
        if wanted.table == SymbolTable::Names {
            found.add_names();
            let has_names = own_symbols(&found.ctf).is_some();
            return Ok(match table(".symtab").filter(|_| has_names) {
                Some(table) => Numbers::ByName(table),
                None => Numbers::None(String::new()),
            });
        }
        let word = wanted.table.word();
        let why = match likeness(program.image(), wanted)? {
            Likeness::Same => {
                let table = table(word).ok_or_else(|| Failure::Refused(word.to_owned()))?;
                return add_table(found, program, table, Origin::Named);
            }
            Likeness::Others => {
                format!("the symbols of its {word} are not those that the types were written for")
            }
            Likeness::Absent => {
                format!("it has no {word}, for whose symbols the types were written")
            }
        };
        Ok(Numbers::None(without_symbols(program, &why)))
    }
}

/// Whether an ELF file has a section for a dictionary.
fn has_dictionary(file: &Image) -> Outcome<bool> {
    let file = Debuggee::of(file)?;
    Ok(SECTIONS.iter().any(|name| file.section_of(name).is_some()))
}

/// The dictionary that a store has for a program, and a copy of the program with the symbols for
/// it, if the store has them.
fn of_stores(program: &Image, stores: &Elsewhere) -> Outcome<Option<(Image, Option<Image>)>> {
    let program = Debuggee::of(program)?;
    let Some(found) = stores.find(program.build_id())? else { return Ok(None) };
    let path = found.path().to_owned();
    let Some(handed) = dictionary_of(&found, None)? else {
        return Err(Failure::Refused(format!(
            "{}: more types than a dictionary holds: let the debugger ask for its debug file, by \
             DEBUGINFOD_URLS",
            display_path(&path)
        )));
    };
    let symbols = Debuggee::of(&found)?;
    let copy = match symbols.section_of(SymbolTable::Symtab.word()) {
        Some(_) => Some(debug_file::beside(&program, &symbols, &[], None)?),
        None => None,
    };
    let image = |bytes| Image::of_bytes(path.clone(), bytes);
    Ok(Some((image(handed.ctf.into_owned()), copy.map(image))))
}

/// How the entries of a dictionary identify the symbols of a program.
pub enum Numbers<'a> {
    /// By their indices in a table.
    ByNumber(Section<'a>),
    /// By their names in a table.
    ByName(Section<'a>),
    /// Not at all. The line says why; it is empty if there is nothing to report.
    None(String),
}

/// The message that only types are written for a program, and why.
pub fn without_symbols(program: &Debuggee<'_>, why: &str) -> String {
    format!(
        "{}: {why}, so the types are written, and nothing of its symbols: {NAME_IT}",
        display_path(program.image().path())
    )
}

/// Refuses a dictionary whose data model is not its program's.
fn judge_program(found: &LibraryInput<'_>, path: &Path, program: &Debuggee<'_>) -> Outcome<()> {
    let word = |model| match model {
        Model::Ilp32 => "ilp32",
        Model::Lp64 => "lp64",
    };
    match found.model.filter(|&model| model != program.model) {
        None => Ok(()),
        Some(model) => Err(Failure::Refused(format!(
            "{} is of {}, and {} of {}: name the program that the types are of",
            display_path(path),
            word(model),
            display_path(program.image().path()),
            word(program.model)
        ))),
    }
}

/// Adds symbols to a dictionary that names no table: those that its section links to, else
/// `.symtab`.
fn add_unnamed<'a>(
    found: &mut LibraryInput<'a>,
    program: &Debuggee<'a>,
    has_others: bool,
) -> Outcome<Numbers<'a>> {
    let section = SECTIONS.iter().find_map(|name| program.section_of(name));
    let link = section.filter(|_| !has_others).map_or(0, |at| program.sections[at].link);
    let linked = program.linked_table(link);
    let origin = if linked.is_some() { Origin::Linked } else { Origin::Guessed };
    match linked.or_else(|| program.section_of(".symtab")) {
        Some(at) => add_table(found, program, program.sections[at], origin),
        None => Ok(Numbers::None(without_symbols(program, "it has no symbol table"))),
    }
}

/// Adds a symbol table and its strings to a dictionary.
fn add_table<'a>(
    found: &mut LibraryInput<'a>,
    program: &Debuggee<'a>,
    table: Section<'a>,
    origin: Origin,
) -> Outcome<Numbers<'a>> {
    found.symbols = Some(program.wide_table(&table)?);
    found.strings = Some(program.strings(&table)?.into());
    found.origin = origin;
    Ok(Numbers::ByNumber(table))
}
