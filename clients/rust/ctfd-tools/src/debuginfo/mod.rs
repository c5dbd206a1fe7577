//! `ctfd-debuginfo`: writes a program's CTF as a debug file, from which debuggers read its types.

mod aliases;
mod arguments;
pub mod debug_file;
mod entries;
mod inputs;
mod numbering;
mod options;
mod passing;
mod sections;
mod symbols;
mod types;
mod units;
mod widths;

use crate::interrupts;
use crate::messages::REFUSED;
use crate::output::{self, STANDARD_OUTPUT};
use crate::standard;
use crate::types::catalog::Catalog;
use crate::types::crowded::{has_crowded_names, is_crowded, CROWDED};
use crate::types::failure::{Failure, Outcome};
use crate::types::open::{display_path, with_catalog, without_parent, OpenDictionary, Parents};
use crate::types::output as printing;
use crate::types::text::printable;
use crate::types::warn_by;
use arguments::Arguments;
use ctfd::Model;
use ctfd_read::debuggee::Debuggee;
use ctfd_read::entry_symbols::own_symbols;
use ctfd_read::error::reason;
use ctfd_read::opening::Origin;
use entries::Entries;
pub use inputs::Files;
use inputs::{without_symbols, Numbers};
use object::elf::EM_X86_64;
use options::{Words, NAME};
use sections::{compress, of_dwarf, DebugSection, RelocationKind};
use std::ffi::OsString;
use std::fmt::{self, Display};
use std::io::Write as _;
use std::os::unix::ffi::OsStrExt as _;
use std::path::{Path, PathBuf};
use std::process::ExitCode;
use symbols::{by_name, by_number, TypedSymbol};
use types::Selection;
use units::{Contents, Producer};

/// Runs the command, and returns its exit status.
pub fn main(words: Vec<OsString>) -> ExitCode {
    let words = Words::parse(words);
    if standard::is_output_closed() {
        warn_by(NAME, standard::CLOSED);
        return ExitCode::from(REFUSED);
    }
    interrupts::watch();
    match run(&words) {
        Ok(()) => ExitCode::SUCCESS,
        Err(Failure::Unwritten(error)) => printing::lost(NAME, REFUSED, &error),
        Err(Failure::Unknown(said) | Failure::Refused(said)) => {
            warn_by(NAME, &said);
            ExitCode::from(REFUSED)
        }
    }
}

/// A debug file, with what to print about it.
pub struct DebugFile {
    /// The bytes of the file.
    pub bytes: Vec<u8>,
    /// How much is in it.
    pub counts: Counts,
    /// A note on its symbols.
    note: Option<String>,
    /// A note on names that several types have.
    names: Option<String>,
    build_id: Vec<u8>,
}

/// How many types and symbols a debug file has.
#[derive(Clone, Copy, Debug, Default, PartialEq, Eq)]
pub struct Counts {
    pub types: usize,
    /// Variables and constants.
    pub objects: usize,
    pub functions: usize,
}

impl Display for Counts {
    fn fmt(&self, to: &mut fmt::Formatter<'_>) -> fmt::Result {
        let Counts { types, objects, functions } = self;
        write!(to, "{types} types, {objects} objects, {functions} functions")
    }
}

fn run(words: &Words) -> Outcome<()> {
    let made = debug_file_of(words)?;
    let output = match words.is_folder {
        true => in_folder(&words.output, &made.build_id)?,
        false => words.output.clone(),
    };
    output::write(&output, &made.bytes)?;
    if let Some(note) = &made.note {
        warn_by(NAME, note);
    }
    if output.as_os_str() == STANDARD_OUTPUT {
        return Ok(());
    }
    let mut lines = printing::Output::new();
    writeln!(lines, "{}: {}", display_path(&output), made.counts)?;
    if let Some(names) = &made.names {
        writeln!(lines, "{}", printable(names.as_bytes()))?;
    }
    Ok(lines.flush()?)
}

/// The path where debuggers look for the debug file of a program with a build-id.
fn in_folder(folder: &Path, build_id: &[u8]) -> Outcome<PathBuf> {
    let digits: String = build_id.iter().map(|byte| format!("{byte:02x}")).collect();
    if digits.len() < 4 {
        return Err(Failure::Refused(
            "--folder needs a program with a build id, which the linker writes (--build-id): leave \
             --folder out, and name OUT"
                .to_owned(),
        ));
    }
    let (first, rest) = digits.split_at(2);
    let place = folder.join(".build-id").join(first);
    std::fs::create_dir_all(&place).map_err(|error| {
        Failure::Refused(format!("{}: {}", display_path(&place), reason(&error)))
    })?;
    Ok(place.join(format!("{rest}.debug")))
}

/// Makes a debug file. Fails if the library refuses the dictionary.
fn debug_file_of(words: &Words) -> Outcome<DebugFile> {
    let files = Files::open(words)?;
    judge_output(words)?;
    debug_file_from(words, &files)
}

/// The debug file of a program, with or without the dictionary in it. `name` is the program's.
pub fn of_files(name: &Path, files: &Files, has_dictionary: bool) -> Outcome<DebugFile> {
    debug_file_from(&Words::of_program(name, has_dictionary), files)
}

fn debug_file_from(words: &Words, files: &Files) -> Outcome<DebugFile> {
    let program = files.debuggee()?;
    let copy = files.copy(program.as_ref())?;
    let mut found = files.dictionary(words.model, program.as_ref())?;
    let symbols = copy.as_ref().or(program.as_ref());
    let numbers = match symbols {
        Some(symbols) if symbols.is_relocatable() && RelocationKind::of(symbols).is_none() => {
            Numbers::None(format!(
                "{}: an object file of machine {}, whose relocations are not known: the types are \
                 written, and nothing of its symbols",
                display_path(symbols.image().path()),
                symbols.head.machine
            ))
        }
        Some(symbols) => files.add_symbols(&mut found, symbols)?,
        None => Numbers::None(String::new()),
    };
    let parents = Parents::new(NAME, words.parent.as_deref(), words.model.or(found.model));
    with_catalog(&words.file, &found, &parents, |opened| {
        if opened.catalog.is_child() && words.parent.is_none() {
            return Err(without_parent(&words.file, opened.catalog));
        }
        judge_names(&words.file, opened)?;
        let parts = Parts { words, program: program.as_ref(), symbols, numbers };
        parts.debug_file(opened)
    })
}

/// Refuses an output that cannot be written, or that is also an input.
fn judge_output(words: &Words) -> Outcome<()> {
    if words.is_folder {
        return Ok(());
    }
    words.inputs().try_for_each(|input| output::judge_input(input, &[&words.output]))?;
    Ok(output::judge(&words.output)?)
}

/// Refuses a dictionary whose names overlap.
fn judge_names(path: &Path, opened: &OpenDictionary<'_, '_>) -> Outcome<()> {
    match is_crowded(opened.catalog) || opened.parent.is_some_and(has_crowded_names) {
        true => Err(Failure::Refused(format!("{}: {CROWDED}", display_path(path)))),
        false => Ok(()),
    }
}

fn model_of(catalog: &Catalog<'_>) -> Model {
    if catalog.is_ilp32() {
        Model::Ilp32
    } else {
        Model::Lp64
    }
}

/// The bytes of all dictionaries and of their strings.
fn length_of(opened: &OpenDictionary<'_, '_>) -> usize {
    opened.catalog.volumes().iter().chain(opened.parent).map(|volume| volume.lists.length()).sum()
}

/// The symbols that have types; or a line on why there are none, empty if none is needed.
type Symbols<'a> = Result<Vec<TypedSymbol<'a>>, String>;

/// What a debug file is made from, besides the types.
struct Parts<'w, 'a> {
    words: &'w Words,
    program: Option<&'w Debuggee<'a>>,
    symbols: Option<&'w Debuggee<'a>>,
    numbers: Numbers<'a>,
}

impl<'a> Parts<'_, 'a> {
    fn debug_file(&self, opened: &OpenDictionary<'_, '_>) -> Outcome<DebugFile> {
        let (symbols, note) = match self.typed_symbols(opened)? {
            Ok(symbols) => (symbols, None),
            Err(why) => (Vec::new(), Some(why).filter(|why| !why.is_empty())),
        };
        let selection = Selection::new(opened.catalog);
        let model = model_of(opened.catalog);
        let debug = self.sections(opened, &selection, &symbols)?;
        let dictionary = self.words.has_dictionary.then_some(&*opened.handed.ctf);
        let bytes = match (self.program, self.symbols) {
            (Some(program), Some(symbols)) => {
                debug_file::beside(program, symbols, &debug, dictionary)?
            }
            _ => debug_file::of_types(model, &debug)?,
        };
        let functions = symbols.iter().filter(|one| one.signature().is_some()).count();
        let (types, objects) = (opened.catalog.all().count(), symbols.len() - functions);
        Ok(DebugFile {
            bytes,
            counts: Counts { types, objects, functions },
            note,
            names: selection.aliases.line(),
            build_id: self.program.map(|one| one.build_id().to_vec()).unwrap_or_default(),
        })
    }

    /// The sections of DWARF, compressed if wanted.
    fn sections(
        &self,
        opened: &OpenDictionary<'_, '_>,
        selection: &Selection<'_, '_>,
        symbols: &[TypedSymbol<'a>],
    ) -> Outcome<Vec<DebugSection>> {
        let has_places = |program: &&Debuggee<'_>| {
            let is_x86_64 = program.head.machine == EM_X86_64 && program.model == Model::Lp64;
            self.words.has_arguments && is_x86_64
        };
        let program = self.program.filter(has_places);
        let arguments = program.map(|program| Arguments::new(program, selection.catalog));
        let producer = &self.producer();
        let contents = Contents { selection, symbols, arguments: arguments.as_ref(), producer };
        let model = model_of(opened.catalog);
        let address_size = if model == Model::Ilp32 { 4 } else { 8 };
        let path = display_path(&self.words.file);
        let entries = Entries::new(address_size, length_of(opened));
        let mut dwarf = contents.write(entries).map_err(|error| error.of(&path))?;
        let kind = self.program.and_then(RelocationKind::of);
        let mut made = of_dwarf(&mut dwarf, kind).map_err(|error| error.of(&path))?;
        if self.words.is_compressed && !self.program.is_some_and(Debuggee::is_relocatable) {
            made.iter_mut().try_for_each(|section| compress(section, model))?;
        }
        Ok(made)
    }

    /// The symbols that have types in the dictionary; else a line on why there are none.
    fn typed_symbols(&self, opened: &OpenDictionary<'_, '_>) -> Outcome<Symbols<'a>> {
        let (program, table) = match (self.symbols, &self.numbers) {
            (Some(program), Numbers::ByNumber(table) | Numbers::ByName(table)) => (program, table),
            (_, Numbers::None(why)) => return Ok(Err(why.clone())),
            (None, _) => return Ok(Ok(Vec::new())),
        };
        let listed = program.symbols(table)?;
        if opened.handed.origin == Origin::Refused {
            let functions = listed.iter().filter(|one| one.is_function).count();
            let objects = listed.len() - functions;
            let why = format!(
                "its {objects} objects and {functions} functions are not those that the types were \
                 written for"
            );
            return Ok(Err(without_symbols(program, &why)));
        }
        let is_relocated = program.is_relocatable();
        Ok(Ok(match (&self.numbers, own_symbols(&opened.handed.ctf)) {
            (Numbers::ByName(_), Some(own)) => by_name(opened.catalog, &own, &listed, is_relocated),
            _ => by_number(opened.catalog, &listed, is_relocated),
        }))
    }

    /// The producer of the units; their name is that of the program with `.types.c` appended.
    fn producer(&self) -> Producer {
        let name = self.words.file.file_name().unwrap_or_default().as_bytes();
        Producer {
            program: format!("{NAME} {}", env!("CARGO_PKG_VERSION")),
            name: [name, b".types.c"].concat(),
        }
    }
}
