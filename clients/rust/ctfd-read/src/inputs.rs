//! Reads the types of a file into a table, from DWARF, BTF, GNU's CTF or CTF.

use crate::btf;
use crate::bytes::Names;
use crate::ctf::{self, Layout, Sections};
use crate::declared::SourceFiles;
use crate::descriptions::SymbolFilter;
use crate::dictionary::keep_described;
use crate::dwarf::collector::{collect, verify};
use crate::dwarf::sections;
use crate::dwarf::units::Debug;
use crate::elf;
use crate::elsewhere::Elsewhere;
use crate::error::{refuse, Error, Result};
use crate::gnu;
use crate::gnu_symbols::{describe, FileSymbols};
use crate::image::Image;
use crate::labels;
use crate::progress::Listener;
use crate::symbols::{Symbol, SymbolTable, Symbols};
use crate::table::{Kind, Record, Table};
use crate::verify::Judges;
use ctfd::Model;
use object::read::archive::ArchiveFile;
use object::{Object as _, ObjectKind, ObjectSection as _};
use std::borrow::Cow;
use std::collections::{HashMap, HashSet};
use std::fmt;
use std::path::{Path, PathBuf};

/// The form of the types in a file.
#[derive(Clone, Copy, Debug, PartialEq, Eq)]
pub enum Form {
    /// CTF of version 2.
    Ctf,
    /// FreeBSD's CTF of version 3, and version 2 of a big-endian machine.
    OtherCtf,
    /// The kernel's BTF.
    Btf,
    /// The debug information of compilers, DWARF.
    Dwarf,
    /// GNU's CTF, of version 3.
    Gnu,
}

impl Form {
    /// All forms, in the order in which they are looked for.
    pub const ALL: [Form; 5] = [Form::Ctf, Form::OtherCtf, Form::Btf, Form::Dwarf, Form::Gnu];

    /// The word for the form on a command line.
    pub fn word(self) -> &'static str {
        match self {
            Form::Ctf => "ctf",
            Form::OtherCtf => "other-ctf",
            Form::Btf => "btf",
            Form::Dwarf => "dwarf",
            Form::Gnu => "gnu",
        }
    }

    /// The sections of an ELF file that may have this form.
    fn sections(self) -> &'static [&'static str] {
        match self {
            Form::Ctf | Form::OtherCtf => &[".SUNW_ctf", ".ctf"],
            Form::Btf => &[".BTF"],
            Form::Dwarf => &[],
            Form::Gnu => &[".ctf"],
        }
    }

    /// The form of some bytes, by their beginning.
    pub(crate) fn of(bytes: &[u8]) -> Option<Form> {
        if btf::is_btf(bytes) {
            Some(Form::Btf)
        } else if bytes.starts_with(&gnu::ARCHIVE)
            || gnu::MAGICS.iter().any(|magic| bytes.starts_with(magic))
        {
            Some(Form::Gnu)
        } else {
            let layout = Layout::of(bytes)?;
            Some(if layout.is_native() { Form::Ctf } else { Form::OtherCtf })
        }
    }
}

impl fmt::Display for Form {
    fn fmt(&self, to: &mut fmt::Formatter<'_>) -> fmt::Result {
        to.write_str(match self {
            Form::Ctf => "CTF version 2",
            Form::OtherCtf => "CTF of FreeBSD or of a big-endian machine",
            Form::Btf => "BTF",
            Form::Dwarf => "DWARF",
            Form::Gnu => "GNU's CTF",
        })
    }
}

/// How a file is read.
#[derive(Clone, Debug, Default)]
pub struct Options {
    /// The data model, for a file that does not have one: an ELF file does.
    pub model: Option<Model>,
    /// The form to read; by default the first that the file has.
    pub form: Option<Form>,
    /// The file with the BTF of a module's kernel, or the parent of a child.
    pub base: Option<PathBuf>,
    /// Folders of debug files, searched before the system's own.
    pub folders: Vec<PathBuf>,
    /// The dictionary to read, if a section has several, counted from 1.
    pub number: Option<usize>,
    /// The symbol table to use.
    pub symbols: SymbolTable,
    /// Whether the facts that CTF cannot represent are wanted too.
    pub is_in_full: bool,
    /// The listener that progress is reported to.
    pub listener: Listener,
    /// Whether the source files that define types are wanted.
    pub has_sources: bool,
    /// The source of types by build-id.
    pub elsewhere: Elsewhere,
    /// Whether to make a single dictionary even if there are more types than it holds; those
    /// without room are then left out.
    pub is_one: bool,
}

/// The types of a file. Those of its base or parent come first.
pub struct ProgramTypes<'a> {
    /// All types, with the types of symbols.
    pub table: Table<'a>,
    /// The types that are wanted for themselves, not only because others refer to them.
    pub roots: Vec<u32>,
    /// The number of types of the base or parent.
    pub bases: u32,
    /// The form that they were read from.
    pub form: Form,
    /// The symbols that the entries of the table belong to.
    pub symbols: Symbols<'a>,
    /// A note for the user on these symbols; empty if there is none.
    pub note: String,
    /// Compares a dictionary with the units that were read, if there were any.
    pub verifier: Option<&'a Verifier<'a>>,
}

/// A function that refuses written types if they differ from those of the units that were read, and
/// returns the number of the units' types that were compared.
pub type Verifier<'a> = dyn Fn(&Judges<'_>) -> Result<usize> + 'a;

/// A section with types, its ELF file if it is in one, and its string table.
struct Section<'a> {
    data: &'a [u8],
    file: Option<&'a Image>,
    strings: &'a [u8],
}

/// The function that uses the types of a file, while the data that they borrow lives.
type Use<'u> = dyn FnMut(ProgramTypes<'_>) -> Result<()> + 'u;

/// Reads the types of a file, and passes them to `run`.
pub fn with_types<T>(
    image: &Image,
    options: &Options,
    run: impl FnOnce(ProgramTypes<'_>) -> Result<T>,
) -> Result<T> {
    let (mut run, mut made) = (Some(run), None);
    read(image, options, &mut |found| {
        crate::sound::judge(&found.table).map_err(|error| error.of(image.path().display()))?;
        if let Some(run) = run.take() {
            made = Some(run(found)?);
        }
        Ok(())
    })?;
    made.ok_or_else(|| Error(format!("{}: nothing was read", image.path().display())))
}

fn read(image: &Image, options: &Options, run: &mut Use<'_>) -> Result<()> {
    let path = image.path().display().to_string();
    if image.is_elf() {
        return with_elf(image, options, run);
    }
    let data = image.all().map_err(|error| error.of(&path))?;
    if data.is_empty() {
        return refuse(format!("{path}: it is empty"));
    }
    if data.starts_with(b"!<arch>\n") || data.starts_with(b"!<thin>\n") {
        return with_archive(image, data, options, run);
    }
    let Some(form) = Form::of(data) else { return refuse(format!("{path}: {}", foreign(data))) };
    let section = Section { data, file: None, strings: &[] };
    with_section(form, &section, options, run).map_err(|error| error.within(&path))
}

/// A description of bytes that are in no form that can be read.
pub(crate) fn foreign(bytes: &[u8]) -> String {
    let version = bytes.get(2).copied().unwrap_or(0);
    match bytes.get(..2) {
        Some([0xcf, 0xf1] | [0xf1, 0xcf]) => format!(
            "CTF version {version}, which is not read: versions 2 and 3 are; ctfd-convert makes CTF \
             of version 2 from the program's debug information"
        ),
        _ if bytes.starts_with(b"BC\xc0\xde") => {
            "LLVM's bitcode, as clang -flto writes it, which has no types that are read before it is \
             linked: name the linked program"
                .to_owned()
        }
        _ => {
            let begins: String = bytes.iter().take(4).map(|byte| format!("{byte:02x}")).collect();
            format!(
                "neither an ELF file nor a CTF section: it begins with {begins}, and CTF with f1cf02"
            )
        }
    }
}

/// The note on a program for a big-endian machine.
const BIG_ENDIAN: &str =
    "it is of a big-endian machine: its types are read, and the dictionary is \
                          little-endian, as all are that ctfd opens";

/// Reads the first form that an ELF file has, or the requested one. DWARF may be in another file.
fn with_elf(image: &Image, options: &Options, run: &mut Use<'_>) -> Result<()> {
    let path = image.path().display().to_string();
    let file = image.elf().map_err(|error| error.of(&path))?;
    let is_big = !file.is_little_endian();
    let run: &mut Use<'_> = &mut |mut found: ProgramTypes<'_>| {
        if is_big && found.note.is_empty() {
            found.note = BIG_ENDIAN.to_owned();
        }
        run(found)
    };
    let model = model_of(&file);
    if options.model.is_some_and(|wanted| wanted != model) {
        let wanted = options.model.map_or("", labels::model_word);
        return refuse(format!(
            "{path}: its program is of {}, and {wanted} was asked for",
            labels::model_word(model)
        ));
    }
    for form in Form::ALL {
        if options.form.is_some_and(|wanted| wanted != form) {
            continue;
        }
        if form == Form::Dwarf && elf::has_debug(&file) {
            break;
        }
        for name in form.sections() {
            let Some(section) = file.section_by_name(name) else { continue };
            let data = section.uncompressed_data().map_err(|error| Error::from(error).of(&path))?;
            if Form::of(&data) != Some(form) {
                continue;
            }
            let strings = elf::linked_strings(image, name).map_err(|error| error.of(&path))?;
            let section = Section { data: &data, file: Some(image), strings };
            if !is_of_its_objects(&section, &file, options)? {
                return with_section(form, &section, options, run)
                    .map_err(|error| error.within(&path));
            }
        }
    }
    if let Some(form) = options.form.filter(|&form| form != Form::Dwarf) {
        let names = form.sections().join(" or ");
        return refuse(format!(
            "{path}: it has no section {names} with what --from {} asks for: leave that out, and \
             what it has is read",
            form.word()
        ));
    }
    with_dwarf(image, options, run)
}

fn model_of(file: &crate::image::Elf<'_>) -> Model {
    if file.is_64() {
        Model::Lp64
    } else {
        Model::Ilp32
    }
}

/// Whether the dictionaries are those of the object files that were linked into a program, whose
/// debug information covers everything.
fn is_of_its_objects(
    section: &Section<'_>,
    file: &crate::image::Elf<'_>,
    options: &Options,
) -> Result<bool> {
    let is_plain = options.form.is_none() && options.number.is_none();
    if Form::of(section.data) != Some(Form::Ctf) || !is_plain || !elf::has_debug(file) {
        return Ok(false);
    }
    if ctf::each(section.data).len() > 1 {
        return Ok(true);
    }
    let plain = ctf::inflate(section.data)?;
    let Ok(sections) = Sections::of(&plain) else { return Ok(false) };
    let is_named = labels::symbols(&sections).is_some();
    Ok(is_named && symbols_of(section.file, &sections)?.is_none())
}

/// The symbols that the entries of a dictionary belong to, if they are those of its file.
fn symbols_of<'a>(file: Option<&'a Image>, sections: &Sections<'a>) -> Result<Option<Symbols<'a>>> {
    let Some(wanted) = labels::symbols(sections) else { return Ok(None) };
    if wanted.table == SymbolTable::Names {
        return Ok(labels::own_symbols(sections));
    }
    let found = file.map(|file| elf::symbols_of(file, wanted.table)).transpose()?.flatten();
    Ok(found.filter(|found| found.identity() == wanted))
}

/// Refuses the number of a dictionary if the form has no dictionaries to choose from.
fn judge_number(form: Form, options: &Options) -> Result<()> {
    match options.number {
        Some(number) if !matches!(form, Form::Ctf | Form::OtherCtf) => refuse(format!(
            "--dictionary {number} chooses one of several dictionaries of CTF version 2, and its \
             types are read from {form}: leave it out"
        )),
        _ => Ok(()),
    }
}

fn with_section(
    form: Form,
    section: &Section<'_>,
    options: &Options,
    run: &mut Use<'_>,
) -> Result<()> {
    judge_number(form, options)?;
    let is_of_file = section.file.map(|file| file.elf().map(|file| !file.is_64())).transpose()?;
    let is_ilp32 = match options.model {
        Some(model) => model == Model::Ilp32,
        None => is_of_file.unwrap_or(false),
    };
    // For a section in no ELF file, the size of a long gives the model if nothing else does.
    let has_model = section.file.is_some() || options.model.is_some();
    let mut run = |mut found: ProgramTypes<'_>| {
        found.table.is_ilp32 |= !has_model && has_short_longs(&found.table);
        run(found)
    };
    match form {
        Form::Btf => with_btf(section, is_ilp32, options, &mut run),
        Form::Gnu => with_gnu(section, is_ilp32, options, &mut run),
        _ => with_ctf(section, is_ilp32, options, &mut run),
    }
}

fn has_short_longs(table: &Table<'_>) -> bool {
    table.records.iter().any(|record| {
        record.kind == Kind::Integer
            && record.size == 4
            && matches!(
                &*record.name,
                b"long int" | b"long" | b"long unsigned int" | b"unsigned long"
            )
    })
}

// Debug information.

fn with_dwarf(image: &Image, options: &Options, run: &mut Use<'_>) -> Result<()> {
    let path = image.path().display().to_string();
    judge_number(Form::Dwarf, options).map_err(|error| error.of(&path))?;
    let files = elf::debug_file(image, &options.folders).map_err(|error| error.of(&path))?;
    let debug = files.debug.as_ref().unwrap_or(image);
    let file = image.elf().map_err(|error| error.of(&path))?;
    let symbols = program_symbols(image, files.debug.as_ref(), options.symbols);
    let symbols = symbols.map_err(|error| error.of(&path))?;
    if options.symbols == SymbolTable::Dynsym && symbols.listed.is_empty() {
        return refuse(format!(
            "{path}: it has no .dynsym with functions or objects, as a program has that exports \
             some: leave --symbols out"
        ));
    }
    let debug_path = debug.path().display().to_string();
    let sections = sections::Sections::load(debug, &options.folders, options.has_sources)
        .map_err(|error| error.of(&debug_path))?;
    let units = Debug::new(&sections).map_err(|error| error.of(&debug_path))?;
    let (read, is_ilp32) = ([(units, debug_path)], !file.is_64());
    let filter = SymbolFilter::new(&symbols.listed);
    let collector = collect(&read, &filter, is_ilp32, &options.listener)?;
    let verifier = |written: &Judges<'_>| verify(&read, is_ilp32, written);
    let is_linked = file.kind() != ObjectKind::Relocatable;
    let finished = collector.finish(&symbols, &filter, is_linked, is_ilp32);
    let (mut table, roots) = finished.map_err(|error| error.of(&path))?;
    drop(filter);
    if options.has_sources {
        table.sources = sources_of(&read)?;
    }
    let symbols = match symbols.table {
        SymbolTable::Names => keep_described(&mut table, symbols),
        _ => symbols,
    };
    let note = note(image, &symbols, debug)?;
    let verifier: Option<&Verifier<'_>> = Some(&verifier);
    run(ProgramTypes { table, roots, bases: 0, form: Form::Dwarf, symbols, note, verifier })
}

/// The symbols that the entries of a program belong to. For a stripped program, those of its debug
/// file.
fn program_symbols<'a>(
    image: &'a Image,
    debug: Option<&'a Image>,
    wanted: SymbolTable,
) -> Result<Symbols<'a>> {
    if let Some(own) = elf::symbols_of(image, wanted)? {
        return Ok(own);
    }
    let Some(debug) = debug.filter(|_| wanted == SymbolTable::Symtab) else {
        return Ok(Symbols { table: wanted, listed: Vec::new() });
    };
    let found = elf::symbols_of(debug, SymbolTable::Symtab)?.unwrap_or_default();
    Ok(Symbols { table: SymbolTable::Names, ..found })
}

/// The source files that define the types of some debug information.
fn sources_of(files: &[(Debug<'_>, String)]) -> Result<SourceFiles> {
    let mut made = SourceFiles::default();
    for (debug, name) in files {
        made = made.with_others(SourceFiles::of(debug).map_err(|error| error.of(name))?);
    }
    Ok(made)
}

/// A note for the user on the symbols of a program.
fn note(image: &Image, symbols: &Symbols<'_>, debug: &Image) -> Result<String> {
    let count = symbols.listed.len();
    Ok(match symbols.table {
        SymbolTable::Dynsym => format!(
            "its types are for the {count} functions and objects of .dynsym, which strip keeps; \
             those that are not exported are left out"
        ),
        SymbolTable::Names if count != 0 => format!(
            "it is stripped of .symtab: the {count} functions and objects are those of {}, by their \
             names",
            debug.path().display()
        ),
        _ if count == 0 && elf::symbols_of(image, SymbolTable::Dynsym)?.is_some() => {
            "it is stripped of .symtab: symbols are left out; --symbols dynsym has those that it \
             exports"
                .to_owned()
        }
        _ => String::new(),
    })
}

/// Reads the types of all object files in an archive. There are no types of symbols, since an
/// archive has no symbol table that a dictionary could use.
fn with_archive(image: &Image, data: &[u8], options: &Options, run: &mut Use<'_>) -> Result<()> {
    let path = image.path();
    if crate::archive::has_dictionaries(data) {
        return refuse(format!(
            "{}: it has several dictionaries, which ctfd-convert wrote of a program: name the program",
            path.display()
        ));
    }
    judge_number(Form::Dwarf, options).map_err(|error| error.of(path.display()))?;
    let members = members(path, data).map_err(|error| error.of(path.display()))?;
    let mut model = options.model;
    let mut with_debug = Vec::new();
    for member in &members {
        let name = member.path().display().to_string();
        let file = member.elf().map_err(|error| error.of(&name))?;
        let own = model_of(&file);
        let wanted = *model.get_or_insert(own);
        if own != wanted {
            return refuse(format!(
                "{name} is of {}, and not of {}: take the members of one model out by ar x",
                labels::model_word(own),
                labels::model_word(wanted)
            ));
        }
        if elf::has_debug(&file) {
            let sections = sections::Sections::load(member, &options.folders, options.has_sources)
                .map_err(|error| error.of(&name))?;
            with_debug.push((member, sections));
        }
    }
    let is_ilp32 = model == Some(Model::Ilp32);
    if with_debug.is_empty() {
        let is_lto = |member: &Image| member.elf().is_ok_and(|file| elf::is_lto(&file));
        let advice = match members.iter().any(is_lto) {
            true => elf::LINK_IT,
            false => "compile these with -g",
        };
        return refuse(format!(
            "{}: an archive in which no object file has debug information: {advice}",
            path.display()
        ));
    }
    let mut files = Vec::new();
    for (member, sections) in &with_debug {
        let name = member.path().display().to_string();
        files.push((Debug::new(sections).map_err(|error| error.of(&name))?, name));
    }
    let (symbols, filter) = (Symbols::default(), SymbolFilter::new(&[]));
    let collector = collect(&files, &filter, is_ilp32, &options.listener)?;
    let finished = collector.finish(&symbols, &filter, false, is_ilp32);
    let (mut table, roots) = finished.map_err(|error| error.of(path.display()))?;
    if options.has_sources {
        table.sources = sources_of(&files)?;
    }
    let note = String::new();
    run(ProgramTypes { table, roots, bases: 0, form: Form::Dwarf, symbols, note, verifier: None })
}

/// The object files of an archive. Those of a thin archive are separate files.
fn members(path: &Path, data: &[u8]) -> Result<Vec<Image>> {
    if data.starts_with(THIN) {
        return thin_members(path, data);
    }
    judge_first(data)?;
    let archive = ArchiveFile::parse(data).map_err(|_| Error("a damaged archive".to_owned()))?;
    let mut found = Vec::new();
    for member in archive.members() {
        let member = member.map_err(|_| Error("a damaged archive".to_owned()))?;
        let name = String::from_utf8_lossy(member.name()).into_owned();
        let path = PathBuf::from(format!("{}({name})", path.display()));
        let held = member.data(data).map_err(|_| Error("an archive that is cut off".to_owned()))?;
        found.push(Image::of_bytes(path, held.to_vec()));
    }
    found.retain(Image::is_elf);
    Ok(found)
}

/// Refuses an archive whose first member, usually its index, is cut off: the crate that reads
/// archives takes it for one without members.
fn judge_first(data: &[u8]) -> Result<()> {
    let Some(header) = data.get(THIN.len()..THIN.len() + MEMBER) else { return Ok(()) };
    let size = std::str::from_utf8(&header[48..58]).ok();
    match size.and_then(|size| size.trim_end().parse::<usize>().ok()) {
        None => refuse("a damaged archive"),
        Some(size) if size > data.len() - THIN.len() - MEMBER => {
            refuse("an archive that is cut off")
        }
        Some(_) => Ok(()),
    }
}

const THIN: &[u8] = b"!<thin>\n";
const MEMBER: usize = 60;

/// The object files of a thin archive, which the crate that reads archives does not support. Each
/// has a header; only the list of long names has bytes in the archive.
fn thin_members(path: &Path, data: &[u8]) -> Result<Vec<Image>> {
    let damage = || Error("a damaged archive".to_owned());
    let (mut names, mut found, mut at) = (&[][..], Vec::new(), THIN.len());
    while let Some(header) = data.get(at..at + MEMBER) {
        at += MEMBER;
        let name = std::str::from_utf8(&header[..16]).map_err(|_| damage())?.trim_end();
        let size =
            std::str::from_utf8(&header[48..58]).ok().and_then(|size| size.trim().parse().ok());
        let size: usize = size.filter(|_| header[58..] == *b"`\n").ok_or_else(damage)?;
        if matches!(name, "/" | "/SYM64/" | "//") {
            let held = at.checked_add(size).and_then(|end| data.get(at..end)).ok_or_else(damage)?;
            if name == "//" {
                names = held;
            }
            at += size + size % 2;
            continue;
        }
        let name = name.trim_end_matches(['/', ' ']); // BFD leaves a slash after the blanks
        let long = name.strip_prefix('/').and_then(|place| place.parse::<usize>().ok());
        let name = match long {
            Some(place) => {
                let rest = names.get(place..).ok_or_else(damage)?;
                let end = rest.iter().position(|&byte| byte == b'\n').unwrap_or(rest.len());
                String::from_utf8_lossy(&rest[..end]).into_owned()
            }
            None => name.to_owned(),
        };
        let beside = path.parent().unwrap_or(Path::new("")).join(name.trim_end_matches('/'));
        let member = Image::open_linked(&beside).ok_or_else(|| {
            Error(format!("its member {} is no regular file that can be read", beside.display()))
        })?;
        found.push(member);
    }
    found.retain(Image::is_elf);
    Ok(found)
}

// Sections.

fn with_ctf(
    section: &Section<'_>,
    is_ilp32: bool,
    options: &Options,
    run: &mut Use<'_>,
) -> Result<()> {
    let plain = ctf::inflate(choose(section.data, options.number)?)?;
    let sections = Sections::of(&plain)?;
    let told = if is_ilp32 { Model::Ilp32 } else { Model::Lp64 };
    let model = labels::model(&sections).unwrap_or(told);
    let of_file = section.file.map(|file| file.elf().map(|file| model_of(&file))).transpose()?;
    if options.model.or(of_file).is_some_and(|wanted| wanted != model) {
        return refuse(format!(
            "its model is {}, but {} was asked for",
            labels::model_word(model),
            labels::model_word(options.model.or(of_file).unwrap_or(told))
        ));
    }
    let mut of_table = |parent: Option<Table<'_>>| -> Result<()> {
        let mut table = ctf::table_of(&sections, section.strings, parent)?;
        table.is_ilp32 = model == Model::Ilp32;
        let is_native = sections.layout.is_native();
        let symbols = match section.file.filter(|_| !is_native) {
            Some(file) => elf::symbols_of(file, SymbolTable::Symtab)?
                .filter(|found| has_entries_for(&table, found)),
            None => symbols_of(section.file, &sections)?,
        };
        if symbols.is_none() && (labels::symbols(&sections).is_some() || !is_native) {
            table.objects.clear();
            table.functions.clear();
        }
        let (roots, bases) = ((table.bases + 1..=table.len()).collect(), table.bases);
        let (symbols, note) = (symbols.unwrap_or_default(), String::new());
        let form = if is_native { Form::Ctf } else { Form::OtherCtf };
        run(ProgramTypes { table, roots, bases, form, symbols, note, verifier: None })
    };
    let Some(base) = &options.base else { return of_table(None) };
    let image = Image::open(base)?;
    let of_parent = Options { model: Some(model), ..Options::default() };
    with_types(&image, &of_parent, |parent| {
        let bytes = plain_bytes(&image, None)?;
        let of_parent = labels::of_types(&Sections::of(&bytes)?);
        let label = Names(sections.names).at(u64::from(sections.parent_label & 0x7fff_ffff));
        if let Some(why) = labels::not_its_parent(label.unwrap_or_default(), &of_parent) {
            return refuse(format!("{}, as its parent: {why}", base.display()));
        }
        of_table(Some(parent.table))
    })
}

/// Whether a dictionary has entries for all functions and objects of a symbol table.
fn has_entries_for(table: &Table<'_>, symbols: &Symbols<'_>) -> bool {
    table.objects.len() == symbols.objects().count()
        && table.functions.len() >= symbols.functions().count()
}

/// The dictionary with a number, counted from 1, or the only one.
fn choose(section: &[u8], number: Option<usize>) -> Result<&[u8]> {
    let found = ctf::each(section);
    match number {
        None if found.len() == 1 => Ok(found[0]),
        Some(number) if (1..=found.len()).contains(&number) => Ok(found[number - 1]),
        Some(number) => refuse(format!(
            "its section: it has {}: there is no number {number}",
            description_of_all(&found)
        )),
        None => refuse(format!(
            "its section: it has {}: one is chosen by --dictionary N (ctfd-convert takes it out), \
             and ctfd-convert --from dwarf makes one of all",
            description_of_all(&found)
        )),
    }
}

/// How many dictionaries a message describes.
const LISTED: usize = 10;

/// The number of dictionaries, and for each its number, its types and a type's name.
fn description_of_all(found: &[&[u8]]) -> String {
    let described =
        |(place, ctf): (usize, &&[u8])| format!("{} ({})", place + 1, description_of(ctf));
    let each: Vec<String> = found.iter().take(LISTED).enumerate().map(described).collect();
    let more = match found.len() {
        count if count > LISTED => format!(" and {} more", count - LISTED),
        _ => String::new(),
    };
    let plural = match found.len() {
        1 => "dictionary",
        _ => "dictionaries, one behind the other",
    };
    format!("{} {plural}: {}{more}", found.len(), each.join(", "))
}

fn description_of(ctf: &[u8]) -> String {
    let describe = || -> Result<String> {
        let plain = ctf::inflate(ctf)?;
        let table = ctf::table_of(&Sections::of(&plain)?, &[], None)?;
        let own = &table.records[table.bases as usize..];
        let is_telling = |record: &&Record<'_>| {
            let is_tagged = record.kind.is_aggregate() || record.kind == Kind::Enum;
            !record.name.is_empty() && (is_tagged || record.kind == Kind::Typedef)
        };
        let named = own.iter().filter(is_telling).min_by_key(|record| !record.kind.is_aggregate());
        let name = named.map(|record| format!(", {}", record.tag_name())).unwrap_or_default();
        Ok(format!("{} types{name}", own.len()))
    };
    describe().unwrap_or_else(|_| format!("{} bytes, damaged", ctf.len()))
}

/// The bytes of a file's dictionary, decompressed: of its section, or of the whole file.
pub fn plain_bytes(image: &Image, number: Option<usize>) -> Result<Vec<u8>> {
    if !image.is_elf() {
        return Ok(ctf::inflate(choose(image.all()?, number)?)?.into_owned());
    }
    let file = image.elf()?;
    for name in Form::Ctf.sections() {
        if let Some(section) = file.section_by_name(name) {
            let data = section.uncompressed_data()?;
            return Ok(ctf::inflate(choose(&data, number)?)?.into_owned());
        }
    }
    refuse("an ELF file without .SUNW_ctf or .ctf")
}

fn with_gnu(
    section: &Section<'_>,
    is_ilp32: bool,
    options: &Options,
    run: &mut Use<'_>,
) -> Result<()> {
    let dictionaries = gnu::dictionaries(section.data)?;
    let mut strings = section.strings;
    if let Some(file) = section.file.filter(|_| gnu::is_dynamic(&dictionaries)) {
        strings = elf::section_bytes(file, ".dynstr")?;
    }
    let mut table = Table { is_ilp32, ..Table::default() };
    let entries = gnu::read(&dictionaries, strings, &mut table)?;
    let of_file = |file| -> Result<FileSymbols<'_>> {
        let of = |table| Ok::<_, Error>(elf::symbols_of(file, table)?.unwrap_or_default());
        Ok(FileSymbols { symtab: of(SymbolTable::Symtab)?, dynsym: of(SymbolTable::Dynsym)? })
    };
    let file = section.file.map(of_file).transpose()?;
    let symbols = describe(&mut table, &entries, file.as_ref(), options.symbols)?;
    let note = match section.file {
        Some(file) => gnu_note(&table, file, &symbols)?,
        None => String::new(),
    };
    let roots = (1..=table.len()).filter(|&n| is_wanted(table.get(n))).collect();
    run(ProgramTypes { table, roots, bases: 0, form: Form::Gnu, symbols, note, verifier: None })
}

/// Whether a type is wanted for itself: it has a name, or is an enum.
fn is_wanted(record: &Record<'_>) -> bool {
    !record.name.is_empty() || record.kind == Kind::Enum
}

/// A note for the user if GNU's CTF has no types for the symbols.
fn gnu_note(table: &Table<'_>, file: &Image, symbols: &Symbols<'_>) -> Result<String> {
    if table.objects.iter().any(|&n| n != 0) || table.functions.iter().any(Option::is_some) {
        return Ok(String::new());
    }
    if symbols.listed.is_empty() {
        return note(file, symbols, file);
    }
    Ok(format!(
        "its GNU CTF has no types for the {} functions and objects of {}: ld keeps that of what a \
         file exports; -g tells of all",
        symbols.listed.len(),
        symbols.table.word()
    ))
}

fn with_btf(
    section: &Section<'_>,
    is_ilp32: bool,
    options: &Options,
    run: &mut Use<'_>,
) -> Result<()> {
    let base = options.base.as_deref().map(btf_of).transpose()?;
    let mut table = Table { is_ilp32, ..Table::default() };
    let base = base.as_ref().map(|bytes| btf::read(bytes, &mut table, None)).transpose()?;
    let bases = table.len();
    let found = btf::read(section.data, &mut table, base.as_ref())?;
    let symbols = match section.file {
        Some(file) => elf::symbols_of(file, options.symbols)?.unwrap_or_default(),
        None => Symbols::default(),
    };
    let symbols = if symbols.listed.is_empty() {
        by_names(&mut table, &found)
    } else {
        by_symbols(&mut table, &found, &symbols);
        symbols
    };
    let note = String::new();
    run(ProgramTypes {
        table,
        roots: found.roots,
        bases,
        form: Form::Btf,
        symbols,
        note,
        verifier: None,
    })
}

/// Sets the types of the file's symbols, from BTF.
fn by_symbols(table: &mut Table<'_>, found: &btf::Btf<'_>, symbols: &Symbols<'_>) {
    let of = |listed: &'_ [btf::NamedSymbol<'_>]| -> HashMap<Vec<u8>, u32> {
        listed.iter().map(|one| (one.name.to_vec(), one.of)).collect()
    };
    let (objects, functions) = (of(&found.objects), of(&found.functions));
    table.objects =
        symbols.objects().map(|one| objects.get(&*one.name).copied().unwrap_or(0)).collect();
    let told: Vec<u32> =
        symbols.functions().map(|one| functions.get(&*one.name).copied().unwrap_or(0)).collect();
    table.functions = told.into_iter().map(|n| prototype(table, n)).collect();
    let known: HashSet<&[u8]> = symbols.listed.iter().map(|one| &*one.name).collect();
    let all: HashSet<&[u8]> = objects.keys().chain(functions.keys()).map(Vec::as_slice).collect();
    let missing = all.difference(&known).count();
    if missing != 0 {
        table.losses.push(format!(
            "{missing} functions and variables of its BTF have no symbol in the file, and are left \
             out"
        ));
    }
}

/// Sets the types of the functions and variables that BTF names, for a file without symbols.
fn by_names<'a>(table: &mut Table<'a>, found: &btf::Btf<'a>) -> Symbols<'a> {
    let objects: Vec<&btf::NamedSymbol<'a>> =
        found.objects.iter().filter(|one| one.of != 0).collect();
    let functions: Vec<(&btf::NamedSymbol<'a>, Record<'a>)> =
        found.functions.iter().filter_map(|one| Some((one, prototype(table, one.of)?))).collect();
    let symbol =
        |name: &Cow<'a, [u8]>, is_function| Symbol { name: name.clone(), address: 0, is_function };
    let listed = objects
        .iter()
        .map(|one| symbol(&one.name, false))
        .chain(functions.iter().map(|(one, _)| symbol(&one.name, true)))
        .collect();
    table.objects = objects.iter().map(|one| one.of).collect();
    table.functions = functions.into_iter().map(|(_, record)| Some(record)).collect();
    Symbols { table: SymbolTable::Names, listed }
}

fn prototype<'a>(table: &Table<'a>, number: u32) -> Option<Record<'a>> {
    let record = (number != 0).then(|| table.get(number))?;
    (record.kind == Kind::Function).then(|| record.clone())
}

/// The BTF of a base: the bytes of such a section, or of an ELF file that has one.
fn btf_of(path: &Path) -> Result<Vec<u8>> {
    let image = Image::open(path)?;
    if image.is_elf() {
        let file = image.elf().map_err(|error| error.of(path.display()))?;
        let Some(section) = file.section_by_name(".BTF") else {
            return refuse(format!("{}: the base has no section .BTF", path.display()));
        };
        let data =
            section.uncompressed_data().map_err(|error| Error::from(error).of(path.display()))?;
        return Ok(data.into_owned());
    }
    let data = image.all().map_err(|error| error.of(path.display()))?;
    if !btf::is_btf(data) {
        return refuse(format!("{}: the base is no BTF", path.display()));
    }
    Ok(data.to_vec())
}
