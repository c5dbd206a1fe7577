//! `ctfd-convert`: writes a program's types as a dictionary of CTF version 2.

use crate::arguments;
use crate::bundle;
use crate::elsewhere;
use crate::interrupts;
use crate::messages::{warn, LOSSY, REFUSED};
use crate::output;
use crate::progress::Bar;
use crate::standard;
use crate::wrong_words;
use clap::builder::PossibleValuesParser;
use clap::{value_parser, Arg, ArgAction, ArgMatches, Command};
use ctfd::Model;
use ctfd_read::dictionary::{self, Dictionary, Parent, WithParent};
use ctfd_read::error::{refuse, Error, Result};
use ctfd_read::image::Image;
use ctfd_read::inputs::{plain_bytes, with_types, Form, Options, ProgramTypes, Verifier};
use ctfd_read::parts;
use ctfd_read::progress::Listener;
use ctfd_read::symbols::SymbolTable;
use ctfd_read::verify::Extent;
use std::ffi::OsString;
use std::path::{Path, PathBuf};
use std::process::ExitCode;
use std::sync::Arc;

const NAME: &str = "ctfd-convert";
/// The number of lines that report losses to a user, and how to see all of them.
const MOST_LINES: usize = 12;
const ALL_LINES: &str = "--report - lists them all";
/// The stack size of a thread: that of a program's first thread.
const STACK: usize = 8 << 20;
const ABOUT: &str = "\
Writes a program's types as a dictionary of CTF version 2.

IN is an ELF file with debug information (DWARF, here or in a debug file of its own), with BTF,
GNU's CTF or CTF, an archive of object files, or the bytes of such a section; the first of CTF, BTF,
DWARF and GNU's CTF that it has is read. Each construct that CTF cannot represent is reported, with
what replaces it: the status is then 1, and OUT is written. It is 2 if nothing was written, and OUT
is as it was.";

/// Options that apply only to written dictionaries.
const OF_TYPES: [&str; 7] =
    ["only", "parent", "split", "section", "self-contained", "report", "verify"];

/// Runs the command, and returns its exit status.
pub fn main(words: Vec<OsString>) -> ExitCode {
    let words = Words::of(&wrong_words::parse_words(options(), words));
    if standard::is_output_closed() {
        warn(NAME, standard::CLOSED);
        return ExitCode::from(REFUSED);
    }
    interrupts::watch();
    match convert(&words) {
        Ok(losses) => {
            let lines = dictionary::notice(&losses, MOST_LINES, ALL_LINES);
            lines.iter().for_each(|line| warn(NAME, line));
            let is_lossy = !losses.is_empty() && !words.is_lossy;
            ExitCode::from(if is_lossy { LOSSY } else { 0 })
        }
        Err(error) => {
            warn(NAME, error);
            ExitCode::from(REFUSED)
        }
    }
}

/// The values of the command line.
struct Words {
    input: PathBuf,
    output: PathBuf,
    reading: Options,
    only: Vec<String>,
    parent: Option<PathBuf>,
    split: Option<PathBuf>,
    report: Option<PathBuf>,
    is_section: bool,
    is_self_contained: bool,
    is_lossy: bool,
    is_verified: bool,
    answer: Answer,
}

/// The kind of output.
#[derive(Clone, Copy, PartialEq, Eq)]
enum Answer {
    /// A dictionary, or several in one file.
    Types,
    /// A bundle, with or without the addresses of its symbols.
    Bundle { has_addresses: bool },
    /// What an ELF file is.
    Description,
}

impl Words {
    fn of(matches: &ArgMatches) -> Words {
        let path = |name: &str| matches.get_one::<PathBuf>(name).cloned();
        let word = |name: &str| matches.get_one::<String>(name).map(String::as_str);
        let only = matches.get_many::<String>("only").unwrap_or_default();
        let input = path("IN").unwrap_or_default();
        Words {
            output: path("OUT").unwrap_or_default(),
            reading: Options {
                model: word("model").map(|word| match word {
                    "ilp32" => Model::Ilp32,
                    _ => Model::Lp64,
                }),
                form: word("from")
                    .and_then(|word| Form::ALL.into_iter().find(|form| form.word() == word)),
                base: path("base"),
                folders: matches.get_many("debug-folder").unwrap_or_default().cloned().collect(),
                number: matches.get_one("dictionary").copied(),
                symbols: match word("symbols") {
                    Some("dynsym") => SymbolTable::Dynsym,
                    _ => SymbolTable::Symtab,
                },
                is_in_full: false,
                listener: Listener::new(Arc::new(Bar::new(format!("reading {}", input.display())))),
                has_sources: false,
                elsewhere: elsewhere::of(None),
                is_one: matches.get_flag("one"),
            },
            input,
            only: only
                .flat_map(|listed| listed.split(','))
                .map(|name| name.trim().to_owned())
                .filter(|name| !name.is_empty())
                .collect(),
            parent: path("parent"),
            split: path("split"),
            report: path("report"),
            is_section: matches.get_flag("section"),
            is_self_contained: matches.get_flag("self-contained"),
            is_lossy: matches.get_flag("lossy"),
            is_verified: matches.get_flag("verify"),
            answer: match (matches.get_flag("bundle"), matches.get_flag("describe")) {
                (true, _) => Answer::Bundle { has_addresses: matches.get_flag("addresses") },
                (false, true) => Answer::Description,
                (false, false) => Answer::Types,
            },
        }
    }

    /// How much of a program is written: all, or some.
    fn extent(&self, made: &Conversion<'_>) -> Extent {
        let is_cut = match made {
            Conversion::One(made) => made.table.is_cut,
            Conversion::InParts(made) => made.whole.table.is_cut,
        };
        match self.only.is_empty() && !is_cut {
            true => Extent::All,
            false => Extent::Some,
        }
    }

    /// The files that are written.
    fn outputs(&self) -> Vec<&Path> {
        let others = [&self.split, &self.report].into_iter().flatten();
        std::iter::once(&self.output).chain(others).map(PathBuf::as_path).collect()
    }

    /// Refuses words that contradict each other.
    fn judge(&self) -> Result<()> {
        if self.parent.is_some() && self.split.is_some() {
            return refuse(
                "--parent and --split: give one of them, for a parent that is there or one to write",
            );
        }
        if self.is_section && self.split.is_some() {
            return refuse(
                "--section and --split: a file has one dictionary; leave --section out, and add the \
                 sections by objcopy",
            );
        }
        let outputs = self.outputs();
        let inputs = [Some(&self.input), self.reading.base.as_ref(), self.parent.as_ref()];
        inputs.into_iter().flatten().try_for_each(|input| output::judge_input(input, &outputs))?;
        for (place, one) in outputs.iter().enumerate() {
            if outputs[place + 1..].iter().any(|other| output::is_same(one, other)) {
                return refuse("--report, --split and OUT must be different files");
            }
        }
        Ok(())
    }
}

fn path(name: &'static str) -> Arg {
    Arg::new(name).value_parser(value_parser!(PathBuf))
}

/// An option whose value is one of the words in `listed`, separated by `|`.
fn word(name: &'static str, listed: &'static str) -> Arg {
    let words = PossibleValuesParser::new(listed.split('|'));
    Arg::new(name).long(name).value_name(listed).value_parser(words).hide_possible_values(true)
}

fn flag(name: &'static str) -> Arg {
    Arg::new(name).long(name).action(ArgAction::SetTrue)
}

fn options() -> Command {
    let command = arguments::command(NAME, ABOUT)
        .arg(
            path("IN")
                .required(true)
                .help("an ELF file, an archive of object files, or a section of BTF or CTF"),
        )
        .arg(path("OUT").required(true).help("the dictionary to write; - is standard output"));
    command.args(of_reading()).args(of_writing())
}

/// The options for what is read.
fn of_reading() -> [Arg; 7] {
    [
        word("from", "ctf|other-ctf|btf|dwarf|gnu").help("the form to read"),
        Arg::new("dictionary")
            .long("dictionary")
            .value_name("N")
            .value_parser(value_parser!(usize))
            .help("which of several dictionaries in IN, such as ld leaves; counted from 1"),
        path("base")
            .long("base")
            .value_name("FILE")
            .help("the BTF of a module's kernel, or the parent of a child"),
        Arg::new("only")
            .long("only")
            .value_name("NAMES")
            .action(ArgAction::Append)
            .help("only the types that these reach: 'struct list_head,size_t'"),
        word("model", "lp64|ilp32")
            .help("whether pointers have 8 bytes or 4; an ELF file says so itself"),
        word("symbols", "symtab|dynsym").default_value("symtab").help(
            "the symbol table to write for: dynsym survives strip, and has only what the program \
             exports",
        ),
        path("debug-folder")
            .long("debug-folder")
            .value_name("FOLDER")
            .action(ArgAction::Append)
            .help("where to look for debug files, before /usr/lib/debug"),
    ]
}

/// The options for what is written.
fn of_writing() -> [Arg; 12] {
    [
        path("parent").long("parent").value_name("FILE").help(
            "a dictionary: OUT is a child of it, with only the types that it lacks",
        ),
        path("split").long("split").value_name("FILE").help(
            "write the types of the base, or as many as a dictionary holds, to FILE, and the rest to \
             OUT, a child of it",
        ),
        flag("section").help("OUT is a copy of the ELF file IN with the dictionary in it"),
        flag("self-contained")
            .help("for CTF version 2: copy names from the strings of the ELF file"),
        path("report")
            .long("report")
            .value_name("FILE")
            .help("report what was read, written and lost; - is standard output"),
        flag("one").help(
            "one dictionary also of more types than it holds: those without room are left out",
        ),
        flag("verify").help(
            "compare what is written with each unit of the debug information (DWARF), and refuse it \
             where they differ",
        ),
        flag("bundle").conflicts_with_all(OF_TYPES).help(
            "for programs: OUT is a line of JSON, then the dictionary, symbols and strings that it \
             counts",
        ),
        flag("addresses")
            .requires("bundle")
            .help("with --bundle: the addresses of functions and variables, as JSON, too"),
        flag("describe").conflicts_with_all(OF_TYPES).conflicts_with("bundle").help(
            "for programs: OUT is JSON that says what the ELF file IN is, and whether it has types",
        ),
        flag("lossy").help("end with status 0 even if CTF cannot represent everything"),
        path("service")
            .long("service")
            .value_name("CTFD")
            .help("taken as other commands take it: OUT is checked by the library in this one"),
    ]
}

/// Runs the command, and returns what was lost, one line each. All of it runs in the threads that
/// read, so that memory which one step freed serves the next.
fn convert(words: &Words) -> Result<Vec<String>> {
    words.judge()?;
    words.outputs().into_iter().try_for_each(output::judge)?;
    let threads = rayon::ThreadPoolBuilder::new()
        .stack_size(STACK)
        .build()
        .map_err(|error| Error(format!("the threads can't be started: {error}")))?;
    threads.install(|| convert_file(words))
}

fn convert_file(words: &Words) -> Result<Vec<String>> {
    let image = elsewhere::open(&words.input, &words.reading)?;
    match words.answer {
        Answer::Types => {}
        Answer::Bundle { has_addresses } => return write_bundle(words, &image, has_addresses),
        Answer::Description => {
            let description = bundle::description(&image)?;
            return output::write(&words.output, description.as_bytes()).map(|()| Vec::new());
        }
    }
    if words.is_section && !image.is_elf() {
        return refuse(format!(
            "{}: --section needs an ELF file, and this is none: leave --section out",
            words.input.display()
        ));
    }
    with_types(&image, &words.reading, |found| {
        if !found.note.is_empty() {
            warn(NAME, format!("{}: {}", words.input.display(), found.note));
        }
        let (form, count, verifier) = (found.form, found.table.len(), found.verifier);
        with_dictionary(words, &image, found, |made| {
            let extent = words.extent(&made);
            let (mut made, bytes, counts) = match made {
                Conversion::One(mut made) => {
                    let bytes = made.checked_bytes(&image, &words.output)?;
                    let written = [(bytes.as_slice(), made.parent.as_deref())];
                    verify(words, &written, extent, verifier)?;
                    (made, bytes, Vec::new())
                }
                Conversion::InParts(made) => {
                    verify(words, &made.dictionaries()?, extent, verifier)?;
                    (made.whole, made.bytes, made.counts)
                }
            };
            write(words, &made, &bytes)?;
            if let Some(path) = &words.report {
                let mut lines = dictionary::report(&words.input, form, count, &made);
                if let [parent, children @ ..] = counts.as_slice() {
                    let children: Vec<String> = children.iter().map(usize::to_string).collect();
                    let line = format!(
                        "  in parts: a parent of {parent}, children of {}",
                        children.join(", ")
                    );
                    lines.insert(2, line);
                }
                write_report(path, &lines)?;
            }
            let losses = std::mem::take(&mut made.table.losses);
            // Not dropped: the process ends soon, and that takes less time.
            std::mem::forget(made);
            Ok(losses)
        })
    })
}

/// Writes a bundle. The losses are in the bundle, so none are returned.
fn write_bundle(words: &Words, image: &Image, has_addresses: bool) -> Result<Vec<String>> {
    let handed = bundle::library_input(image, &words.reading)?;
    output::write(&words.output, &bundle::bundle(image, &handed, has_addresses)?)?;
    Ok(Vec::new())
}

/// With `--verify`, refuses dictionaries that differ from the debug information of the program.
fn verify(
    words: &Words,
    written: &[WithParent<'_>],
    extent: Extent,
    verifier: Option<&Verifier<'_>>,
) -> Result<()> {
    match verifier.filter(|_| words.is_verified) {
        Some(verifier) => dictionary::verify(written, extent, verifier).map(drop),
        None => Ok(()),
    }
}

fn write_report(path: &Path, lines: &[String]) -> Result<()> {
    let mut text = String::new();
    for line in lines {
        text.extend(line.chars().map(crate::messages::printable));
        text.push('\n');
    }
    output::write(path, text.as_bytes())
}

/// The result of a conversion: a dictionary, or several in one file.
enum Conversion<'a> {
    One(Dictionary<'a>),
    InParts(parts::WrittenParts<'a>),
}

/// Makes the dictionary that the command line asks for, and calls `run` with it.
fn with_dictionary<T>(
    words: &Words,
    image: &Image,
    found: ProgramTypes<'_>,
    run: impl FnOnce(Conversion<'_>) -> Result<T>,
) -> Result<T> {
    let is_plain = words.only.is_empty() && words.parent.is_none() && words.split.is_none();
    if found.form == Form::Ctf && is_plain {
        return run(Conversion::One(dictionary_as_it_is(words, image, found)?));
    }
    let named = |error: Error| error.within(&words.input.display().to_string());
    let (found, bases) = dictionary::select(found, &words.only).map_err(named)?;
    let ProgramTypes { table, symbols, .. } = found;
    if let Some(path) = &words.split {
        let made = dictionary::split(dictionary::parent_name(path), table, bases, symbols)?;
        return run(Conversion::One(made));
    }
    let Some(path) = &words.parent else {
        if table.len() > dictionary::MOST_TYPES && !words.is_section && !words.reading.is_one {
            return run(Conversion::InParts(parts::write(table, symbols, image, &words.output)?));
        }
        return run(Conversion::One(dictionary::alone(table, symbols)));
    };
    let parent = Image::open(path)?;
    let reading =
        Options { model: Some(table.model()), form: Some(Form::Ctf), ..Options::default() };
    with_types(&parent, &reading, |of_parent| {
        if of_parent.bases != 0 {
            return refuse(format!(
                "{}: it is a child itself, and a parent has none",
                path.display()
            ));
        }
        let ctf = plain_bytes(&parent, None)?;
        let name = dictionary::parent_name(path);
        let parent = Parent { table: of_parent.table, ctf: &ctf, name };
        run(Conversion::One(dictionary::child(parent, table, symbols)?))
    })
}

/// An existing dictionary, inflated, or with its names copied into its own strings.
fn dictionary_as_it_is<'a>(
    words: &Words,
    image: &Image,
    found: ProgramTypes<'a>,
) -> Result<Dictionary<'a>> {
    let ProgramTypes { table, symbols, .. } = found;
    let parent = match &words.reading.base {
        Some(base) => Some(plain_bytes(&Image::open(base)?, None)?),
        None => None,
    };
    let mut plain = None;
    if !words.is_self_contained {
        if table.has_outer_names {
            return refuse(format!(
                "{}: its names stand in the strings of the ELF file, which a section alone has not: \
                 --self-contained takes them into the dictionary",
                words.input.display()
            ));
        }
        plain = Some(plain_bytes(image, words.reading.number)?);
    }
    Ok(Dictionary { table, symbols, parent, has_own_parent: false, plain })
}

fn write(words: &Words, made: &Dictionary<'_>, bytes: &[u8]) -> Result<()> {
    if let (Some(path), true, Some(parent)) = (&words.split, made.has_own_parent, &made.parent) {
        output::write(path, parent)?;
    }
    if words.is_section {
        output::add_section(&words.input, bytes, &words.output)
    } else {
        output::write(&words.output, bytes)
    }
}
