//! The command line of `ctfd-debuginfo`.

use crate::arguments;
use crate::wrong_words;
use clap::{value_parser, Arg, Command};
use ctfd::Model;
use ctfd_read::elsewhere::Elsewhere;
use std::ffi::OsString;
use std::path::{Path, PathBuf};

/// The command's name.
pub const NAME: &str = "ctfd-debuginfo";
const ABOUT: &str = "\
Writes a program's CTF as a debug file, from which gdb, lldb, drgn and pahole read its types.

FILE is a program or library with CTF of version 2, or the bytes of such a section; one without is
asked for by its build-id if CTFD_STORE or --store names a store. OUT is what objcopy would keep of
the program if it had debug information. Arguments are called arg0, arg1, ..,
and have places where a function begins.";

/// The values of the command line.
pub struct Words {
    /// The program, or its types.
    pub file: PathBuf,
    /// The debug file to write, or a folder for it.
    pub output: PathBuf,
    /// Whether the output is a folder.
    pub is_folder: bool,
    /// The copy of the program that still has its symbol table.
    pub symbols: Option<PathBuf>,
    /// The program that the types belong to, if the file is a section.
    pub program: Option<PathBuf>,
    /// The parent of the dictionary.
    pub parent: Option<PathBuf>,
    /// Whether arguments have names and places.
    pub has_arguments: bool,
    /// Whether to compress sections that this makes smaller.
    pub is_compressed: bool,
    /// The data model, if it is given.
    pub model: Option<Model>,
    /// Whether the dictionary is added to the debug file.
    pub has_dictionary: bool,
    /// The stores to ask if the program has no types.
    pub elsewhere: Elsewhere,
}

impl Words {
    /// The options that write everything known about a program, with or without its dictionary.
    pub fn of_program(path: &Path, has_dictionary: bool) -> Words {
        Words {
            file: path.to_owned(),
            output: PathBuf::new(),
            is_folder: false,
            symbols: None,
            program: None,
            parent: None,
            has_arguments: true,
            is_compressed: true,
            model: None,
            has_dictionary,
            elsewhere: Elsewhere::default(),
        }
    }

    /// Parses the command line. A wrong one ends the process with a message.
    pub fn parse(words: Vec<OsString>) -> Words {
        let matches = wrong_words::parse_words(options(), words);
        let path = |name: &str| matches.get_one::<PathBuf>(name).cloned();
        let word = |name: &str| matches.get_one::<String>(name).map(String::as_str);
        Words {
            file: path("FILE").unwrap_or_default(),
            output: path("OUT").unwrap_or_default(),
            is_folder: matches.get_flag("folder"),
            symbols: path("symbols"),
            program: path("program"),
            parent: path("parent"),
            has_arguments: !matches.get_flag("no-arguments"),
            is_compressed: word("compress-debug-sections") != Some("none"),
            model: word("model").map(|word| match word {
                "ilp32" => Model::Ilp32,
                _ => Model::Lp64,
            }),
            has_dictionary: false,
            elsewhere: arguments::stores(&matches),
        }
    }

    /// The files that are read.
    pub fn inputs(&self) -> impl Iterator<Item = &Path> {
        let others = [&self.symbols, &self.program, &self.parent].into_iter().flatten();
        std::iter::once(&self.file).chain(others).map(PathBuf::as_path)
    }
}

fn options() -> Command {
    let path =
        |name: &'static str| Arg::new(name).required(true).value_parser(value_parser!(PathBuf));
    arguments::command(NAME, ABOUT)
        .arg(path("FILE"))
        .arg(path("OUT").help(
            "the debug file; with --folder a folder, in which it is .build-id/NN/REST.debug, where \
             debuggers look",
        ))
        .args([
            arguments::store(),
            arguments::flag("folder", "OUT is a folder of debug files"),
            arguments::file(
                "symbols",
                "the copy of the program that still has its symbol table, if you stripped it",
            )
            .value_name("UNSTRIPPED"),
            arguments::file(
                "program",
                "the program that the types belong to, if FILE is only a section",
            ),
            arguments::file("parent", "the parent of FILE"),
            arguments::flag("no-arguments", "write no names and places of arguments"),
            arguments::word(
                "model",
                "lp64|ilp32",
                "whether pointers have 8 bytes or 4; by default the class of the ELF file, or lp64",
            ),
            arguments::word(
                "compress-debug-sections",
                "zlib|none",
                "how the sections of OUT are compressed: zlib, the default, where that makes them \
                 smaller; object files' are not",
            ),
            arguments::file("service", "for older scripts: the library in this command answers")
                .hide(true),
        ])
}
