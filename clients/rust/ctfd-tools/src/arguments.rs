//! Options that several commands share, among them how files are read.

use crate::elsewhere;
use clap::builder::PossibleValuesParser;
use clap::{value_parser, Arg, ArgAction, ArgMatches, Command};
use ctfd::Model;
use ctfd_read::elsewhere::Elsewhere;
use ctfd_read::inputs::{Form, Options};
use std::path::PathBuf;

/// The greatest and the least width of a help text, in columns.
const MOST_COLUMNS: usize = 100;
const LEAST_COLUMNS: usize = 40;

/// A command with its name and description, and with the settings that all commands share.
pub fn command(name: &'static str, about: &'static str) -> Command {
    let command = Command::new(name)
        .version(env!("CARGO_PKG_VERSION"))
        .about(about)
        .max_term_width(MOST_COLUMNS)
        .infer_long_args(true);
    let columns = std::env::var("COLUMNS").ok().and_then(|columns| columns.parse().ok());
    match columns.filter(|&columns| columns >= LEAST_COLUMNS) {
        Some(columns) => command.term_width(columns),
        None => command, // the width of the terminal
    }
}

/// An option that names a file.
pub fn file(name: &'static str, help: &'static str) -> Arg {
    Arg::new(name).long(name).value_name("FILE").value_parser(value_parser!(PathBuf)).help(help)
}

/// An option without a value.
pub fn flag(name: &'static str, help: &'static str) -> Arg {
    Arg::new(name).long(name).action(ArgAction::SetTrue).help(help)
}

/// An option whose value is one of the words in `listed`, separated by `|`.
pub fn word(name: &'static str, listed: &'static str, help: &'static str) -> Arg {
    let words = PossibleValuesParser::new(listed.split('|'));
    let made = Arg::new(name).long(name).value_name(listed).value_parser(words);
    made.hide_possible_values(true).help(help)
}

/// The option `--store`.
pub fn store() -> Arg {
    Arg::new("store")
        .long("store")
        .value_name("URL")
        .help("where types are asked for by build-id, in place of CTFD_STORE")
}

/// The stores of `--store`, else those of the environment.
pub fn stores(matches: &ArgMatches) -> Elsewhere {
    elsewhere::of(matches.get_one::<String>("store").map(String::as_str))
}

/// The options for how files are read.
pub fn of_reading() -> [Arg; 7] {
    [
        store(),
        word(
            "model",
            "lp64|ilp32",
            "whether pointers have 8 bytes or 4; an ELF file says so itself",
        ),
        word("from", "ctf|btf|dwarf|gnu", "the form to read; by default the first that a file has"),
        file("base", "the BTF of a module's kernel"),
        file("debug-folder", "where to look for debug files, before /usr/lib/debug")
            .value_name("FOLDER")
            .action(ArgAction::Append),
        flag("no-cache", "for older scripts: nothing is kept, so nothing changes").hide(true),
        file("service", "for older scripts: the library in this command answers").hide(true),
    ]
}

/// The values of these options.
pub fn reading(matches: &ArgMatches) -> Options {
    let word = |name: &str| matches.get_one::<String>(name).map(String::as_str);
    let model = word("model").map(|word| match word {
        "ilp32" => Model::Ilp32,
        _ => Model::Lp64,
    });
    Options {
        model,
        form: word("from").and_then(|word| Form::ALL.into_iter().find(|form| form.word() == word)),
        base: matches.get_one::<PathBuf>("base").cloned(),
        folders: matches.get_many("debug-folder").unwrap_or_default().cloned().collect(),
        elsewhere: stores(matches),
        ..Options::default()
    }
}
