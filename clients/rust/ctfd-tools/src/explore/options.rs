//! The command line of `ctfd-explore`.

use crate::arguments;
use crate::wrong_words;
use clap::{value_parser, Arg, ArgAction, Command};
use ctfd_read::inputs::Options;
use std::ffi::OsString;
use std::path::PathBuf;

/// The command's name.
pub const NAME: &str = "ctfd-explore";
const ABOUT: &str = "\
Writes one HTML page with all types of some files: search, declarations, pictures, holders.

The page needs no network and no other file. FILE is what ctfd-convert takes: a program, library or
object file, an archive, or a section of CTF or BTF.";

/// The values of the command line.
pub struct Words {
    /// The files to read.
    pub files: Vec<PathBuf>,
    /// The page to write; `-` for standard output.
    pub output: PathBuf,
    /// The parent of each file.
    pub parent: Option<PathBuf>,
    /// How files are read.
    pub reading: Options,
}

impl Words {
    /// Parses the command line. A wrong one ends the process with a message.
    pub fn parse(words: Vec<OsString>) -> Words {
        let matches = wrong_words::parse_words(options(), words);
        Words {
            files: matches.get_many("FILE").unwrap_or_default().cloned().collect(),
            output: matches.get_one::<PathBuf>("output").cloned().unwrap_or_default(),
            parent: matches.get_one("parent").cloned(),
            reading: arguments::reading(&matches),
        }
    }
}

fn options() -> Command {
    let files = Arg::new("FILE").required(true).action(ArgAction::Append).num_args(1..);
    let output =
        arguments::file("output", "the page to write; by default, or for -, standard output")
            .short('o')
            .value_name("PAGE")
            .default_value("-")
            .hide_default_value(true);
    let parent =
        arguments::file("parent", "the parent of each FILE; its types are on the page too");
    arguments::command(NAME, ABOUT)
        .arg(files.value_parser(value_parser!(PathBuf)))
        .args([output, parent])
        .args(arguments::of_reading())
}
