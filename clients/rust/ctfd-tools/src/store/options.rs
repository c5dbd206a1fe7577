//! The command line of `ctfd-store`.

use crate::arguments::{self, file, flag};
use crate::wrong_words;
use clap::{value_parser, Arg, ArgAction, ArgMatches, Command};
use std::ffi::OsString;
use std::path::PathBuf;

/// The command's name.
pub const NAME: &str = "ctfd-store";
const ABOUT: &str = "\
Keeps the types of programs by their build-ids, in a folder that any web server serves to gdb, lldb,
elfutils and all that speak debuginfod's protocol.";

/// The values of the command line: what to do, and with which store.
pub enum Words {
    /// Adds builds to a store.
    Add(Adding),
    /// Checks all files of a store.
    Check(PathBuf),
    /// Asks stores for the types of a build.
    Fetch(Fetching),
    /// Lists the builds of a store, as JSON if the flag is set.
    List(PathBuf, bool),
    /// Lists the missing builds of a server's log.
    Missing(PathBuf),
    /// Removes builds from a store.
    Remove(Removing),
    /// Prints the totals of a store.
    Stats(PathBuf),
}

/// What to add.
pub struct Adding {
    /// The store.
    pub store: PathBuf,
    /// Programs, debug files, folders and packages.
    pub files: Vec<PathBuf>,
    /// Whether to keep programs besides their types.
    pub has_programs: bool,
    /// Folders of debug files.
    pub folders: Vec<PathBuf>,
}

/// What to fetch.
pub struct Fetching {
    /// A build-id, or a program that has one.
    pub build: PathBuf,
    /// The file to write.
    pub output: PathBuf,
    /// The stores to ask, in place of those of the environment.
    pub stores: Option<String>,
}

/// What to remove.
pub struct Removing {
    /// The store.
    pub store: PathBuf,
    /// Build-ids.
    pub ids: Vec<String>,
    /// Also builds that were last added more than so many days ago.
    pub older: Option<u64>,
}

impl Words {
    /// Parses the command line. A wrong one ends the process with a message.
    pub fn parse(words: Vec<OsString>) -> Words {
        let matches = wrong_words::parse_words(options(), words);
        let (word, matches) = matches.subcommand().unwrap_or(("", &matches));
        let store =
            matches.try_get_one::<PathBuf>("DIR").ok().flatten().cloned().unwrap_or_default();
        match word {
            "add" => Words::Add(adding(store, matches)),
            "check" => Words::Check(store),
            "fetch" => Words::Fetch(fetching(matches)),
            "list" => Words::List(store, matches.get_flag("json")),
            "missing" => Words::Missing(store),
            "remove" => Words::Remove(removing(store, matches)),
            _ => Words::Stats(store),
        }
    }
}

fn adding(store: PathBuf, matches: &ArgMatches) -> Adding {
    let paths = |name: &str| matches.get_many(name).unwrap_or_default().cloned().collect();
    Adding {
        store,
        files: paths("FILE"),
        has_programs: matches.get_flag("executables"),
        folders: paths("debug-folder"),
    }
}

fn fetching(matches: &ArgMatches) -> Fetching {
    let path = |name: &str| matches.get_one::<PathBuf>(name).cloned().unwrap_or_default();
    Fetching {
        build: path("BUILD"),
        output: path("OUT"),
        stores: matches.get_one::<String>("store").cloned(),
    }
}

fn removing(store: PathBuf, matches: &ArgMatches) -> Removing {
    Removing {
        store,
        ids: matches.get_many("ID").unwrap_or_default().cloned().collect(),
        older: matches.get_one("older").copied(),
    }
}

fn options() -> Command {
    arguments::command(NAME, ABOUT).subcommand_required(true).subcommands([
        add(),
        check(),
        fetch(),
        list(),
        missing(),
        remove(),
        stats(),
    ])
}

/// A subcommand that works on a store.
fn action(name: &'static str, about: &'static str) -> Command {
    let store = Arg::new("DIR").required(true).value_parser(value_parser!(PathBuf));
    Command::new(name).about(about).arg(store.help("the store, a folder"))
}

fn add() -> Command {
    action("add", "Puts the types of programs into a store.")
        .arg(
            Arg::new("FILE")
                .required(true)
                .num_args(1..)
                .value_parser(value_parser!(PathBuf))
                .help("programs, libraries, modules, debug files, folders of such, .deb and .rpm"),
        )
        .arg(flag("executables", "keep the programs too, which core files need"))
        .arg(
            file("debug-folder", "where to look for debug files, before /usr/lib/debug")
                .value_name("FOLDER")
                .action(ArgAction::Append),
        )
}

fn check() -> Command {
    action("check", "Judges all files of a store, by the library and by its index.")
}

fn fetch() -> Command {
    let path =
        |name: &'static str| Arg::new(name).required(true).value_parser(value_parser!(PathBuf));
    Command::new("fetch")
        .about("Asks stores for the types of a build, and writes an ELF file with them.")
        .arg(path("BUILD").help("a build-id, or a program that has one"))
        .arg(path("OUT").help("the file to write; - is standard output"))
        .arg(arguments::store())
}

fn list() -> Command {
    action("list", "Lists the builds of a store.").arg(flag("json", "a JSON object on each line"))
}

fn missing() -> Command {
    action(
        "missing",
        "Reads a web server's log, and lists the builds that were asked for and are not there.",
    )
}

fn remove() -> Command {
    action("remove", "Takes builds out of a store.")
        .arg(Arg::new("ID").num_args(0..).required_unless_present("older").help("build-ids"))
        .arg(
            Arg::new("older")
                .long("older")
                .value_name("DAYS")
                .value_parser(value_parser!(u64))
                .help("all that were last added more than so many days ago"),
        )
}

fn stats() -> Command {
    action("stats", "Tells how much is in a store.")
}
