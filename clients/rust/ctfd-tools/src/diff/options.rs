//! The command line of `ctfd-diff`.

use crate::arguments::{self, file, flag};
use crate::wrong_words;
use clap::{value_parser, Arg, ArgAction, ArgMatches, Command};
use ctfd_read::inputs::Options;
use std::ffi::OsString;
use std::os::unix::ffi::OsStringExt as _;
use std::path::{Path, PathBuf};

/// The command's name.
pub const NAME: &str = "ctfd-diff";
const ABOUT: &str = "\
Lists the differences between two programs or libraries, and says whether programs built for OLD
break with NEW.

OLD and NEW are what ctfd-convert takes: libraries and programs with debug information, object
files, archives, or sections of CTF or BTF; or packages of Debian or folders, whose libraries are
compared one by one. If both export functions and objects, these are
compared, with all types that they reach; otherwise, or with --all, all types. Offsets and sizes are
in bytes, `96:3` is bit 3 of byte 96. The status is 0 if nothing differs, 1 if all changes are
compatible, 4 if something breaks, and 2 if something is refused, or nothing breaks as far as can be
told and something could not be compared.";

/// The values of the command line.
pub struct Words {
    /// The old file, or the baseline if one is given.
    pub old: PathBuf,
    /// The new file.
    pub new: PathBuf,
    /// Whether the old file is a baseline.
    pub has_baseline: bool,
    /// Whether the baseline is written again.
    pub is_updated: bool,
    /// Packages with the debug information of the old and the new package or folder.
    pub debug_packages: [Vec<PathBuf>; 2],
    /// Whether to report only what breaks.
    pub is_breaking: bool,
    /// Whether all types and symbols are compared.
    pub is_all: bool,
    /// Names and patterns of the types and symbols to report.
    pub names: Vec<Vec<u8>>,
    /// Files with what not to report.
    pub suppressed: Vec<PathBuf>,
    /// Folders of the public headers of the old and the new file.
    pub headers: [Vec<PathBuf>; 2],
    /// Whether to print JSON objects.
    pub is_json: bool,
    /// Whether to print for each change whether it breaks, and a verdict at the end.
    pub has_verdict: bool,
    /// Whether to print changed types in full, old and new.
    pub is_in_full: bool,
    /// How files are read.
    pub reading: Options,
    parent: Option<PathBuf>,
    old_parent: Option<PathBuf>,
    new_parent: Option<PathBuf>,
}

impl Words {
    /// Parses the command line. A wrong one ends the process with a message.
    pub fn parse(words: Vec<OsString>) -> Words {
        Words::of(&wrong_words::parse_words(options(), words))
    }

    fn of(matches: &ArgMatches) -> Words {
        let path = |name: &str| matches.get_one::<PathBuf>(name).cloned();
        let many = |name: &str| matches.get_many(name).unwrap_or_default().cloned().collect();
        let names = matches.get_many::<OsString>("name").unwrap_or_default();
        let baseline = path("baseline");
        let (first, second) = (path("OLD").unwrap_or_default(), path("NEW").unwrap_or_default());
        let has_baseline = baseline.is_some();
        let (old, new) = match baseline {
            Some(baseline) => (baseline, first),
            None => (first, second),
        };
        Words {
            old,
            new,
            has_baseline,
            is_updated: matches.get_flag("update"),
            debug_packages: [many("debug-package1"), many("debug-package2")],
            is_breaking: matches.get_flag("breaking"),
            is_all: matches.get_flag("all"),
            names: names.cloned().map(OsString::into_vec).collect(),
            suppressed: many("suppress"),
            headers: [many("headers-dir1"), many("headers-dir2")],
            is_json: matches.get_flag("json"),
            has_verdict: matches.get_flag("verdict"),
            is_in_full: matches.get_flag("full"),
            reading: Options { is_in_full: true, ..arguments::reading(matches) },
            parent: path("parent"),
            old_parent: path("old-parent"),
            new_parent: path("new-parent"),
        }
    }

    /// The parent of the old file.
    pub fn parent_of_old(&self) -> Option<&Path> {
        self.old_parent.as_deref().or(self.parent.as_deref())
    }

    /// The parent of the new file.
    pub fn parent_of_new(&self) -> Option<&Path> {
        self.new_parent.as_deref().or(self.parent.as_deref())
    }
}

fn headers(name: &'static str, help: &'static str) -> Arg {
    file(name, help).value_name("FOLDER").action(ArgAction::Append)
}

fn packages(name: &'static str, help: &'static str) -> Arg {
    file(name, help).action(ArgAction::Append)
}

fn options() -> Command {
    let of_file = |name: &'static str| Arg::new(name).value_parser(value_parser!(PathBuf));
    arguments::command(NAME, ABOUT)
        .arg(of_file("OLD").required(true))
        .arg(of_file("NEW").required_unless_present("baseline").conflicts_with("baseline"))
        .args([
            file("baseline", "compare with a baseline of an earlier build: give one file then"),
            flag("update", "write the baseline anew, after the comparison").requires("baseline"),
        ])
        .args([
            packages("debug-package1", "a package with the debug information of OLD, a package"),
            packages("debug-package2", "the same of NEW"),
        ])
        .args(of_answers())
        .args([
            file("parent", "the parent of both"),
            file("old-parent", "the parent of OLD"),
            file("new-parent", "the parent of NEW"),
        ])
        .args(arguments::of_reading())
}

/// The options for what is reported, and how.
fn of_answers() -> [Arg; 9] {
    [
        flag("breaking", "only what breaks programs built for OLD; the status is then 0 or 4"),
        flag("all", "all types and symbols, static and hidden ones too"),
        Arg::new("name")
            .long("name")
            .short('C')
            .value_name("NAME")
            .value_parser(value_parser!(OsString))
            .action(ArgAction::Append)
            .help("only types and symbols with a name or pattern: 'struct lua_*'"),
        file(
            "suppress",
            "a file with types and symbols to leave out, a name or pattern on each line; # begins \
             a comment; or sections as abidiff's",
        )
        .action(ArgAction::Append),
        headers("headers-dir1", "the public headers of OLD: types that others define are left out"),
        headers("headers-dir2", "the same of NEW, which counts without --headers-dir1"),
        flag("verdict", "each line says whether it breaks, and the last what comes of all"),
        flag("full", "each changed type in full, as it was and as it is"),
        flag("json", "a JSON object on each line"),
    ]
}
