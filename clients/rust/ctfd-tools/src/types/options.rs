//! The command line of `ctfd-types`.

use super::figures::Order;
use super::text::is_pattern;
use crate::arguments::{self, file, flag, word};
use crate::wrong_words;
use clap::{value_parser, Arg, ArgAction, ArgGroup, ArgMatches, Command};
use ctfd_read::inputs::Options;
use std::ffi::{OsStr, OsString};
use std::os::unix::ffi::{OsStrExt as _, OsStringExt as _};
use std::path::{Path, PathBuf};

/// Makes the question that an option asks about a name.
type QuestionOf = fn(Vec<u8>) -> Question;

/// The command's name.
pub const NAME: &str = "ctfd-types";
const CACHE_LINE: &str = "64";
const ABOUT: &str = "\
Prints the types of a program: one as pahole does, with offsets and holes, or a list of all; or
lists their sizes and holes, and who holds, points to or takes one, and draws them.

FILE is what ctfd-convert takes: a program, library or object file with debug information, an
archive, or a section of CTF or BTF. NAME is a type as C names it (\"struct lua_State\", \"TValue\"),
or a function or object of the program. The status is 1 if something is refused or not found.";

/// The question that the command line asks.
pub enum Question {
    /// The types with some names, or a list of all.
    Types,
    /// A table of structs and unions, perhaps only those with at least so many bytes of holes.
    Sizes(Option<i64>),
    /// The structs and unions that contain a type, member by member.
    Contains(Vec<u8>),
    /// The structs and unions with pointers to a type, member by member.
    Uses(Vec<u8>),
    /// The functions that take or return a type.
    Functions(Vec<u8>),
    /// The members with a name.
    Members(Vec<u8>),
    /// What a struct has at an offset.
    At(Vec<u8>, String),
    /// The type with a number.
    Number(u64),
    /// Structs with their members in a better order.
    Reorganize,
    /// The values of a type in a file: `TYPE FILE [OFFSET] [COUNT]`.
    Show(Vec<OsString>),
    /// Declarations for a compiler.
    Header,
    Picture(Vec<u8>),
    /// A picture of all structs and unions.
    Treemap,
    /// The names with a prefix, for completion in a shell.
    Complete(Vec<u8>),
}

/// The values of the command line.
pub struct Words {
    pub files: Vec<PathBuf>,
    /// Names and patterns of types and symbols.
    pub names: Vec<Vec<u8>>,
    pub question: Question,
    /// The order of figures.
    pub order: Option<Order>,
    /// Whether to search named structs too.
    pub is_recursive: bool,
    /// Whether to write contained structs in place.
    pub is_expanded: bool,
    /// The size of a cache line in bytes.
    pub cache_line: u64,
    /// Whether to print JSON objects.
    pub is_json: bool,
    /// Whether to print numbers in hexadecimal.
    pub is_hexadecimal: bool,
    /// Whether to print all types with a name.
    pub is_all: bool,
    /// Whether to print only C, without offsets.
    pub is_plain: bool,
    /// The parent of the files.
    pub parent: Option<PathBuf>,
    /// The symbol table, or a program that has it.
    pub symbols: Option<PathBuf>,
    /// The strings of the symbol table.
    pub strings: Option<PathBuf>,
    /// How files are read.
    pub reading: Options,
}

impl Words {
    /// Parses the command line. A wrong one ends the process with a message.
    pub fn parse(words: Vec<OsString>) -> Words {
        let made = Words::of(&wrong_words::parse_words(options(), with_counts(words)));
        let refuse = |said: &str| -> ! { wrong_words::refuse_because(&options(), said) };
        let is_of_one =
            matches!(made.question, Question::Header | Question::Picture(_) | Question::Treemap);
        if made.files.len() > 1 && is_of_one {
            refuse("--c, --svg and --svg-sizes are of one file");
        }
        if matches!(&made.question, Question::Show(words) if !(2..=4).contains(&words.len())) {
            refuse("argument --show: TYPE FILE [OFFSET] [COUNT]");
        }
        made
    }

    fn of(matches: &ArgMatches) -> Words {
        let path = |name: &str| matches.get_one::<PathBuf>(name).cloned();
        let word = |name: &str| matches.get_one::<String>(name).map(String::as_str);
        let flag = |name: &str| matches.get_flag(name);
        let words: Vec<OsString> = many(matches, "words");
        let (files, mut names) = told_apart(words);
        names.extend(many(matches, "name").into_iter().map(OsString::into_vec));
        Words {
            files,
            names,
            question: question(matches),
            order: word("sort").map(Order::of_word),
            is_recursive: flag("recursive"),
            is_expanded: flag("expand"),
            cache_line: matches.get_one("cachelines").copied().unwrap_or(64),
            is_json: flag("json"),
            is_hexadecimal: flag("hex"),
            is_all: flag("all"),
            is_plain: flag("plain"),
            parent: path("parent"),
            symbols: path("symbols"),
            strings: path("strings"),
            reading: Options {
                number: matches.get_one("dictionary").copied(),
                ..arguments::reading(matches)
            },
        }
    }

    /// Whether the answer needs all types of a file.
    pub fn is_of_all(&self) -> bool {
        let is_question = !matches!(self.question, Question::Types | Question::Number(_));
        is_question || self.is_json || self.names.iter().any(|name| is_pattern(name))
    }
}

fn many(matches: &ArgMatches, name: &str) -> Vec<OsString> {
    matches.get_many::<OsString>(name).unwrap_or_default().cloned().collect()
}

fn question(matches: &ArgMatches) -> Question {
    let name =
        |option: &str| matches.get_one::<OsString>(option).map(|word| word.as_bytes().to_vec());
    let flag = |option: &str| matches.get_flag(option);
    let of_name: [(&str, QuestionOf); 6] = [
        ("contains", Question::Contains),
        ("uses", Question::Uses),
        ("functions", Question::Functions),
        ("members", Question::Members),
        ("svg", Question::Picture),
        ("complete", Question::Complete),
    ];
    if let Some(asked) = of_name.iter().find_map(|(word, of)| name(word).map(of)) {
        return asked;
    }
    let at = many(matches, "at");
    if let [of, offset] = &at[..] {
        let offset = offset.to_string_lossy().into_owned();
        return Question::At(of.as_bytes().to_vec(), offset);
    }
    let show = many(matches, "show");
    match () {
        () if !show.is_empty() => Question::Show(show),
        () if flag("sizes") => Question::Sizes(None),
        () if matches.contains_id("holes") => {
            Question::Sizes(matches.get_one::<i64>("holes").copied())
        }
        () if matches.contains_id("number") => {
            Question::Number(matches.get_one("number").copied().unwrap_or(0))
        }
        () if flag("reorganize") => Question::Reorganize,
        () if flag("c") => Question::Header,
        () if flag("svg-sizes") => Question::Treemap,
        () => Question::Types,
    }
}

/// Separates files from names. If no word is a file, the first counts as one that does not exist;
/// so does a first word that cannot be a name in C.
fn told_apart(words: Vec<OsString>) -> (Vec<PathBuf>, Vec<Vec<u8>>) {
    let is_file = |word: &OsString| !is_pattern(word.as_bytes()) && Path::new(word).exists();
    let are_files: Vec<bool> = words.iter().map(is_file).collect();
    let has_file = are_files.contains(&true);
    let (mut files, mut names) = (Vec::new(), Vec::new());
    for (place, word) in words.into_iter().enumerate() {
        let is_first = place == 0 && !(has_file && is_name(&word));
        match are_files[place] || is_first {
            true => files.push(word.into()),
            false => names.push(word.into_vec()),
        }
    }
    (files, names)
}

/// Whether a word may be a name in C, or a pattern of names.
fn is_name(word: &OsStr) -> bool {
    let is_of_name = |letter: char| {
        letter.is_alphanumeric() || letter.is_whitespace() || "_*?[]{}()-".contains(letter)
    };
    word.to_str().is_some_and(|word| !word.is_empty() && word.chars().all(is_of_name))
}

/// Adds a count to `--holes` if no number follows it.
fn with_counts(words: Vec<OsString>) -> Vec<OsString> {
    let is_count = |word: Option<&OsString>| {
        word.and_then(|word| word.to_str())
            .is_some_and(|word| !word.is_empty() && word.bytes().all(|byte| byte.is_ascii_digit()))
    };
    let count = |(place, word): (usize, &OsString)| match word == "--holes" {
        true if !is_count(words.get(place + 1)) => OsString::from("--holes=1"),
        _ => word.clone(),
    };
    words.iter().enumerate().map(count).collect()
}

fn number(written: &str) -> Result<u64, String> {
    super::members::number(written).ok_or_else(|| "a number such as 218 or 0xda".to_owned())
}

fn value(name: &'static str, shown: &'static str, help: &'static str) -> Arg {
    Arg::new(name).long(name).value_name(shown).value_parser(value_parser!(OsString)).help(help)
}

/// All options. The help text, the manual page and the completions of shells are made from these.
pub fn options() -> Command {
    let questions = questions();
    let group = ArgGroup::new("question").args(questions.iter().map(Arg::get_id));
    arguments::command(NAME, ABOUT)
        .arg(
            Arg::new("words")
                .value_name("FILE")
                .required(true)
                .num_args(1..)
                .value_parser(value_parser!(OsString))
                .help(
                    "programs, libraries, object files, archives, or sections of CTF or BTF; other \
                     words are names of types or symbols, or patterns such as 'lua_*'",
                ),
        )
        .arg(
            value("name", "NAME", "a name or pattern, even if a file has that name")
                .short('C')
                .action(ArgAction::Append),
        )
        .args(questions)
        .group(group)
        .args(manners())
        .args(inputs())
}

/// The questions, of which one may be asked.
fn questions() -> Vec<Arg> {
    vec![
        flag(
            "sizes",
            "a table of structs and unions: bytes, members, holes, padding, and what a better order \
             saves",
        ),
        value("holes", "N", "the same for those with at least N bytes of holes (1)")
            .value_parser(value_parser!(i64)),
        value("contains", "TYPE", "who holds a type by value, and where"),
        value("uses", "TYPE", "who has a pointer to a type, and where"),
        value("functions", "TYPE", "the functions that take or return a type, or a pointer to it"),
        value(
            "members",
            "NAME",
            "the members with a name or pattern, in all structs and unions",
        ),
        value(
            "at",
            "TYPE",
            "what a struct has at an offset in bytes, such as 56, 0x38, or 56:3 for a bit",
        )
        .value_names(["TYPE", "OFFSET"])
        .num_args(2),
        value("number", "N", "the type with a number").value_parser(number),
        flag(
            "reorganize",
            "the named structs with their members in a better order, if one is smaller",
        ),
        value(
            "show",
            "WORD",
            "TYPE FILE [OFFSET] [COUNT]: the records of a file as values of a type, from an offset \
             on; give it last",
        )
        .num_args(1..),
        flag(
            "c",
            "declarations that a C compiler accepts, of all types or of the named ones with what \
             they need",
        ),
        value("svg", "TYPE", "a picture of a struct or union"),
        flag("svg-sizes", "a picture of all structs and unions by their bytes"),
        value("complete", "TEXT", "the names of types that begin so").hide(true),
    ]
}

/// The options for how answers are printed.
fn manners() -> Vec<Arg> {
    vec![
        word("sort", Order::WORDS, "the order of --sizes (size) and --holes (holes)"),
        flag("recursive", "--contains and --uses: inside named structs too"),
        flag("expand", "write the structs that a type holds in place"),
        value("cachelines", "N", "the bytes of a cache line (64)")
            .value_parser(value_parser!(u64).range(1..))
            .default_value(CACHE_LINE)
            .hide_default_value(true),
        flag("json", "a JSON object on each line"),
        flag("hex", "offsets, sizes and values in hexadecimal"),
        flag("all", "all types with the name, hidden ones too"),
        flag("plain", "only C, without offsets"),
    ]
}

/// The options for what is read.
fn inputs() -> Vec<Arg> {
    vec![
        file("parent", "the parent of FILE"),
        word(
            "model",
            "lp64|ilp32",
            "whether pointers have 8 bytes or 4, in FILE and in its parent; by default the class of \
             the ELF file, or lp64",
        ),
        value(
            "dictionary",
            "N",
            "which of several dictionaries in a file, such as ld leaves; counted from 1",
        )
        .value_parser(value_parser!(usize)),
        file("symbols", "the program, or its symbol table"),
        file("strings", "the strings of that table"),
        word("from", "ctf|btf|dwarf|gnu", "the form to read; by default the first that a file has"),
        file("base", "the BTF of a module's kernel"),
        value("debug-folder", "FOLDER", "where to look for debug files, before /usr/lib/debug")
            .value_parser(value_parser!(PathBuf))
            .action(ArgAction::Append),
        arguments::store(),
        flag("no-cache", "for older scripts: nothing is kept, so nothing changes").hide(true),
        value("service", "CTFD", "for older scripts: the library in this command answers")
            .hide(true),
    ]
}
