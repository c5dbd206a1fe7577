//! The command line of `ctfd-show`.

use crate::arguments;
use crate::wrong_words;
use clap::{value_parser, Arg, ArgAction, ArgGroup, ArgMatches, Command};
use ctfd_read::inputs::Options;
use std::ffi::OsString;
use std::os::unix::ffi::OsStringExt as _;
use std::path::PathBuf;
use std::time::Duration;

/// The command's name.
pub const NAME: &str = "ctfd-show";
/// The default and the greatest number of elements that are printed of an array, a text or a list.
const ELEMENTS: usize = 200;
const MOST: usize = 65_536;
const LONGEST_WAIT: f64 = 86_400.0;
const ABOUT: &str = "\
Prints variables of a running process or a core file, by the types in its CTF or its debug
information.

EXPRESSION is one of C: `table.slots[3]->name`, `*head@3`, `*(struct node *) 0x55d0c0`,
`sizeof(struct node)`. A process is not stopped: its memory is read as it is, while it may change.";

/// Where memory is read from.
pub enum Place {
    /// In a process.
    Process(u32),
    /// In a core file.
    Core(PathBuf),
}

/// How often the expressions are evaluated.
pub struct Watch {
    /// The pause between two evaluations.
    pub pause: Duration,
    /// The number of evaluations; if None, it goes on until the process ends or the user interrupts
    /// it.
    pub count: Option<u64>,
}

/// How a linked list is followed.
pub struct Follow {
    /// A node's pointer to the next, or its link.
    pub member: Vec<u8>,
    /// The type that contains the link, if nodes have links.
    pub inside: Option<Vec<u8>>,
}

/// The values of the command line.
pub struct Words {
    /// Where memory is read from.
    pub place: Place,
    pub expressions: Vec<Vec<u8>>,
    /// The program of a core file.
    pub program: Option<PathBuf>,
    /// The file with the program's types.
    pub types: Option<PathBuf>,
    /// The parent of the dictionaries.
    pub parent: Option<PathBuf>,
    /// How files are read.
    pub reading: Options,
    /// How to follow the linked lists whose heads the expressions are.
    pub follow: Option<Follow>,
    /// Whether to print numbers in hexadecimal.
    pub is_hexadecimal: bool,
    /// The most elements that are printed of an array, a text or a list.
    pub elements: usize,
    /// Whether to go on after a refused expression.
    pub goes_on: bool,
    /// How to repeat the expressions, if wanted.
    pub watch: Option<Watch>,
}

impl Words {
    /// Parses the command line. A wrong one ends the process with a message.
    pub fn parse(words: Vec<OsString>) -> Words {
        let matches = wrong_words::parse_words(options(), words);
        let path = |name: &str| matches.get_one::<PathBuf>(name).cloned();
        let place = match (matches.get_one::<u32>("pid"), path("core")) {
            (Some(&pid), _) => Place::Process(pid),
            (None, core) => Place::Core(core.unwrap_or_default()),
        };
        let elements = matches.get_one::<i64>("elements").copied();
        let most = |count: i64| usize::try_from(count.max(1)).unwrap_or(MOST).min(MOST);
        Words {
            place,
            expressions: texts(&matches, "EXPRESSION"),
            program: path("program"),
            types: path("types"),
            parent: path("parent"),
            reading: Options { elsewhere: arguments::stores(&matches), ..Options::default() },
            follow: texts(&matches, "list")
                .pop()
                .map(|member| Follow { member, inside: texts(&matches, "of").pop() }),
            is_hexadecimal: matches.get_flag("hex"),
            elements: elements.map_or(ELEMENTS, most),
            goes_on: matches.get_flag("keep-going"),
            watch: matches
                .get_one::<Duration>("watch")
                .map(|&pause| Watch { pause, count: matches.get_one("count").copied() }),
        }
    }
}

fn texts(matches: &ArgMatches, name: &str) -> Vec<Vec<u8>> {
    let words = matches.get_many::<OsString>(name).unwrap_or_default();
    words.map(|word| word.clone().into_vec()).collect()
}

/// Parses a number of seconds.
fn seconds(word: &str) -> Result<Duration, String> {
    let seconds = word.parse().ok().filter(|&seconds| (0.0..=LONGEST_WAIT).contains(&seconds));
    let seconds = seconds.ok_or_else(|| format!("a number of seconds up to {LONGEST_WAIT}"))?;
    Ok(Duration::from_secs_f64(seconds))
}

fn text(name: &'static str, value: &'static str, help: &'static str) -> Arg {
    let made = Arg::new(name).long(name).value_name(value).help(help);
    made.value_parser(value_parser!(OsString))
}

fn options() -> Command {
    let pid = Arg::new("pid").long("pid").value_name("PID").help("the process");
    let expressions = Arg::new("EXPRESSION").required(true).action(ArgAction::Append).num_args(1..);
    let of_process = [
        pid.value_parser(value_parser!(u32)),
        arguments::file("core", "the core file"),
        arguments::file("program", "the program of the core file, if it is not where that says")
            .requires("core"),
        arguments::file(
            "types",
            "the file with the program's types, if the program has none: a copy of it that has, or \
             a section",
        ),
        arguments::file("parent", "the parent of that"),
    ];
    arguments::command(NAME, ABOUT)
        .arg(expressions.value_parser(value_parser!(OsString)))
        .group(ArgGroup::new("place").args(["pid", "core"]).required(true))
        .args(of_process)
        .arg(arguments::store())
        .args(of_printing())
        .args(of_going_on())
        .arg(arguments::file("service", "for older scripts: the library answers").hide(true))
}

fn of_printing() -> [Arg; 4] {
    let elements = Arg::new("elements")
        .long("elements")
        .value_name("N")
        .help("at most N elements of an array, a text or a list: 200 without it, 65536 at most");
    [
        text(
            "list",
            "MEMBER",
            "print a linked list: EXPRESSION is its first node, or a pointer to it, and MEMBER a \
             node's pointer to the next",
        ),
        text(
            "of",
            "TYPE",
            "with --list: MEMBER is a link inside TYPE that points to the next link, as the \
             kernel's list_head does, and EXPRESSION is the head of the list",
        )
        .requires("list"),
        arguments::flag("hex", "numbers in hexadecimal"),
        elements.value_parser(value_parser!(i64)).allow_negative_numbers(true),
    ]
}

fn of_going_on() -> [Arg; 3] {
    let watch = Arg::new("watch").long("watch").value_name("SECONDS").help(
        "look again every so many seconds, and print what has changed, until the process ends or \
         you interrupt it",
    );
    let count = Arg::new("count").long("count").value_name("N").requires("watch");
    [
        arguments::flag("keep-going", "answer the other EXPRESSIONs where one is refused"),
        watch.value_parser(seconds),
        count.value_parser(value_parser!(u64).range(1..)).help("with --watch: look N times"),
    ]
}
