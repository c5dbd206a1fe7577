//! The command line.

use crate::builds::{Store, QUOTA};
use crate::limits::{Limits, LONGEST_LINE, MOST_SESSIONS};
use crate::Refuse;
use clap::{value_parser, Arg, ArgAction, ArgMatches, Command};
use std::ffi::OsString;
use std::path::PathBuf;
use std::time::Duration;

const ABOUT: &str = "Lets many clients use one ctfd, over a socket.

Each connection is a session of its own, whatever number the client writes. A line without `s` is answered with that number; others take by it what it \
publishes. Each NAME=FILE is published for all, who take it from owner 0.";

const STATUSES: &str = "\
The status is 0 if SIGTERM or SIGINT ended it; 1 if a file was refused, 3 if one can't be read and \
4 if memory is short for one; 2 for a wrong command line; 5 if the socket can't be had; 6 if a \
shard ended by itself, which is a bug; 7 if all session numbers were given. SIGUSR1 writes \
statistics to standard error.";

const IN_PROCESS: &str = "the service is in this process";
const ANSWERED_FIRST: &str = "what is read is answered before more is read";

/// The command that reads a store.
const CONVERTER: &str = "ctfd-convert";
const MOST_SHARDS: u64 = 256;
/// The greatest value of an option without a limit of its own.
const MOST: u64 = u32::MAX as u64 * 1_024;
const MOST_SECONDS: f64 = 1e9;

/// The options of the command line.
pub struct Options {
    pub files: Vec<OsString>,
    pub socket: Option<PathBuf>,
    pub mode: u32,
    pub group: Option<String>,
    pub shards: usize,
    pub withdraws: bool,
    pub stats: Option<Duration>,
    pub metrics: Option<PathBuf>,
    pub limits: Limits,
    /// The store of types by build-id, if there is one.
    pub store: Option<Store>,
    /// The limit on the memory of all services, in bytes, if there is one.
    pub service_memory: Option<u64>,
    /// Options of earlier versions that have no effect, and why.
    pub ignored: Vec<(&'static str, &'static str)>,
}

/// Parses the command line. A wrong one ends the process with status 2.
pub fn options(words: impl IntoIterator<Item = OsString>, refuse: Refuse) -> Options {
    let matches =
        command().try_get_matches_from(words).unwrap_or_else(|error| refuse(&command(), &error));
    let limits = limits(&matches);
    let files = matches.get_many("files").unwrap_or_default().cloned().collect();
    let ignored = [
        ("restart", IN_PROCESS, matches.get_flag("restart")),
        ("service", IN_PROCESS, matches.contains_id("service")),
        ("lines", ANSWERED_FIRST, matches.contains_id("lines")),
    ];
    Options {
        files,
        socket: matches.get_one("socket").cloned(),
        mode: matches.get_one("mode").copied().unwrap_or(0o660),
        group: matches.get_one("group").cloned(),
        shards: matches.get_one::<u64>("processes").map_or(1, |shards| *shards as usize),
        withdraws: matches.get_flag("withdraw"),
        stats: matches.get_one("stats").copied(),
        metrics: matches.get_one("metrics").cloned(),
        limits,
        store: store(&matches),
        service_memory: matches.get_one("service-memory").copied(),
        ignored: ignored
            .into_iter()
            .filter_map(|(name, why, is_given)| is_given.then_some((name, why)))
            .collect(),
    }
}

fn command() -> Command {
    let defaults = Limits::default();
    Command::new("ctfd-front")
        .version(env!("CARGO_PKG_VERSION"))
        .about(ABOUT)
        .after_help(STATUSES)
        .max_term_width(100)
        .infer_long_args(true)
        .args_override_self(true)
        .arg(
            Arg::new("files")
                .value_name("NAME=FILE")
                .num_args(0..)
                .value_parser(value_parser!(OsString))
                .help("a CTF section that all may take from owner 0"),
        )
        .args(of_the_socket())
        .args(of_the_service())
        .args(of_counts(&defaults))
        .args(of_bytes(&defaults))
        .args(of_times(&defaults))
}

fn of_the_socket() -> [Arg; 3] {
    [
        path("socket", "PATH").help(
            "where clients find it; a socket on which nobody listens is replaced. By default the \
             socket that systemd hands over (LISTEN_FDS)",
        ),
        option("mode", "MODE")
            .value_parser(mode)
            .default_value("660")
            .help("who may connect, as for chmod"),
        option("group", "GROUP").help("the group of the socket"),
    ]
}

fn of_the_service() -> [Arg; 10] {
    [
        path("store", "DIR").help(
            "a folder of ctfd-store: by the name of a build-id all take its types from owner \
             4294967295",
        ),
        size(
            "store-memory",
            QUOTA,
            QUOTA,
            "bytes of its types that a shard has published at once; those go that were taken \
             longest ago",
        ),
        option("processes", "N")
            .value_parser(value_parser!(u64).range(1..=MOST_SHARDS))
            .default_value("1")
            .help(
                "how many shards, each a thread with a service of its own. Clients that meet name \
                 a room in their first line, {\"op\":\"room\",\"name\":\"NAME\"}: it lives in one \
                 of them",
            ),
        Arg::new("withdraw")
            .long("withdraw")
            .action(ArgAction::SetTrue)
            .help("withdraw what a client has published when its connection ends"),
        option("stats", "SECONDS")
            .value_parser(seconds)
            .help("write statistics to standard error, so often; by default only at SIGUSR1"),
        path("metrics", "FILE").help(
            "write statistics there too, for the textfile collector of Prometheus' node exporter, \
             so often or each 15 seconds",
        ),
        option("service-memory", "N").value_parser(value_parser!(u64).range(1..=MOST)).help(
            "bytes that all services may have together, beside what --memory bounds; a request \
             that needs more is refused as Memory. By default there is no limit",
        ),
        Arg::new("restart")
            .long("restart")
            .action(ArgAction::SetTrue)
            .help("for older scripts: the service is in this process, and ends with it"),
        option("service", "CTFD").help("for older scripts: the service is in this process"),
        option("lines", "N")
            .value_parser(value_parser!(u64).range(1..=MOST))
            .help("for older scripts: what is read is answered before more is"),
    ]
}

/// An option with a number from 1 to `most`.
fn size(name: &'static str, default: u64, most: u64, help: &str) -> Arg {
    option(name, "N")
        .value_parser(value_parser!(u64).range(1..=most))
        .help(format!("{help} [default: {default}]"))
}

fn of_counts(limits: &Limits) -> [Arg; 6] {
    let count = |name, default: usize, help| size(name, default as u64, MOST, help);
    let help = "sessions in all; then the front ends";
    [
        count("connections", limits.connections, "connections; one more is told so and closed"),
        count("user-connections", limits.user_connections, "connections of one user"),
        size("sessions", limits.sessions, MOST_SESSIONS, help),
        count("user-sessions", limits.user_sessions, "sessions of one user in an hour"),
        count("ahead", limits.ahead, "lines of a connection that are answered in a turn"),
        count("user-ahead", limits.user_ahead, "the same: the smaller of both counts"),
    ]
}

fn of_bytes(limits: &Limits) -> [Arg; 5] {
    let count = |name, default: usize, help| size(name, default as u64, MOST, help);
    let line = "bytes of a line; a longer one is refused as LongLine";
    let bytes =
        "bytes of a connection that are read at once; they are answered before more is read";
    let unread = "bytes of replies that a client has not read; then its next line waits";
    let memory = "bytes kept for all connections; then the one that asked for more is closed";
    let of_user = "bytes kept for one user's connections; then the same";
    [
        size("line", limits.line as u64, LONGEST_LINE as u64, line),
        count("bytes", limits.bytes, bytes),
        count("unread", limits.unread, unread),
        count("memory", limits.memory, memory),
        count("user-memory", limits.user_memory, of_user),
    ]
}

fn of_times(limits: &Limits) -> [Arg; 3] {
    let time = |name, default: Duration, help| {
        option(name, "SECONDS")
            .value_parser(seconds)
            .help(format!("{help} [default: {}]", default.as_secs()))
    };
    [
        time("idle", limits.idle, "a connection that sends nothing for so long is closed"),
        time(
            "stalled",
            limits.stalled,
            "so is one with half a line, or with replies that it does not read",
        ),
        time(
            "grace",
            limits.grace,
            "how long clients have to read their last replies when the front ends",
        ),
    ]
}

fn option(name: &'static str, value: &'static str) -> Arg {
    Arg::new(name).long(name).value_name(value).allow_hyphen_values(true)
}

fn path(name: &'static str, value: &'static str) -> Arg {
    option(name, value).value_parser(value_parser!(PathBuf))
}

/// The store on the command line. The command next to this one reads it.
fn store(matches: &ArgMatches) -> Option<Store> {
    let folder = matches.get_one::<PathBuf>("store")?;
    let folder = folder.canonicalize().unwrap_or_else(|_| folder.clone());
    let own = std::env::current_exe().unwrap_or_default();
    let most = matches.get_one("store-memory").copied().unwrap_or(QUOTA);
    Some(Store { folder, converter: own.with_file_name(CONVERTER), most })
}

fn limits(matches: &ArgMatches) -> Limits {
    let defaults = Limits::default();
    let size = |name, default| {
        let size = matches.get_one::<u64>(name).copied();
        size.map_or(default, |size| usize::try_from(size).unwrap_or(usize::MAX))
    };
    let time = |name, default| matches.get_one::<Duration>(name).copied().unwrap_or(default);
    Limits {
        connections: size("connections", defaults.connections),
        user_connections: size("user-connections", defaults.user_connections),
        line: size("line", defaults.line),
        bytes: size("bytes", defaults.bytes),
        unread: size("unread", defaults.unread),
        memory: size("memory", defaults.memory),
        user_memory: size("user-memory", defaults.user_memory),
        sessions: matches.get_one("sessions").copied().unwrap_or(defaults.sessions),
        user_sessions: size("user-sessions", defaults.user_sessions),
        ahead: size("ahead", defaults.ahead),
        user_ahead: size("user-ahead", defaults.user_ahead),
        idle: time("idle", defaults.idle),
        stalled: time("stalled", defaults.stalled),
        grace: time("grace", defaults.grace),
    }
}

fn seconds(text: &str) -> Result<Duration, String> {
    let seconds: f64 = text.parse().map_err(|_| "no number of seconds".to_owned())?;
    if seconds > 0.0 && seconds < MOST_SECONDS {
        Ok(Duration::from_secs_f64(seconds))
    } else {
        Err("more than 0 seconds and less than 1e9 are wanted".into())
    }
}

fn mode(text: &str) -> Result<u32, String> {
    let mode = u32::from_str_radix(text, 8).ok().filter(|mode| mode & !0o777 == 0);
    mode.ok_or_else(|| "octal digits up to 777 are wanted".into())
}

#[cfg(test)]
mod tests {
    use super::*;

    fn options_of(words: &[&str]) -> Options {
        options(["ctfd-front"].iter().chain(words).map(OsString::from), |_, error| error.exit())
    }

    #[test]
    fn the_command_line_is_consistent() {
        command().debug_assert();
        let options = options_of(&[]);
        let wanted = Limits::default();
        assert_eq!(format!("{:?}", options.limits), format!("{wanted:?}"));
        assert_eq!((options.mode, options.shards, options.files.len()), (0o660, 1, 0));
    }

    #[test]
    fn words_are_read() {
        let options =
            options_of(&["--idle", "0.5", "a=b", "--mode=600", "--user-mem", "7", "--", "-c=d"]);
        assert_eq!(options.limits.idle, Duration::from_millis(500));
        assert_eq!((options.mode, options.limits.user_memory), (0o600, 7));
        assert_eq!(options.files, ["a=b", "-c=d"]);
    }

    #[test]
    fn wrong_words_are_refused() {
        for words in [["--line", "1048577"], ["--lines", "0"], ["--idle", "-1"], ["--mode", "9"]] {
            let words = ["ctfd-front"].iter().chain(&words);
            let why = command().try_get_matches_from(words).unwrap_err();
            assert!(why.use_stderr(), "{why}");
        }
    }
}
