//! The commands of ctfd in one program, which takes its command from the name by which it is
//! started.
//!
//! All commands share the reader and the library; separate programs would each contain both. A link
//! may have any name: then the name of the program's file counts, else its first argument.

mod arguments;
mod bundle;
mod convert;
mod debuginfo;
mod diff;
mod elsewhere;
mod explore;
mod interrupts;
mod messages;
mod output;
mod packages;
mod progress;
mod show;
mod standard;
mod store;
mod types;
mod wrong_words;

pub use wrong_words::refuse;

use std::ffi::OsString;
use std::path::{Path, PathBuf};
use std::process::ExitCode;

/// A command: takes its words, beginning with the program's name, and returns its exit status.
type Command = fn(Vec<OsString>) -> ExitCode;

const COMMANDS: [(&str, Command); 7] = [
    ("ctfd-convert", convert::main),
    ("ctfd-debuginfo", debuginfo::main),
    ("ctfd-diff", diff::main),
    ("ctfd-explore", explore::main),
    ("ctfd-show", show::main),
    ("ctfd-store", store::main),
    ("ctfd-types", types::main),
];

/// Runs the command that the process was started as, and returns its exit status.
pub fn main() -> ExitCode {
    progress::begin();
    let mut words: Vec<OsString> = std::env::args_os().collect();
    // A link may have another name, so the name of the program's file counts too.
    let file = std::env::current_exe().map(PathBuf::into_os_string).unwrap_or_default();
    if let Some(command) = words.first().and_then(command_of).or_else(|| command_of(&file)) {
        return command(words);
    }
    if let Some(command) = words.get(1).and_then(command_of) {
        words.remove(0);
        return command(words);
    }
    let known: Vec<&str> = COMMANDS.iter().map(|(name, _)| *name).collect();
    messages::warn("ctfd-tools", format!("say which command: {}", known.join(", ")));
    ExitCode::from(messages::REFUSED)
}

/// The command with the file name of a path.
fn command_of(word: &OsString) -> Option<Command> {
    let name = Path::new(word).file_name()?;
    COMMANDS.iter().find(|(known, _)| name == *known).map(|(_, command)| *command)
}
