//! `ctfd-types`: prints the types of a program.

pub mod catalog;
mod copies;
pub mod crowded;
pub mod declare;
mod drawing;
pub mod embeds;
pub mod failure;
mod figures;
mod file_types;
mod header;
pub mod json;
mod layout;
pub mod listing;
pub mod lookup;
mod members;
pub mod names;
pub mod open;
mod options;
pub mod output;
mod picture;
mod record;
mod records;
mod reorganize;
mod report;
pub mod symbol_lists;
pub mod symbols;
pub mod text;
mod treemap;
mod volumes;

use crate::messages;
use crate::standard;
use failure::{Failure, Outcome};
use open::Parents;
use options::{Words, NAME};
use output::{Output, TitledOutput};
use std::ffi::OsString;
use std::io::Write as _;
use std::os::unix::ffi::OsStrExt as _;
use std::process::ExitCode;

const FAILED: u8 = 1;

/// Runs the command, and returns its exit status.
pub fn main(words: Vec<OsString>) -> ExitCode {
    let words = Words::parse(words);
    if standard::is_output_closed() {
        warn(standard::CLOSED);
        return ExitCode::from(FAILED);
    }
    let mut output = Output::new();
    let status = run(&words, &mut output);
    let written = output.flush().map_err(Failure::from);
    match status.and_then(|status| written.map(|()| status)) {
        Ok(status) => ExitCode::from(status),
        Err(Failure::Unwritten(error)) => output::lost(NAME, FAILED, &error),
        Err(Failure::Unknown(said) | Failure::Refused(said)) => {
            warn(&said);
            ExitCode::from(FAILED)
        }
    }
}

/// Prints a line to standard error.
fn warn(line: &str) {
    warn_by(NAME, line);
}

/// Prints a line to standard error for a command, with escaped control characters.
pub fn warn_by(command: &str, line: &str) {
    messages::warn(command, text::printable(line.as_bytes()));
}

/// Reports on all files in order. A file that does not have what is wanted is skipped if another
/// has it.
fn run(words: &Words, output: &mut Output) -> Outcome<u8> {
    let parents = Parents::new(NAME, words.parent.as_deref(), words.reading.model);
    let mut missed = Vec::new();
    let mut status = 0;
    for path in &words.files {
        let mut titled = TitledOutput::new(output, title(words, path.as_os_str().as_bytes()));
        match report::file(words, &parents, path, &mut titled) {
            Ok(is_whole) => {
                titled.begin()?;
                let is_show = matches!(words.question, options::Question::Show(_));
                status = if is_whole || is_show { status } else { FAILED };
            }
            Err(Failure::Unknown(said)) => missed.push(said),
            Err(failure) => return Err(failure),
        }
    }
    match missed.len() == words.files.len() {
        true => Err(Failure::Unknown(missed.swap_remove(0))),
        false => Ok(status),
    }
}

/// The line before a file's answer, if there are several files.
fn title(words: &Words, path: &[u8]) -> Option<String> {
    let is_wanted = words.files.len() > 1 && !words.is_json;
    is_wanted.then(|| format!("{}:\n", text::printable(path)))
}
