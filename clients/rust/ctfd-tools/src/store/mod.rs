//! `ctfd-store`: keeps the types of programs by build-id, in a folder with debuginfod's layout.

mod about;
mod add;
mod build_id;
mod builds;
mod check;
mod entry;
mod fetch;
mod folder;
mod index;
mod inputs;
mod listing;
mod missing;
mod options;
mod remove;
mod stage;

pub use build_id::BuildId;
pub use builds::{judge_by_index, Store};
pub use entry::{DEBUG_FILE, DICTIONARY, SECTIONS};
pub use folder::Folder;
pub use index::sum_of;

use crate::interrupts;
use crate::messages::REFUSED;
use crate::standard;
use crate::types::failure::Failure;
use crate::types::output as printing;
use crate::types::warn_by;
use options::{Words, NAME};
use std::ffi::OsString;
use std::process::ExitCode;

/// Runs the command, and returns its exit status.
pub fn main(words: Vec<OsString>) -> ExitCode {
    let words = Words::parse(words);
    if standard::is_output_closed() {
        warn_by(NAME, standard::CLOSED);
        return ExitCode::from(REFUSED);
    }
    interrupts::watch();
    let done = match &words {
        Words::Add(words) => add::run(words),
        Words::Check(store) => check::run(store),
        Words::Fetch(words) => fetch::run(words),
        Words::List(store, is_json) => listing::list(store, *is_json),
        Words::Missing(store) => missing::run(store),
        Words::Remove(words) => remove::run(words),
        Words::Stats(store) => listing::stats(store),
    };
    match done {
        Ok(status) => ExitCode::from(status),
        Err(Failure::Unwritten(error)) => printing::lost(NAME, REFUSED, &error),
        Err(Failure::Unknown(said) | Failure::Refused(said)) => {
            warn_by(NAME, &said);
            ExitCode::from(REFUSED)
        }
    }
}
