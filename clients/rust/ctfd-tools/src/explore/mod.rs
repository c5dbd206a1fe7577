//! `ctfd-explore`: one page with all types, functions and variables of some files.

mod options;
mod rows;

use crate::elsewhere;
use crate::standard;
use crate::types::crowded::{is_crowded, CROWDED};
use crate::types::failure::{Failure, Outcome};
use crate::types::open::{display_path, handed_by, with_catalog, without_parent, Parents};
use crate::types::output::{self, Output};
use crate::types::warn_by;
use ctfd_read::error::reason;
use options::{Words, NAME};
use rows::Rows;
use std::ffi::OsString;
use std::io::Write as _;
use std::path::Path;
use std::process::ExitCode;

const FAILED: u8 = 1;
/// The size in bytes above which a message says that the page is large.
const BIGGEST: usize = 20_000_000;
/// The page, and the placeholder for the types in it.
const PAGE: &str = include_str!("page.html");
const PLACE: &str = "\"{types}\"";

/// Runs the command, and returns its exit status.
pub fn main(words: Vec<OsString>) -> ExitCode {
    let words = Words::parse(words);
    if standard::is_output_closed() {
        warn_by(NAME, standard::CLOSED);
        return ExitCode::from(FAILED);
    }
    match run(&words) {
        Ok(()) => ExitCode::SUCCESS,
        Err(Failure::Unwritten(error)) => output::lost(NAME, FAILED, &error),
        Err(Failure::Unknown(said) | Failure::Refused(said)) => {
            warn_by(NAME, &said);
            ExitCode::from(FAILED)
        }
    }
}

fn run(words: &Words) -> Outcome<()> {
    let parents = Parents::new(NAME, words.parent.as_deref(), words.reading.model);
    let mut rows = Rows::new(words.parent.as_deref());
    for path in &words.files {
        add(words, &parents, path, &mut rows)?;
    }
    let told = rows.json();
    let (front, behind) = PAGE.split_once(PLACE).unwrap_or((PAGE, ""));
    let bytes = front.len() + told.len() + behind.len();
    if bytes > BIGGEST {
        warn_by(NAME, &format!("the page has {bytes} bytes; of fewer files it is smaller"));
    }
    let parts = [front, &told, behind];
    if words.output.as_os_str() == "-" {
        let mut output = Output::new();
        parts.iter().try_for_each(|part| output.write_all(part.as_bytes()))?;
        return Ok(output.flush()?);
    }
    std::fs::write(&words.output, parts.concat()).map_err(|error| {
        Failure::Refused(format!("{}: {}", display_path(&words.output), reason(&error)))
    })
}

/// Adds the types of a file.
fn add(words: &Words, parents: &Parents<'_>, path: &Path, rows: &mut Rows) -> Outcome<()> {
    let image = elsewhere::open(path, &words.reading)?;
    let mut found = handed_by(NAME, &image, &words.reading, words.parent.is_some())?;
    if found.has_more_names() {
        found.add_names();
    }
    with_catalog(path, &found, parents, |opened| {
        let catalog = opened.catalog;
        if catalog.is_child() && words.parent.is_none() {
            return Err(without_parent(path, catalog));
        }
        if is_crowded(catalog) {
            return Err(Failure::Refused(format!("{}: {CROWDED}", display_path(path))));
        }
        rows.add(path, catalog, opened.handed);
        Ok(())
    })
}
