//! `ctfd-store remove`: removes builds from a store.

use super::build_id::BuildId;
use super::builds::{age_of, Store};
use super::options::Removing;
use super::stage::Stage;
use crate::types::failure::{Failure, Outcome};
use crate::types::open::display_path;
use crate::types::output::Output;
use ctfd_read::error::Result;
use std::io::Write as _;

/// Removes the builds of the command line. If one does not exist, nothing is removed.
pub fn run(words: &Removing) -> Outcome<u8> {
    let store = Store::open_to_write(&words.store)?;
    let mut ids = Vec::new();
    for word in &words.ids {
        let Some(id) = build_of(&store, word)? else {
            let store = display_path(&words.store);
            return Err(Failure::Refused(format!("{store} has no build {word}")));
        };
        ids.push(id);
    }
    if let Some(days) = words.older {
        ids.extend(older(&store, days)?);
    }
    let count = Stage::new(&store)?.take(&ids)?;
    let mut lines = Output::new();
    writeln!(lines, "{}: {count} removed", display_path(&words.store))?;
    lines.flush()?;
    Ok(0)
}

/// The build of a store that a word names, if there is one.
fn build_of(store: &Store, word: &str) -> Result<Option<BuildId>> {
    let Some(id) = BuildId::of_digits(&word.to_lowercase()) else { return Ok(None) };
    Ok(store.build(&id)?.map(|_| id))
}

/// The builds that were last added more than so many days ago.
fn older(store: &Store, days: u64) -> Result<Vec<BuildId>> {
    let mut made = Vec::new();
    for id in store.builds()? {
        if let Some(build) = store.build(&id)? {
            if age_of(&build)? > days {
                made.push(id);
            }
        }
    }
    Ok(made)
}
