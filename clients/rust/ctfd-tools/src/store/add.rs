//! `ctfd-store add`: makes a debug file for each build, and puts it into a store.

use super::build_id::BuildId;
use super::builds::Store;
use super::entry::Entry;
use super::index::Sums;
use super::inputs::{Group, Inputs, Refusal};
use super::options::{Adding, NAME};
use super::stage::{Change, Stage};
use crate::messages::{LOSSY, REFUSED};
use crate::progress::Bar;
use crate::types::failure::Outcome;
use crate::types::open::display_path;
use crate::types::output::Output;
use crate::types::warn_by;
use ctfd_read::error::Result;
use ctfd_read::inputs::Options;
use ctfd_read::progress::Progress as _;
use rayon::prelude::*;
use std::collections::BTreeMap;
use std::io::Write as _;
use std::sync::atomic::{AtomicU64, Ordering};
use std::sync::{Mutex, PoisonError};

/// Counts of the added builds.
#[derive(Clone, Copy, Default)]
struct Tally {
    added: usize,
    replaced: usize,
    same: usize,
}

/// Builds that are written in the stage, and wait to be moved into the store.
struct Waiting<'s> {
    stage: &'s Stage<'s>,
    written: BTreeMap<BuildId, Sums>,
    tally: Tally,
    refusals: Vec<Refusal>,
}

impl Waiting<'_> {
    /// Adds a written build, and moves all that wait if these are enough.
    fn take(&mut self, id: BuildId, sums: Sums) -> Result<()> {
        self.written.insert(id, sums);
        match self.written.len() >= self.stage.count_at_once() {
            true => self.put(),
            false => Ok(()),
        }
    }

    /// Moves all that wait into the store.
    fn put(&mut self) -> Result<()> {
        for change in self.stage.put(std::mem::take(&mut self.written))? {
            *match change {
                Change::Added => &mut self.tally.added,
                Change::Replaced => &mut self.tally.replaced,
                Change::None => &mut self.tally.same,
            } += 1;
        }
        Ok(())
    }
}

/// Adds the files of the command line. Refused files are reported, and the others added.
pub fn run(words: &Adding) -> Outcome<u8> {
    let store = Store::open_to_write(&words.store)?;
    let mut inputs = Inputs::of(&words.files);
    let stage = Stage::new(&store)?;
    let waiting = Waiting {
        stage: &stage,
        written: BTreeMap::new(),
        tally: Tally::default(),
        refusals: Vec::new(),
    };
    let waiting = Mutex::new(waiting);
    let done = write_all(words, &inputs, &stage, &waiting);
    let mut waiting = waiting.into_inner().unwrap_or_else(PoisonError::into_inner);
    let put = waiting.put(); // also those that were complete before an error
    let mut refusals = waiting.refusals;
    refusals.extend(std::mem::take(&mut inputs.refusals));
    refusals.sort_unstable();
    for Refusal { path, why } in &refusals {
        warn_by(NAME, &format!("{}: {}", display_path(path), inputs.with_package_name(why)));
    }
    done.and(put)?;
    tell(words, waiting.tally, refusals.len())
}

/// Writes the builds in parallel, up to the first that cannot be written.
fn write_all(
    words: &Adding,
    inputs: &Inputs,
    stage: &Stage<'_>,
    waiting: &Mutex<Waiting<'_>>,
) -> Result<()> {
    let folders = inputs.folders.iter().chain(&words.folders).cloned().collect();
    let reading = Options { folders, is_one: true, ..Options::default() };
    let bar = Bar::new(format!("adding to {}", display_path(&words.store)));
    let (count, total) = (AtomicU64::new(0), inputs.groups.len() as u64);
    let groups: Vec<&Group> = inputs.groups.values().collect();
    let done = groups.par_iter().try_for_each(|group| {
        let made = Entry::of(group, &reading, words.has_programs);
        let written = made.map(|entry| stage.write(&entry).map(|sums| (entry.id, sums)));
        let mut waiting = waiting.lock().unwrap_or_else(PoisonError::into_inner);
        match written {
            Ok(written) => {
                let (id, sums) = written?;
                waiting.take(id, sums)?;
            }
            Err(why) => waiting.refusals.push(Refusal::of(&group.types, why)),
        }
        bar.advance(count.fetch_add(1, Ordering::Relaxed) + 1, total);
        Ok(())
    });
    bar.end();
    done
}

/// Prints how much was added, and returns the exit status.
fn tell(words: &Adding, tally: Tally, refused: usize) -> Outcome<u8> {
    let Tally { added, replaced, same } = tally;
    let mut lines = Output::new();
    let store = display_path(&words.store);
    writeln!(
        lines,
        "{store}: {added} added, {replaced} replaced, {same} the same, {refused} refused"
    )?;
    lines.flush()?;
    Ok(match (added + replaced + same, refused) {
        (_, 0) => 0,
        (0, _) => REFUSED,
        _ => LOSSY,
    })
}
