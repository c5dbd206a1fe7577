//! Stages: folders in a store in which commands write builds, before each complete build is moved
//! into the store in one step.

use super::build_id::BuildId;
use super::builds::{sums_of, Store, INDEX, LONGEST_FILE};
use super::entry::{Entry, ABOUT, PROGRAM, SECTIONS};
use super::folder::Folder;
use super::index::{sum_of, Sums, BUILD_IDS};
use crate::interrupts::{self, Step};
use ctfd_read::error::{Error, Result};
use std::collections::BTreeMap;
use std::fs::File;
use std::path::PathBuf;

/// The prefix of a stage's name.
pub const STAGES: &str = ".ctfd-";
/// The file in a stage that its command locks as long as it runs.
const OWNER: &str = "owner";
/// How many builds are moved at once: at least this many, and more for a large store, whose index
/// is written again each time.
const FEWEST_AT_ONCE: usize = 64;
const SHARE: usize = 16;
/// The approximate size of a line of the index, and the number of lines of a build.
const LINE: usize = 140;
const LINES: usize = 5;

/// What happened to a build.
#[derive(Clone, Copy, Debug, PartialEq, Eq)]
pub enum Change {
    /// It is new.
    Added,
    /// It was different.
    Replaced,
    /// It was the same.
    None,
}

/// The stage of one command, removed with its contents when dropped.
pub struct Stage<'s> {
    store: &'s Store,
    folder: Folder,
    path: PathBuf,
    _owner: File,
}

impl<'s> Stage<'s> {
    /// Makes a stage. Removes the stages of commands that were ended, and mends the index.
    pub fn new(store: &'s Store) -> Result<Stage<'s>> {
        let _lock = store.lock()?;
        let name = free_name(store);
        let path = store.root().path().join(&name);
        let made = interrupts::make(&path, |_| {
            store.root().make(&name).map_err(|error| std::io::Error::other(error.0))
        });
        let folder = made.map_err(|error| Error(error.to_string()))?;
        let stage = Stage { store, _owner: folder.lock(OWNER)?, folder, path };
        let _step = Step::begin();
        stage.take_over()?;
        Ok(stage)
    }

    /// Removes the stages of commands that were ended. These may have moved builds that are missing
    /// or out of date in the index.
    fn take_over(&self) -> Result<()> {
        let left = abandoned_folders(self.store)?;
        let mut doubted = Vec::new();
        for name in &left {
            if let Some(stage) = self.store.root().child(name)? {
                doubted.extend(stage.names()?.iter().filter_map(|name| BuildId::of_digits(name)));
            }
        }
        self.store.mend_index(&self.folder, &doubted)?;
        left.iter().try_for_each(|name| self.store.root().remove(name))
    }

    /// Writes the files of a build to the stage, synced to the disk, and returns their sums.
    pub fn write(&self, entry: &Entry) -> Result<Sums> {
        let _step = Step::begin();
        let folder = self.folder.make(entry.id.digits())?;
        let copies = folder.make(SECTIONS)?;
        let mut sums = Sums::new();
        for (name, bytes) in &entry.files {
            match name.split_once('/') {
                Some((_, name)) => copies.write(name, bytes)?,
                None => folder.write(name, bytes)?,
            }
            sums.insert(name.clone(), sum_of(bytes));
        }
        copies.sync()?;
        folder.sync()?;
        Ok(sums)
    }

    /// How many builds to move at once.
    pub fn count_at_once(&self) -> usize {
        let about = self.store.root().file(INDEX).ok().flatten().map(|file| file.metadata());
        let length = about.and_then(|about| about.ok()).map_or(0, |about| about.len());
        FEWEST_AT_ONCE + length as usize / (LINE * LINES * SHARE)
    }

    /// Moves builds from the stage into the store and its index. Returns what happened to each.
    pub fn put(&self, written: BTreeMap<BuildId, Sums>) -> Result<Vec<Change>> {
        if written.is_empty() {
            return Ok(Vec::new());
        }
        let _lock = self.store.lock()?;
        let _step = Step::begin();
        let builds = self.store.root().make(BUILD_IDS)?;
        let known = self.store.sums()?;
        let (mut changes, mut told) = (BTreeMap::new(), Vec::new());
        for (id, mut sums) in written {
            let change = self.put_build(&builds, &id, &mut sums, known.get(&id))?;
            told.push(change);
            changes.insert(id, sums);
        }
        builds.sync()?;
        if told.iter().any(|change| *change != Change::None) {
            self.store.change_index(&self.folder, &changes)?;
        }
        // Until here these folders mark builds that the index may not have as they are.
        changes.keys().try_for_each(|id| self.folder.remove(id.digits()))?;
        Ok(told)
    }

    /// Moves a build into the store, in exchange for an older one; a program that the older one had
    /// is kept.
    fn put_build(
        &self,
        builds: &Folder,
        id: &BuildId,
        sums: &mut Sums,
        known: Option<&Sums>,
    ) -> Result<Change> {
        let digits = id.digits();
        let Some(old) = builds.child(digits)? else {
            self.folder.move_to(digits, builds, digits)?;
            return Ok(Change::Added);
        };
        let old_sums = sums_of(&old)?;
        if let (None, Some(sum)) = (sums.get(PROGRAM), old_sums.get(PROGRAM)) {
            if let Some(new) = self.folder.child(digits)? {
                new.link(PROGRAM, &old, LONGEST_FILE)?;
                new.sync()?;
            }
            sums.insert(PROGRAM.to_owned(), sum.clone());
        }
        let is_same = old_sums == *sums;
        match is_same {
            true => old.touch(ABOUT)?,
            false => self.folder.exchange(digits, builds)?,
        }
        Ok(if is_same && known == Some(sums) { Change::None } else { Change::Replaced })
    }

    /// Removes builds from the store, and returns how many there were.
    pub fn take(&self, ids: &[BuildId]) -> Result<usize> {
        let _lock = self.store.lock()?;
        let _step = Step::begin();
        let mut changes = BTreeMap::new();
        if let Some(builds) = self.store.root().child(BUILD_IDS)? {
            for id in ids {
                if builds.child(id.digits())?.is_some() {
                    builds.move_to(id.digits(), &self.folder, id.digits())?;
                    changes.insert(id.clone(), Sums::new());
                }
            }
        }
        if !changes.is_empty() {
            self.store.change_index(&self.folder, &changes)?;
        }
        Ok(changes.len())
    }
}

impl Drop for Stage<'_> {
    fn drop(&mut self) {
        interrupts::unmake(&self.path);
    }
}

/// A name for a new stage.
fn free_name(store: &Store) -> String {
    let process = std::process::id();
    let mut names = (0..u32::MAX).map(|turn| format!("{STAGES}{process}-{turn}"));
    names.find(|name| !store.root().is_folder(name)).unwrap_or_default()
}

/// The stages of commands that no longer run.
pub fn abandoned_folders(store: &Store) -> Result<Vec<String>> {
    let mut made = Vec::new();
    for name in store.root().names()?.into_iter().filter(|name| name.starts_with(STAGES)) {
        if let Some(stage) = store.root().child(&name)? {
            if !stage.is_locked(OWNER)? {
                made.push(name);
            }
        }
    }
    Ok(made)
}
