//! An open store: its builds, and its index with the sums of their files.

use super::build_id::BuildId;
use super::entry::{ABOUT, DEBUG_FILE, DICTIONARY, SECTIONS};
use super::folder::Folder;
use super::index::{self, sum_of, with_changes, Sums, BUILD_IDS};
use ctfd_read::error::{refuse, Error, Result};
use rayon::prelude::*;
use std::collections::BTreeMap;
use std::fs::{self, File};
use std::io::ErrorKind;
use std::path::Path;
use std::time::SystemTime;

/// The name of the index.
pub const INDEX: &str = "SHA256SUMS";
/// The name of the file that commands lock while they write to the store.
pub const LOCK: &str = ".lock";
/// The size limits of a file and of the index, in bytes.
pub const LONGEST_FILE: u64 = 1 << 32;
const LONGEST_INDEX: u64 = 1 << 32;
/// A store.
pub struct Store {
    root: Folder,
}

impl Store {
    /// Opens the store in a folder.
    pub fn open(path: &Path) -> Result<Store> {
        Ok(Store { root: Folder::open(path)? })
    }

    /// Opens a store for writing; makes the folder if there is none.
    pub fn open_to_write(path: &Path) -> Result<Store> {
        match fs::create_dir(path) {
            Err(error) if error.kind() != ErrorKind::AlreadyExists => {
                return Err(Error::from(error).of(path.display()))
            }
            _ => {} // another add may make it at the same time
        }
        let store = Store::open(path)?;
        store.root.judge_owner()?;
        store.root.make(BUILD_IDS)?.judge_owner()?;
        Ok(store)
    }

    pub fn root(&self) -> &Folder {
        &self.root
    }

    /// The folder of a build, if there is one.
    pub fn build(&self, id: &BuildId) -> Result<Option<Folder>> {
        match self.root.child(BUILD_IDS)? {
            Some(builds) => builds.child(id.digits()),
            None => Ok(None),
        }
    }

    /// The names in the folder of builds.
    pub fn names(&self) -> Result<Vec<String>> {
        self.root.child(BUILD_IDS)?.map_or(Ok(Vec::new()), |builds| builds.names())
    }

    /// Its builds, in order.
    pub fn builds(&self) -> Result<Vec<BuildId>> {
        Ok(self.names()?.iter().filter_map(|name| BuildId::of_digits(name)).collect())
    }

    /// The text of the index; empty if there is none.
    pub fn index(&self) -> Result<String> {
        let path = self.root.path().join(INDEX);
        let bytes = self.root.bytes(INDEX, LONGEST_INDEX)?.unwrap_or_default();
        String::from_utf8(bytes).map_err(|_| Error(format!("{}: it is no text", path.display())))
    }

    /// All sums of the index.
    pub fn sums(&self) -> Result<BTreeMap<BuildId, Sums>> {
        index::sums(&self.index()?).map_err(|error| self.index_error(error))
    }

    /// Refuses a file that differs from the index, if there is an index.
    pub fn judge_file(&self, id: &BuildId, name: &str, bytes: &[u8]) -> Result<()> {
        match self.root.file(INDEX)? {
            Some(index) => judge(&index, &self.root.path().join(INDEX), id, name, bytes),
            None => Ok(()),
        }
    }

    fn index_error(&self, error: Error) -> Error {
        let path = self.root.path().join(INDEX);
        Error(format!("{}: {error}: remove it, and the next add makes it anew", path.display()))
    }

    /// Waits until no other command writes, and keeps others waiting as long as the file is open.
    pub fn lock(&self) -> Result<File> {
        self.root.lock(LOCK)
    }

    /// Writes the index again, with new sums for some builds.
    pub fn change_index(&self, stage: &Folder, changes: &BTreeMap<BuildId, Sums>) -> Result<()> {
        let made =
            with_changes(&self.index()?, changes).map_err(|error| self.index_error(error))?;
        stage.write(INDEX, made.as_bytes())?;
        stage.move_to(INDEX, &self.root, INDEX)?;
        self.root.sync()
    }

    /// Brings the index up to date: adds and removes builds that came or went without it, and sums
    /// the files of the doubted builds again. The sums of other builds stay.
    pub fn mend_index(&self, stage: &Folder, doubted: &[BuildId]) -> Result<()> {
        let (known, there) = (self.sums()?, self.builds()?);
        let is_there = |id: &BuildId| there.binary_search(id).is_ok();
        let gone = known.keys().filter(|id| !is_there(id));
        let mut changes: BTreeMap<BuildId, Sums> =
            gone.map(|id| (id.clone(), Sums::new())).collect();
        let is_open = |id: &&BuildId| !known.contains_key(id) || doubted.contains(id);
        let open: Vec<&BuildId> = there.iter().filter(is_open).collect();
        let summed = open.par_iter().filter_map(|id| Some(((*id).clone(), self.sums_there(id)?)));
        changes.extend(summed.collect::<Vec<_>>());
        changes.retain(|id, sums| known.get(id) != Some(sums));
        match changes.is_empty() {
            true => Ok(()),
            false => self.change_index(stage, &changes),
        }
    }

    /// The sums of a build's files; None if the build is not complete, which `check` reports.
    fn sums_there(&self, id: &BuildId) -> Option<Sums> {
        let sums = sums_of(&self.build(id).ok()??).ok()?;
        let dictionary = format!("{SECTIONS}/{DICTIONARY}");
        [DEBUG_FILE, ABOUT, &dictionary].iter().all(|name| sums.contains_key(*name)).then_some(sums)
    }
}

/// Refuses a file that differs from an index.
pub fn judge_by_index(path: &Path, id: &BuildId, name: &str, bytes: &[u8]) -> Result<()> {
    let index = File::open(path).map_err(|error| Error::from(error).of(path.display()))?;
    judge(&index, path, id, name, bytes)
}

fn judge(index: &File, path: &Path, id: &BuildId, name: &str, bytes: &[u8]) -> Result<()> {
    let found = index::sum_in(index, id, name).map_err(|error| error.of(path.display()))?;
    match found {
        Some(sum) if sum == sum_of(bytes) => Ok(()),
        Some(_) => refuse(format!("{name} is not the file that {} has", path.display())),
        None => refuse(format!("{} does not have {name} of it", path.display())),
    }
}

/// The sums of a build's files, computed without the index.
pub fn sums_of(build: &Folder) -> Result<Sums> {
    let mut made = Sums::new();
    let mut add = |folder: &Folder, front: &str, name: &str| -> Result<()> {
        if let Some(bytes) = folder.bytes(name, LONGEST_FILE)? {
            made.insert(format!("{front}{name}"), sum_of(&bytes));
        }
        Ok(())
    };
    for name in build.names()? {
        match build.is_folder(&name) {
            false => add(build, "", &name)?,
            true => {
                if let Some(inner) = build.child(&name)? {
                    let front = format!("{name}/");
                    inner.names()?.iter().try_for_each(|one| add(&inner, &front, one))?;
                }
            }
        }
    }
    Ok(made)
}

/// How long ago a build was last added, in days.
pub fn age_of(build: &Folder) -> Result<u64> {
    const DAY: u64 = 24 * 60 * 60;
    let Some(file) = build.file(ABOUT)? else { return Ok(0) };
    let written = file.metadata()?.modified()?;
    let age = SystemTime::now().duration_since(written).unwrap_or_default();
    Ok(age.as_secs() / DAY)
}
