//! A cache of what servers sent, in a folder that only the user can read and write. Entries expire
//! after a week.

use super::place::LONGEST;
use crate::output;
use crate::store::{sum_of, BuildId, Folder};
use ctfd_read::error::Result;
use std::env;
use std::path::{Path, PathBuf};
use std::time::{Duration, SystemTime};

const WEEK: Duration = Duration::from_secs(7 * 24 * 60 * 60);
/// The number of digits of a URL's hash that name the folder of a server.
const DIGITS: usize = 16;
/// The path of the cache in the user's cache folder.
const FOLDERS: [&str; 2] = ["ctfd", "store"];

/// The cache for a server.
pub struct Cache {
    folder: Folder,
    /// The temporary folder, if the user has no usable cache folder.
    _temporary: Option<output::Folder>,
}

/// The user's cache folder; None if the environment names none.
fn home() -> Option<PathBuf> {
    let named = |name: &str| env::var_os(name).filter(|path| !path.is_empty()).map(PathBuf::from);
    named("XDG_CACHE_HOME").or_else(|| Some(named("HOME")?.join(".cache")))
}

/// The folder of the cache, in the user's cache folder. Fails if others may read or write it.
fn own_folder(home: &Path) -> Result<Folder> {
    std::fs::create_dir_all(home)?;
    FOLDERS.iter().try_fold(Folder::open(home)?, |folder, name| folder.make_private(name))
}

impl Cache {
    /// The cache for a server.
    pub fn open(url: &str) -> Result<Cache> {
        let name = &sum_of(url.as_bytes())[..DIGITS];
        let kept = home().and_then(|home| own_folder(&home).ok());
        if let Some(kept) = kept {
            return Ok(Cache { folder: kept.make_private(name)?, _temporary: None });
        }
        let temporary = output::Folder::new()?;
        let folder = Folder::open(temporary.path())?;
        Ok(Cache { folder, _temporary: Some(temporary) })
    }

    /// The path of the folder.
    pub fn folder(&self) -> &Path {
        self.folder.path()
    }

    /// The entry for a build; None if there is none, or if it expired.
    pub fn bytes(&self, id: &BuildId) -> Result<Option<Vec<u8>>> {
        let Some(file) = self.folder.file(id.digits())? else { return Ok(None) };
        let age = SystemTime::now().duration_since(file.metadata()?.modified()?);
        match age.is_ok_and(|age| age < WEEK) {
            true => self.folder.bytes(id.digits(), 4 * LONGEST),
            false => Ok(None),
        }
    }

    /// Stores an entry for a build.
    pub fn keep(&self, id: &BuildId, bytes: &[u8]) -> Result<()> {
        output::write(&self.folder().join(id.digits()), bytes)
    }
}
