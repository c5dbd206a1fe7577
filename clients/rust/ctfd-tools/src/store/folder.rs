//! An open folder. Its files and folders are reached by their names in it, and links are not
//! followed, so that nobody who can write there can lead a command elsewhere.

use ctfd_read::error::{reason, refuse, Error, Result};
use rustix::fd::OwnedFd;
use rustix::fs::{cwd, flock, linkat, mkdirat, openat, renameat, renameat_with, statat, unlinkat};
use rustix::fs::{AtFlags, Dir, FileType, FlockOperation, Mode, OFlags, RenameFlags};
use rustix::io::Errno;
use std::ffi::OsString;
use std::fs::File;
use std::io::{self, ErrorKind, Read as _, Write as _};
use std::os::unix::ffi::OsStringExt as _;
use std::os::unix::fs::MetadataExt as _;
use std::path::{Path, PathBuf};
use std::time::SystemTime;

/// The modes of new files and folders, before the user's umask.
const MODE_OF_FOLDERS: u32 = 0o777;
const MODE_OF_FILES: u32 = 0o666;
/// The bit of a mode by which anybody may write.
const OTHERS_WRITE: u32 = 0o002;
/// The bits of a mode that allow others anything.
const FOR_OTHERS: u32 = 0o077;
/// The suffix for the name of a folder that was replaced.
const REPLACED: &str = ".replaced";
/// The depth to which folders are removed.
const DEEPEST: usize = 8;
const LINK: &str =
    "it is a link or another kind of file than a store has: remove it, and see who may \
                    write there";

pub struct Folder {
    file: File,
    path: PathBuf,
}

impl Folder {
    /// Opens the folder at a path that the user gave.
    pub fn open(path: &Path) -> Result<Folder> {
        let flags = OFlags::DIRECTORY | OFlags::RDONLY | OFlags::CLOEXEC;
        let opened = openat(cwd(), path, flags, Mode::empty());
        let file = opened.map_err(|error| error_of(path, error.into()))?;
        Ok(Folder { file: file_of(file), path: path.to_owned() })
    }

    pub fn path(&self) -> &Path {
        &self.path
    }

    /// Refuses a folder into which others may put files.
    pub fn judge_owner(&self) -> Result<()> {
        let about = self.file.metadata()?;
        let own = rustix::process::geteuid().as_raw();
        let why = match (about.uid() == own, about.mode() & OTHERS_WRITE) {
            (true, 0) => return Ok(()),
            (false, _) => format!("it belongs to user {}, and you are {own}", about.uid()),
            (true, _) => "anybody may write there".to_owned(),
        };
        let path = self.path.display();
        refuse(format!("{path}: {why}: a store is written by its owner alone, and 0755 suits it"))
    }

    fn error(&self, name: &str, error: io::Error) -> Error {
        error_of(&self.path.join(name), error)
    }

    /// The folder with a name; None if there is none.
    pub fn child(&self, name: &str) -> Result<Option<Folder>> {
        let flags = OFlags::DIRECTORY | OFlags::RDONLY | OFlags::CLOEXEC | OFlags::NOFOLLOW;
        let path = self.path.join(name);
        match openat(&self.file, name, flags, Mode::empty()) {
            Ok(file) => Ok(Some(Folder { file: file_of(file), path })),
            Err(error) if is(error, ErrorKind::NotFound) => Ok(None),
            Err(Errno::LOOP | Errno::NOTDIR) => refuse(format!("{}: {LINK}", path.display())),
            Err(error) => Err(error_of(&path, error.into())),
        }
    }

    /// The folder with a name, which is made if there is none.
    pub fn make(&self, name: &str) -> Result<Folder> {
        match mkdirat(&self.file, name, Mode::from_raw_mode(MODE_OF_FOLDERS)) {
            Err(error) if !is(error, ErrorKind::AlreadyExists) => {
                return Err(self.error(name, error.into()))
            }
            _ => {}
        }
        match self.child(name)? {
            Some(folder) => Ok(folder),
            None => Err(self.error(name, ErrorKind::NotFound.into())),
        }
    }

    /// The same, for a folder that only the user may read and write. Fails if others may.
    pub fn make_private(&self, name: &str) -> Result<Folder> {
        let made = mkdirat(&self.file, name, Mode::RWXU);
        if let Some(error) = made.err().filter(|&error| !is(error, ErrorKind::AlreadyExists)) {
            return Err(self.error(name, error.into()));
        }
        let Some(folder) = self.child(name)? else {
            return Err(self.error(name, ErrorKind::NotFound.into()));
        };
        let about = folder.file.metadata()?;
        let is_own = about.uid() == rustix::process::geteuid().as_raw();
        match is_own && about.mode() & FOR_OTHERS == 0 {
            true => Ok(folder),
            false => refuse(format!(
                "{}: others may read or write there: make it yours alone (chmod 0700), or remove it",
                folder.path.display()
            )),
        }
    }

    /// Opens a file to read; None if there is none. Does not wait for pipes.
    pub fn file(&self, name: &str) -> Result<Option<File>> {
        let flags = OFlags::RDONLY | OFlags::CLOEXEC | OFlags::NOFOLLOW | OFlags::NONBLOCK;
        let file = match openat(&self.file, name, flags, Mode::empty()) {
            Ok(file) => file_of(file),
            Err(error) if is(error, ErrorKind::NotFound) => return Ok(None),
            Err(Errno::LOOP) => {
                return refuse(format!("{}: {LINK}", self.path.join(name).display()))
            }
            Err(error) => return Err(self.error(name, error.into())),
        };
        match file.metadata()?.is_file() {
            true => Ok(Some(file)),
            false => refuse(format!("{}: {LINK}", self.path.join(name).display())),
        }
    }

    /// The bytes of a file; None if there is none. Fails if it has more than `most` bytes.
    pub fn bytes(&self, name: &str, most: u64) -> Result<Option<Vec<u8>>> {
        let Some(file) = self.file(name)? else { return Ok(None) };
        let mut bytes = Vec::new();
        let read = file.take(most.saturating_add(1)).read_to_end(&mut bytes);
        read.map_err(|error| self.error(name, error))?;
        match bytes.len() as u64 > most {
            true => refuse(format!("{}: more than {most} bytes", self.path.join(name).display())),
            false => Ok(Some(bytes)),
        }
    }

    /// Makes a file, and opens it to write.
    pub fn new_file(&self, name: &str) -> Result<File> {
        let flags = OFlags::WRONLY | OFlags::CREATE | OFlags::EXCL | OFlags::CLOEXEC;
        let opened = openat(&self.file, name, flags, Mode::from_raw_mode(MODE_OF_FILES));
        Ok(file_of(opened.map_err(|error| self.error(name, error.into()))?))
    }

    /// Makes a file with some bytes, and syncs it to the disk.
    pub fn write(&self, name: &str, bytes: &[u8]) -> Result<()> {
        let mut file = self.new_file(name)?;
        let written = file.write_all(bytes).and_then(|()| file.sync_all());
        written.map_err(|error| self.error(name, error))
    }

    /// Syncs the names in the folder to the disk, if the file system supports this for folders.
    pub fn sync(&self) -> Result<()> {
        match self.file.sync_all() {
            Err(error) if error.kind() == ErrorKind::InvalidInput => Ok(()),
            done => done.map_err(|error| error_of(&self.path, error)),
        }
    }

    /// Sets the time of a file's last change to now.
    pub fn touch(&self, name: &str) -> Result<()> {
        let touched = self.file(name)?.map(|file| file.set_modified(SystemTime::now()));
        touched.transpose().map(drop).map_err(|error| self.error(name, error))
    }

    /// Locks a file, which is made if there is none, and waits until no other command does. The
    /// lock lasts as long as the file is open.
    pub fn lock(&self, name: &str) -> Result<File> {
        let file = self.lock_file(name, OFlags::CREATE)?;
        flock(&file, FlockOperation::LockExclusive)
            .map_err(|error| self.error(name, error.into()))?;
        Ok(file)
    }

    /// Whether a command has locked a file; false if there is no file.
    pub fn is_locked(&self, name: &str) -> Result<bool> {
        if self.file(name)?.is_none() {
            return Ok(false);
        }
        let file = self.lock_file(name, OFlags::empty())?;
        match flock(&file, FlockOperation::NonBlockingLockExclusive) {
            Ok(()) => Ok(false),
            Err(Errno::WOULDBLOCK) => Ok(true),
            Err(error) => Err(self.error(name, error.into())),
        }
    }

    fn lock_file(&self, name: &str, more: OFlags) -> Result<File> {
        let flags = OFlags::RDWR | OFlags::NOFOLLOW | OFlags::CLOEXEC | more;
        let opened = openat(&self.file, name, flags, Mode::RUSR | Mode::WUSR);
        Ok(file_of(opened.map_err(|error| self.error(name, error.into()))?))
    }

    /// Moves a file or folder to another folder; replaces a file or an empty folder there.
    pub fn move_to(&self, name: &str, to: &Folder, new: &str) -> Result<()> {
        let moved = renameat(&self.file, name, &to.file, new);
        moved.map_err(|error| to.error(new, error.into()))
    }

    /// Exchanges the folders with a name in two folders, in one step if the file system supports
    /// this.
    pub fn exchange(&self, name: &str, other: &Folder) -> Result<()> {
        match renameat_with(&self.file, name, &other.file, name, RenameFlags::EXCHANGE) {
            Ok(()) => Ok(()),
            Err(Errno::INVAL | Errno::NOSYS | Errno::NOTSUP) => {
                other.move_to(name, self, &format!("{name}{REPLACED}"))?;
                self.move_to(name, other, name)
            }
            Err(error) => Err(other.error(name, error.into())),
        }
    }

    /// Makes a hard link to a file of another folder under the same name, or copies it if that
    /// fails.
    pub fn link(&self, name: &str, other: &Folder, most: u64) -> Result<()> {
        match linkat(&other.file, name, &self.file, name, AtFlags::empty()) {
            Ok(()) => Ok(()),
            Err(_) => match other.bytes(name, most)? {
                Some(bytes) => self.write(name, &bytes),
                None => Err(other.error(name, ErrorKind::NotFound.into())),
            },
        }
    }

    /// The names in the folder, in order. In names that are not UTF-8, U+FFFD stands for the
    /// invalid bytes.
    pub fn names(&self) -> Result<Vec<String>> {
        let read = || -> io::Result<Vec<String>> {
            let mut names = Vec::new();
            let again =
                openat(&self.file, ".", OFlags::DIRECTORY | OFlags::CLOEXEC, Mode::empty())?;
            for entry in Dir::read_from(&again)? {
                let name = OsString::from_vec(entry?.file_name().to_bytes().to_vec());
                let name = name.to_string_lossy().into_owned();
                if name != "." && name != ".." {
                    names.push(name);
                }
            }
            names.sort_unstable();
            Ok(names)
        };
        read().map_err(|error| error_of(&self.path, error))
    }

    /// Whether a name is a folder's.
    pub fn is_folder(&self, name: &str) -> bool {
        let found = statat(&self.file, name, AtFlags::SYMLINK_NOFOLLOW);
        found.is_ok_and(|about| FileType::from_raw_mode(about.st_mode) == FileType::Directory)
    }

    /// Removes a file, or a folder with all its contents.
    pub fn remove(&self, name: &str) -> Result<()> {
        self.remove_within(name, DEEPEST)
    }

    fn remove_within(&self, name: &str, depth: usize) -> Result<()> {
        if !self.is_folder(name) {
            return match unlinkat(&self.file, name, AtFlags::empty()) {
                Err(error) if !is(error, ErrorKind::NotFound) => {
                    Err(self.error(name, error.into()))
                }
                _ => Ok(()),
            };
        }
        if let Some(inner) = self.child(name)?.filter(|_| depth > 0) {
            inner.names()?.iter().try_for_each(|one| inner.remove_within(one, depth - 1))?;
        }
        match unlinkat(&self.file, name, AtFlags::REMOVEDIR) {
            Err(error) if !is(error, ErrorKind::NotFound) => Err(self.error(name, error.into())),
            _ => Ok(()),
        }
    }
}

/// Converts a descriptor of rustix to a file of std.
fn file_of(opened: rustix::io::OwnedFd) -> File {
    OwnedFd::from(opened).into()
}

fn is(error: Errno, kind: ErrorKind) -> bool {
    io::Error::from(error).kind() == kind
}

fn error_of(path: &Path, error: io::Error) -> Error {
    Error(format!("{}: {}", path.display(), reason(&error)))
}
