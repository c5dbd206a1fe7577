//! The socket for clients: at a path, or passed by systemd.

use crate::system;
use crate::text::Words;
use rustix::fs::{flock, FlockOperation, Mode};
use rustix::net::{AddressFamily, Protocol, SocketAddrUnix, SocketFlags, SocketType};
use std::fs::{self, File, Metadata, OpenOptions};
use std::io::{self, ErrorKind};
use std::os::unix::fs::{chown, FileTypeExt, MetadataExt, OpenOptionsExt, PermissionsExt};
use std::os::unix::net::{UnixListener, UnixStream};
use std::path::{Path, PathBuf};
use std::time::{Duration, Instant};
use std::{env, thread};

const BACKLOG: i32 = 1_024;
const LOCK_PATIENCE: Duration = Duration::from_secs(5);

/// A listening socket, and the file that is removed when it ends.
pub struct Listener {
    pub socket: UnixListener,
    file: Option<(PathBuf, Identity)>,
}

/// The device and inode of a file, which differ for another file at its path.
type Identity = (u64, u64);

impl Drop for Listener {
    /// Removes the file, if it is still the one that was made here.
    fn drop(&mut self) {
        if let Some((path, identity)) = &self.file {
            if fs::symlink_metadata(path).is_ok_and(|metadata| identity_of(&metadata) == *identity)
            {
                let _ = fs::remove_file(path);
            }
        }
    }
}

fn identity_of(file: &Metadata) -> Identity {
    (file.dev(), file.ino())
}

/// The socket of systemd's LISTEN_FDS, if there is one.
pub fn from_systemd() -> Result<Option<Listener>, String> {
    let own = |pid: &str| pid == std::process::id().to_string();
    let (Ok(count), Ok(pid)) = (env::var("LISTEN_FDS"), env::var("LISTEN_PID")) else {
        return Ok(None);
    };
    if count.is_empty() || !own(&pid) {
        return Ok(None);
    }
    if count != "1" {
        return Err(format!("systemd hands over {count} sockets: use one ListenStream="));
    }
    match system::handed_listener() {
        Ok(Some(socket)) => Ok(Some(Listener { socket, file: None })),
        Ok(None) => Err("what systemd hands over does not listen: ListenStream= and Accept=no \
                         are wanted"
            .into()),
        Err(why) => Err(format!("what systemd hands over is no socket ({})", Words(&why))),
    }
}

/// Makes a socket at a path. A socket there is replaced if nobody listens on it.
pub fn at_path(path: &Path, mode: u32, group: Option<&str>) -> Result<Listener, String> {
    let message = |why: io::Error| format!("{}: {}", path.display(), Words(&why));
    let mut lock_path = path.as_os_str().to_owned();
    lock_path.push(".lock");
    let _lock = Lock::take(Path::new(&lock_path))?;
    let group = group.map(group_number).transpose()?;
    remove_stale(path)?;
    let flags = SocketFlags::CLOEXEC | SocketFlags::NONBLOCK;
    let kind = SocketType::STREAM;
    let socket = rustix::net::socket_with(AddressFamily::UNIX, kind, flags, Protocol::default())
        .map_err(|why| message(why.into()))?;
    let address = SocketAddrUnix::new(path).map_err(|why| message(why.into()))?;
    // The file gets the mode of the socket: nobody may connect yet.
    rustix::fs::fchmod(&socket, Mode::empty()).map_err(|why| message(why.into()))?;
    rustix::net::bind_unix(&socket, &address).map_err(|why| message(why.into()))?;
    let identity = fs::symlink_metadata(path).map(|file| identity_of(&file)).map_err(message)?;
    let listener = Listener {
        socket: UnixListener::from(rustix::fd::OwnedFd::from(socket)),
        file: Some((path.to_owned(), identity)),
    };
    if group.is_some() {
        chown(path, None, group).map_err(message)?;
    }
    fs::set_permissions(path, fs::Permissions::from_mode(mode)).map_err(message)?;
    rustix::net::listen(&listener.socket, BACKLOG).map_err(|why| message(why.into()))?;
    Ok(listener)
}

fn group_number(group: &str) -> Result<u32, String> {
    group
        .parse()
        .ok()
        .or_else(|| system::group_number(group))
        .ok_or_else(|| format!("there is no group {group}: name one that is, or leave --group out"))
}

/// Removes the socket of a front that was killed.
fn remove_stale(path: &Path) -> Result<(), String> {
    let shown = path.display();
    let message = |why: io::Error| format!("{shown}: {}", Words(&why));
    let metadata = match fs::symlink_metadata(path) {
        Ok(metadata) => metadata,
        Err(why) if why.kind() == ErrorKind::NotFound => return Ok(()),
        Err(why) => return Err(message(why)),
    };
    if !metadata.file_type().is_socket() {
        return Err(format!("{shown} is there and is no socket: name another path, or remove it"));
    }
    match UnixStream::connect(path) {
        Err(why) if why.kind() == ErrorKind::ConnectionRefused => {
            fs::remove_file(path).map_err(message)
        }
        _ => Err(format!(
            "{shown}: somebody listens there already: end that one, or name another path"
        )),
    }
}

/// A lock, so that no two fronts look for a stale socket at a path at the same time.
///
/// The locked file is next to the socket, and nobody else may open it, so nobody else can hold the
/// lock. It is removed while it is locked: whoever waited for the lock finds another file there, or
/// none.
struct Lock {
    path: PathBuf,
    _file: File,
}

impl Lock {
    fn take(path: &Path) -> Result<Lock, String> {
        let shown = path.display();
        let until = Instant::now() + LOCK_PATIENCE;
        loop {
            let file = open_lock(path)?;
            if flock(&file, FlockOperation::NonBlockingLockExclusive).is_ok() && is_at(path, &file)
            {
                return Ok(Lock { path: path.to_owned(), _file: file });
            }
            if Instant::now() > until {
                return Err(format!("{shown} is locked: another front is starting; try again"));
            }
            thread::sleep(Duration::from_millis(20));
        }
    }
}

impl Drop for Lock {
    fn drop(&mut self) {
        let _ = fs::remove_file(&self.path);
    }
}

/// Opens a file of this user, which no other user may open.
fn open_lock(path: &Path) -> Result<File, String> {
    let shown = path.display();
    let message = |why: io::Error| format!("{shown}: {}", Words(&why));
    let mut options = OpenOptions::new();
    options.read(true).write(true).create(true).truncate(false).mode(0o600);
    let file = options.custom_flags(libc::O_NOFOLLOW).open(path).map_err(message)?;
    let metadata = file.metadata().map_err(message)?;
    let is_own = metadata.uid() == rustix::process::geteuid().as_raw();
    if !is_own || metadata.mode() & 0o077 != 0 || !metadata.is_file() {
        return Err(format!(
            "{shown} is there and others may open it: remove it, or name a socket in a folder \
             where others can't make files"
        ));
    }
    Ok(file)
}

/// Whether an open file is still the one at its path.
fn is_at(path: &Path, file: &File) -> bool {
    match (fs::symlink_metadata(path), file.metadata()) {
        (Ok(there), Ok(here)) => identity_of(&there) == identity_of(&here),
        _ => false,
    }
}
