//! Interrupts: the command removes its unfinished files, and ends by the signal, as a shell
//! expects.

use signal_hook::consts::{SIGHUP, SIGINT, SIGTERM};
use signal_hook::iterator::Signals;
use signal_hook::low_level::emulate_default_handler;
use std::fs;
use std::io::ErrorKind;
use std::path::{Path, PathBuf};
use std::sync::{PoisonError, RwLock, RwLockReadGuard, RwLockWriteGuard};
use std::time::Duration;

/// How many times the removal of a folder is tried, and the pause between two tries.
const TRIES: usize = 100;
const PAUSE: Duration = Duration::from_millis(5);

/// Files and folders that exist only while they are written.
static TEMPORARY: RwLock<Vec<PathBuf>> = RwLock::new(Vec::new());

fn temporary() -> RwLockWriteGuard<'static, Vec<PathBuf>> {
    TEMPORARY.write().unwrap_or_else(PoisonError::into_inner)
}

/// Starts a thread that waits for interrupts. If that fails, an interrupt ends the process as
/// usual.
pub fn watch() {
    let Ok(mut signals) = Signals::new([SIGHUP, SIGINT, SIGTERM]) else { return };
    std::thread::spawn(move || {
        for signal in &mut signals {
            // Locked to the end, so that no other thread makes a file in the meantime.
            let listed = temporary();
            listed.iter().for_each(|path| remove(path));
            let _ = emulate_default_handler(signal);
        }
    });
}

/// Makes a file or folder that an interrupt removes.
pub fn make<T>(path: &Path, make: impl FnOnce(&Path) -> std::io::Result<T>) -> std::io::Result<T> {
    let mut listed = temporary();
    let made = make(path)?;
    listed.push(path.to_owned());
    Ok(made)
}

/// Removes a file or folder that `make` made, if it still exists.
pub fn unmake(path: &Path) {
    remove(path);
    temporary().retain(|one| one != path);
}

/// A step that an interrupt does not break: the interrupt waits for its end, and no step begins
/// after an interrupt.
pub struct Step {
    _listed: RwLockReadGuard<'static, Vec<PathBuf>>,
}

impl Step {
    /// Begins a step, which ends when it is dropped. A thread must not begin one within another.
    pub fn begin() -> Step {
        Step { _listed: TEMPORARY.read().unwrap_or_else(PoisonError::into_inner) }
    }
}

fn remove(path: &Path) {
    if !path.is_dir() {
        let _ = fs::remove_file(path);
        return;
    }
    // A child process may be writing a file there.
    for _ in 0..TRIES {
        match fs::remove_dir_all(path) {
            Err(error) if error.kind() != ErrorKind::NotFound => std::thread::sleep(PAUSE),
            _ => return,
        }
    }
}
