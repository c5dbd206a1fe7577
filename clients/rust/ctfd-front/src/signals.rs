//! Signals: to end, or to write statistics.

use mio::net::UnixStream;
use signal_hook::consts::{SIGINT, SIGTERM, SIGUSR1};
use signal_hook::{flag, low_level::pipe};
use std::io::{self, Read};
use std::sync::atomic::{AtomicBool, Ordering};
use std::sync::Arc;

/// A receiver of signals. `wake` becomes readable when one has come.
pub struct Signals {
    pub wake: UnixStream,
    ends: Arc<AtomicBool>,
    tells: Arc<AtomicBool>,
}

impl Signals {
    /// Begins to receive signals.
    pub fn new() -> io::Result<Signals> {
        let (ends, tells) = (Arc::new(AtomicBool::new(false)), Arc::new(AtomicBool::new(false)));
        let (read, write) = std::os::unix::net::UnixStream::pair()?;
        read.set_nonblocking(true)?;
        for (signal, flag) in [(SIGTERM, &ends), (SIGINT, &ends), (SIGUSR1, &tells)] {
            flag::register(signal, flag.clone())?;
            pipe::register(signal, write.try_clone()?)?;
        }
        Ok(Signals { wake: UnixStream::from_std(read), ends, tells })
    }

    /// Empties `wake`.
    pub fn hush(&mut self) {
        let mut room = [0; 64];
        while matches!(self.wake.read(&mut room), Ok(1..)) {}
    }

    /// Whether a signal to end has come.
    pub fn is_ending(&self) -> bool {
        self.ends.load(Ordering::Relaxed)
    }

    /// Whether a signal to write statistics has come since the last call.
    pub fn tells(&self) -> bool {
        self.tells.swap(false, Ordering::Relaxed)
    }
}
