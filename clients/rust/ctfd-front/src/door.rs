//! The door of a shard: what other threads pass to it, and ask of it.

use crate::connection::Connection;
use crate::statistics::Statistics;
use mio::Waker;
use std::sync::atomic::{AtomicBool, AtomicUsize, Ordering};
use std::sync::{Condvar, Mutex, MutexGuard, PoisonError};
use std::time::Duration;

/// How long to wait for a shard that is answering a long request.
const PATIENCE: Duration = Duration::from_millis(250);

/// The counts of a shard.
pub struct Snapshot {
    pub statistics: Statistics,
    pub processor: Duration,
    pub connections: Vec<Row>,
}

/// The counts of an open connection.
pub struct Row {
    pub session: u32,
    pub user: u32,
    pub lines: u64,
    pub refusals: u64,
    pub time_used: Duration,
    pub bytes: usize,
}

/// The way into a shard, for other threads.
pub struct Door {
    waker: Waker,
    comers: Mutex<Vec<Connection>>,
    connections: AtomicUsize,
    is_stopping: AtomicBool,
    is_asked: AtomicBool,
    snapshot: Mutex<Option<Snapshot>>,
    has_told: Condvar,
}

impl Door {
    /// The door of a shard, which `waker` wakes.
    pub fn new(waker: Waker) -> Door {
        Door {
            waker,
            comers: Mutex::default(),
            connections: AtomicUsize::new(0),
            is_stopping: AtomicBool::new(false),
            is_asked: AtomicBool::new(false),
            snapshot: Mutex::default(),
            has_told: Condvar::new(),
        }
    }

    /// Passes a connection to the shard, or returns it if memory is refused.
    #[must_use]
    pub fn give(&self, connection: Connection) -> Option<Connection> {
        let mut comers = lock(&self.comers);
        if comers.try_reserve(1).is_err() {
            return Some(connection);
        }
        self.connections.fetch_add(1, Ordering::Relaxed);
        comers.push(connection);
        drop(comers);
        self.wake();
        None
    }

    /// The number of connections of the shard.
    pub fn connections(&self) -> usize {
        self.connections.load(Ordering::Relaxed)
    }

    /// Asks the shard to answer what has arrived, and to end.
    pub fn stop(&self) {
        self.is_stopping.store(true, Ordering::Release);
        self.wake();
    }

    /// The counts of the shard; `None` if it is answering a long request.
    pub fn ask(&self) -> Option<Snapshot> {
        let snapshot = lock(&self.snapshot);
        self.is_asked.store(true, Ordering::Release);
        self.wake();
        let is_waiting = |_: &mut Option<Snapshot>| self.is_asked.load(Ordering::Acquire);
        let waited = self.has_told.wait_timeout_while(snapshot, PATIENCE, is_waiting);
        waited.unwrap_or_else(PoisonError::into_inner).0.take()
    }

    fn wake(&self) {
        // It fails if the shard has ended, and then nobody needs to wake it.
        let _ = self.waker.wake();
    }

    // The shard's own calls.

    /// A connection that was passed to the shard, if there is one.
    pub fn comer(&self) -> Option<Connection> {
        lock(&self.comers).pop()
    }

    /// Counts a connection as gone.
    pub fn leave(&self) {
        self.connections.fetch_sub(1, Ordering::Relaxed);
    }

    /// Whether the shard is to end.
    pub fn is_stopping(&self) -> bool {
        self.is_stopping.load(Ordering::Acquire)
    }

    /// Whether somebody waits for a snapshot.
    pub fn is_asked(&self) -> bool {
        self.is_asked.load(Ordering::Acquire)
    }

    /// Passes on the shard's counts.
    pub fn tell(&self, snapshot: Snapshot) {
        *lock(&self.snapshot) = Some(snapshot);
        self.is_asked.store(false, Ordering::Release);
        self.has_told.notify_all();
    }
}

fn lock<T>(mutex: &Mutex<T>) -> MutexGuard<'_, T> {
    mutex.lock().unwrap_or_else(PoisonError::into_inner)
}
