//! The progress of reading a file, for those who wait for it.

use std::fmt;
use std::sync::atomic::{AtomicU64, Ordering};
use std::sync::Arc;

/// A display of progress, which any thread may call.
pub trait Progress: Send + Sync {
    /// Reports that `done` of `total` pieces are done.
    fn advance(&self, done: u64, total: u64);

    /// Reports that the work has ended.
    fn end(&self);
}

/// The display of progress, if there is one.
#[derive(Clone, Default)]
pub struct Listener(Option<Arc<dyn Progress>>);

impl Listener {
    /// A listener that passes progress on.
    pub fn new(told: Arc<dyn Progress>) -> Listener {
        Listener(Some(told))
    }

    /// Begins work of `total` pieces.
    pub(crate) fn begin(&self, total: u64) -> Work<'_> {
        Work { listener: self, done: AtomicU64::new(0), total }
    }
}

impl fmt::Debug for Listener {
    fn fmt(&self, to: &mut fmt::Formatter<'_>) -> fmt::Result {
        to.write_str("Listener")
    }
}

/// Work in progress.
pub(crate) struct Work<'l> {
    listener: &'l Listener,
    done: AtomicU64,
    total: u64,
}

impl Work<'_> {
    /// Counts further pieces as done.
    pub(crate) fn add(&self, pieces: u64) {
        let done = self.done.fetch_add(pieces, Ordering::Relaxed) + pieces;
        if let Some(told) = &self.listener.0 {
            told.advance(done, self.total);
        }
    }
}

impl Drop for Work<'_> {
    fn drop(&mut self) {
        if let Some(told) = &self.listener.0 {
            told.end();
        }
    }
}
