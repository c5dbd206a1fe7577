//! A queue: many threads make its items, which are taken one after another in order.

use crate::error::{Error, Result};
use std::collections::BTreeMap;
use std::sync::{Condvar, Mutex, MutexGuard, PoisonError};

/// How many places a thread may be ahead of the next item to be taken.
pub(super) const MOST_AHEAD: usize = 16;

/// A queue of items. Whichever thread is free passes them to `take`, in order.
pub(super) struct Line<T, F> {
    waiting: Mutex<Waiting<T>>,
    has_moved: Condvar,
    take: Mutex<F>,
}

struct Waiting<T> {
    by_place: BTreeMap<usize, Result<T>>,
    next: usize,
    is_taken: bool,
    /// The error of the first item that failed.
    failed: Option<Error>,
}

impl<T, F: FnMut(T)> Line<T, F> {
    pub fn new(take: F) -> Line<T, F> {
        let waiting = Waiting { by_place: BTreeMap::new(), next: 0, is_taken: false, failed: None };
        Line { waiting: Mutex::new(waiting), has_moved: Condvar::new(), take: Mutex::new(take) }
    }

    /// Makes the item at a place in the line, and passes on the items whose turn it is. Waits if
    /// the place is far ahead of these. Returns whether more items are wanted.
    pub fn put(&self, place: usize, make: impl FnOnce() -> Result<T>) -> bool {
        let _leaving = Leaving(self);
        let made = make();
        let mut waiting = lock(&self.waiting);
        waiting.by_place.insert(place, made);
        if !waiting.is_taken {
            waiting = self.take_all(waiting);
        }
        let is_early = |waiting: &mut Waiting<T>| {
            waiting.failed.is_none() && place > waiting.next + MOST_AHEAD
        };
        let waited = self.has_moved.wait_while(waiting, is_early);
        waited.unwrap_or_else(PoisonError::into_inner).failed.is_none()
    }

    /// Takes all items whose turn it is, while other threads may add more.
    fn take_all<'l>(
        &'l self,
        mut waiting: MutexGuard<'l, Waiting<T>>,
    ) -> MutexGuard<'l, Waiting<T>> {
        let mut take = lock(&self.take);
        waiting.is_taken = true;
        while waiting.failed.is_none() {
            let next = waiting.next;
            match waiting.by_place.remove(&next) {
                None => break,
                Some(Err(error)) => waiting.failed = Some(error),
                Some(Ok(made)) => {
                    drop(waiting);
                    take(made);
                    waiting = lock(&self.waiting);
                    waiting.next += 1;
                }
            }
            self.has_moved.notify_all();
        }
        waiting.is_taken = false;
        waiting
    }

    /// The first error, if any item failed.
    pub fn finish(self) -> Result<()> {
        let waiting = self.waiting.into_inner().unwrap_or_else(PoisonError::into_inner);
        waiting.failed.map_or(Ok(()), Err)
    }
}

/// A guard that wakes the waiting threads if the thread that makes an item panics.
struct Leaving<'l, T, F>(&'l Line<T, F>);

impl<T, F> Drop for Leaving<'_, T, F> {
    fn drop(&mut self) {
        if std::thread::panicking() {
            let why = || Error("a thread that read it ended".to_owned());
            lock(&self.0.waiting).failed.get_or_insert_with(why);
            self.0.has_moved.notify_all();
        }
    }
}

fn lock<T>(one: &Mutex<T>) -> MutexGuard<'_, T> {
    one.lock().unwrap_or_else(PoisonError::into_inner)
}
