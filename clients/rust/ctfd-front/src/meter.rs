//! Measures the time of lines: by the clock, and, if that says that a line was long, by the CPU
//! time of this thread, since other work on the machine may have stalled it.

use crate::turns::LONG;
use rustix::time::{clock_gettime, ClockId};
use std::time::{Duration, Instant};

/// The interval at which CPU time is read, so that it bounds the time of a line.
const FRESH: Duration = Duration::from_millis(2);

/// The clock of a thread.
pub struct Meter {
    last: Instant,
    processor: Duration,
    last_refresh: Instant,
}

impl Meter {
    /// The clock of the current thread.
    pub fn new() -> Meter {
        let now = Instant::now();
        Meter { last: now, processor: processor_time(), last_refresh: now }
    }

    /// The time now.
    pub fn now(&mut self) -> Instant {
        self.last = Instant::now();
        self.last
    }

    /// The time that `now` read last.
    pub fn last(&self) -> Instant {
        self.last
    }

    /// Reads the CPU time, if the last reading is old.
    pub fn refresh(&mut self) {
        if self.now() - self.last_refresh > FRESH {
            self.processor = processor_time();
            self.last_refresh = self.last;
        }
    }

    /// The time used since a moment.
    pub fn time_since(&mut self, since: Instant) -> Duration {
        let mut took = self.now() - since;
        if took > LONG {
            let processor = processor_time();
            took = took.min(processor - self.processor);
            (self.processor, self.last_refresh) = (processor, self.last);
        }
        took
    }

    /// The CPU time of this thread, as last read.
    pub fn processor(&self) -> Duration {
        self.processor
    }
}

/// The CPU time of this thread.
fn processor_time() -> Duration {
    let time = clock_gettime(ClockId::ThreadCPUTime);
    Duration::new(time.tv_sec as u64, time.tv_nsec as u32)
}
