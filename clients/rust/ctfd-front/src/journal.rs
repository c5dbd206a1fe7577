//! Messages for the operator: lines on standard error, with levels if journald reads them.

use crate::text::Line;
use std::fmt;
use std::io::{self, Write};
use std::sync::{Mutex, OnceLock, PoisonError};

/// Levels, as in syslog(3).
#[derive(Clone, Copy, Debug)]
pub enum Level {
    Error = 3,
    Warning = 4,
    Notice = 5,
    Info = 6,
}

/// Writes a message. Ignores errors, such as a reader that has gone.
pub fn say(level: Level, message: impl fmt::Display) {
    static IS_JOURNAL: OnceLock<bool> = OnceLock::new();
    static LINE: Mutex<Line> = Mutex::new(Line::new());
    let mut line = LINE.lock().unwrap_or_else(PoisonError::into_inner);
    let bytes = if *IS_JOURNAL.get_or_init(is_journal) {
        line.hold(format_args!("<{}>ctfd-front: {message}", level as u8))
    } else {
        line.hold(format_args!("ctfd-front: {message}"))
    };
    // In one write, so that no reader gets half of it.
    let _ = io::stderr().write_all(bytes);
}

/// Whether standard error is the stream that systemd's journal reads, which JOURNAL_STREAM names.
fn is_journal() -> bool {
    let Ok(stream) = std::env::var("JOURNAL_STREAM") else { return false };
    let Ok(stat) = rustix::fs::fstat(io::stderr()) else { return false };
    stream == format!("{}:{}", stat.st_dev, stat.st_ino)
}
