//! Limits for one client, one user, and all together.

use std::time::Duration;

/// The longest line that the service takes, in bytes.
pub const LONGEST_LINE: usize = 1_048_576;

/// The most bytes that are read at once.
pub const READ_BYTES: usize = 65_536;

/// The greatest number of sessions.
pub const MOST_SESSIONS: u64 = 4_294_967_295;

/// The limits, which are options of the command line. Sizes are in bytes; `user_sessions` are
/// sessions in an hour.
#[derive(Clone, Debug)]
pub struct Limits {
    pub connections: usize,
    pub user_connections: usize,
    pub line: usize,
    pub bytes: usize,
    pub unread: usize,
    pub memory: usize,
    pub user_memory: usize,
    pub sessions: u64,
    pub user_sessions: usize,
    pub ahead: usize,
    pub user_ahead: usize,
    pub idle: Duration,
    pub stalled: Duration,
    pub grace: Duration,
}

impl Default for Limits {
    fn default() -> Limits {
        Limits {
            connections: 1_000,
            user_connections: 250,
            line: LONGEST_LINE,
            bytes: READ_BYTES,
            unread: 1_048_576,
            memory: 268_435_456,
            user_memory: 67_108_864,
            sessions: MOST_SESSIONS,
            user_sessions: 20_000,
            ahead: 256,
            user_ahead: 192,
            idle: Duration::from_secs(3_600),
            stalled: Duration::from_secs(60),
            grace: Duration::from_secs(10),
        }
    }
}
