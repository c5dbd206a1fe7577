//! The front's own refusals, as lines of the protocol.
//!
//! Their codes are not among those of the service.

/// The reason why a connection is refused or closed: a code and a name, as for a fault.
#[derive(Clone, Copy, Debug, PartialEq, Eq)]
pub enum Refusal {
    /// The user, or all users together, have as many connections as allowed.
    Connections,
    /// The user made too many sessions within an hour.
    Sessions,
    /// The front uses too much memory, or memory was refused.
    Held,
}

impl Refusal {
    /// The line that is sent to the client.
    pub fn line(self) -> &'static [u8] {
        match self {
            Refusal::Connections => {
                b"{\"fault\":{\"code\":100,\"name\":\"ConnectionsFull\",\"place\":0},\"s\":0}\n"
            }
            Refusal::Sessions => {
                b"{\"fault\":{\"code\":101,\"name\":\"SessionsFull\",\"place\":0},\"s\":0}\n"
            }
            Refusal::Held => {
                b"{\"fault\":{\"code\":102,\"name\":\"HeldFull\",\"place\":0},\"s\":0}\n"
            }
        }
    }
}

/// The reason why a connection was closed, for the statistics.
#[derive(Clone, Copy, Debug, PartialEq, Eq)]
pub enum Cause {
    /// The client closed it, and has read its replies.
    ByItself,
    /// The system reports an error.
    Broken,
    /// The client did not read its replies in time.
    Unread,
    /// The client did not complete a line in time.
    HalfALine,
    /// The client sent nothing in time.
    Idle,
    /// The front refused something.
    Refused(Refusal),
}

impl Cause {
    /// All causes.
    pub const ALL: [Cause; 8] = [
        Cause::ByItself,
        Cause::Broken,
        Cause::Unread,
        Cause::HalfALine,
        Cause::Idle,
        Cause::Refused(Refusal::Connections),
        Cause::Refused(Refusal::Sessions),
        Cause::Refused(Refusal::Held),
    ];

    /// The cause in words.
    pub fn words(self) -> &'static str {
        match self {
            Cause::ByItself => "by itself",
            Cause::Broken => "broken",
            Cause::Unread => "unread",
            Cause::HalfALine => "half a line",
            Cause::Idle => "idle",
            Cause::Refused(Refusal::Connections) => "too many",
            Cause::Refused(Refusal::Sessions) => "too many sessions",
            Cause::Refused(Refusal::Held) => "memory",
        }
    }

    /// The index in `ALL`.
    pub fn place(self) -> usize {
        Cause::ALL.iter().position(|cause| *cause == self).unwrap_or_default()
    }
}
