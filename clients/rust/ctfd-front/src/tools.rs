//! The parts of a shard that all its connections use.

use crate::answers::Answers;
use crate::builds::Builds;
use crate::limits::{Limits, READ_BYTES};
use crate::meter::Meter;
use crate::statistics::Statistics;
use crate::users::Users;
use crate::weight;
use std::sync::Arc;

const REPLY_BYTES: usize = 65_536;

/// The service, buffers to read and write, and the counts.
pub struct Tools {
    pub answers: Answers,
    /// The types by build-id, if there is a store.
    pub builds: Option<Builds>,
    pub statistics: Statistics,
    pub limits: Limits,
    pub users: Arc<Users>,
    pub meter: Meter,
    pub read: Box<[u8]>,
    pub replies: Vec<u8>,
    /// The index of the shard, and the number of shards.
    pub shard: usize,
    pub shards: usize,
}

impl Tools {
    /// The tools of a shard, made in its thread.
    pub fn new(
        answers: Answers,
        builds: Option<Builds>,
        limits: Limits,
        users: Arc<Users>,
        shard: usize,
        shards: usize,
    ) -> Tools {
        Tools {
            answers,
            builds,
            statistics: Statistics::new(),
            limits,
            users,
            meter: Meter::new(),
            read: vec![0; READ_BYTES].into(),
            replies: Vec::with_capacity(REPLY_BYTES),
            shard,
            shards,
        }
    }

    /// Whether answering a line may take as long as reading a whole dictionary.
    pub fn may_be_long(&self, line: &[u8]) -> bool {
        weight::may_be_long(line) || self.builds.as_ref().is_some_and(|builds| builds.is_new(line))
    }
}
