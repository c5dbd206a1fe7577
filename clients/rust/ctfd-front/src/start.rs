//! Preparations before connections are accepted: the socket, limits, and the shards.

use crate::answers::Answers;
use crate::builds::{Builds, Store, OWNER};
use crate::command::Options;
use crate::door::Door;
use crate::files::{PublishedDictionary, Trouble};
use crate::front::TROUBLE;
use crate::journal::{say, Level};
use crate::limits::Limits;
use crate::listening::{self, Listener};
use crate::shard::{Shard, BELL};
use crate::system;
use crate::text::Words;
use crate::tools::Tools;
use crate::users::Users;
use mio::{Poll, Waker};
use rustix::process::{getrlimit, setrlimit, Resource, Rlimit};
use std::io;
use std::sync::{mpsc, Arc};
use std::thread::{self, JoinHandle};

/// The files that are open besides connections, and those of a shard.
const SPARE_FILES: u64 = 32;
const SHARD_FILES: u64 = 4;

/// The memory that a shard's thread needs, with its stack, and that of the front for a connection,
/// in bytes.
const SHARD_BYTES: u64 = 4 << 20;
const CONNECTION_BYTES: u64 = 4 << 10;

/// The thread of a shard. It returns the number of connections closed unread, or an error.
pub type Thread = JoinHandle<io::Result<usize>>;

/// The socket of systemd, or the one at the path of the command line.
pub fn listener(options: &Options) -> Result<Listener, String> {
    match (listening::from_systemd()?, &options.socket) {
        (Some(_), Some(_)) => Err("systemd hands over a socket: leave --socket out".into()),
        (Some(listener), None) => Ok(listener),
        (None, None) => Err("there is no socket: name one by --socket PATH, or let systemd hand \
                             one over"
            .into()),
        (None, Some(path)) => listening::at_path(path, options.mode, options.group.as_deref()),
    }
}

/// Raises the limit of open files, as far as necessary and allowed.
pub fn allow_files(options: &Options) {
    let Rlimit { current, maximum } = getrlimit(Resource::Nofile);
    let shards = options.shards as u64;
    let wanted = options.limits.connections as u64 + SPARE_FILES + SHARD_FILES * shards;
    if current.is_none_or(|current| current >= wanted) {
        return;
    }
    let most = maximum.map_or(wanted, |maximum| maximum.min(wanted));
    let is_set = setrlimit(Resource::Nofile, Rlimit { current: Some(most), maximum }).is_ok();
    if most < wanted || !is_set {
        say(
            Level::Warning,
            format_args!(
                "no more than {most} files may be open, which is less than --connections wants: \
                 raise `ulimit -Hn` or LimitNOFILE="
            ),
        );
    }
}

/// Limits the data memory of this process: to what it has, what the front may need, and what the
/// services may have. A request that needs more is then refused with Memory.
pub fn limit_memory(options: &Options) -> io::Result<()> {
    let Some(of_services) = options.service_memory else { return Ok(()) };
    let Limits { memory, connections, .. } = options.limits;
    let of_shards = SHARD_BYTES * options.shards as u64;
    let of_front = memory as u64 + CONNECTION_BYTES * connections as u64;
    let wanted = system::memory("VmData:") + of_shards + of_front + of_services;
    let maximum = getrlimit(Resource::Data).maximum;
    let current = Some(maximum.map_or(wanted, |maximum| maximum.min(wanted)));
    Ok(setrlimit(Resource::Data, Rlimit { current, maximum })?)
}

/// The error of a service that never answered.
pub fn not_started(trouble: Trouble) -> Trouble {
    say(Level::Error, &trouble.message);
    let status = trouble.status;
    let message = format!(
        "the service ended with status {status} before it answered: see its message above; start \
         ctfd-front again"
    );
    Trouble { status, message }
}

/// Refuses a store that can't be read.
pub fn judge_store(store: &Store) -> Result<(), Trouble> {
    let (folder, converter) = (store.folder.display(), &store.converter);
    let message = if !store.folder.is_dir() {
        format!("{folder} is no folder: `ctfd-store add {folder} FILE..` makes a store")
    } else if !converter.is_file() {
        format!(
            "--store needs ctfd-convert beside ctfd-front: {} is not there",
            converter.display()
        )
    } else {
        say(
            Level::Notice,
            format_args!("builds of {folder} are taken from owner {}, by their build-ids", OWNER),
        );
        return Ok(());
    };
    Err(Trouble { status: 2, message })
}

/// Starts the shards, each with the operator's dictionaries.
pub fn shards(
    options: &Options,
    users: &Arc<Users>,
    published: Arc<Vec<PublishedDictionary>>,
) -> Result<(Vec<Thread>, Arc<[Door]>), Trouble> {
    let failed = |why: io::Error| Trouble {
        status: TROUBLE,
        message: format!("the service can't be started: {}", Words(&why)),
    };
    let polls: Vec<Poll> =
        (0..options.shards).map(|_| Poll::new()).collect::<io::Result<_>>().map_err(failed)?;
    let doors = polls.iter().map(|poll| Waker::new(poll.registry(), BELL).map(Door::new));
    let doors: Arc<[Door]> = doors.collect::<io::Result<Vec<_>>>().map_err(failed)?.into();
    let (ready, is_ready) = mpsc::channel();
    let mut threads = Vec::new();
    for (shard, poll) in polls.into_iter().enumerate() {
        let (doors, users, limits) = (doors.clone(), users.clone(), options.limits.clone());
        let (published, ready, shards) = (published.clone(), ready.clone(), options.shards);
        let store = options.store.clone();
        let work = move || {
            let loaded = answers(&published);
            drop(published);
            let (loaded, answers) = match loaded {
                Ok(answers) => (Ok(()), Some(answers)),
                Err(trouble) => (Err(trouble), None),
            };
            let _ = ready.send(loaded);
            let Some(answers) = answers else { return Ok(0) };
            let tools = Tools::new(answers, store.map(Builds::new), limits, users, shard, shards);
            Shard::new(poll, doors, tools).run()
        };
        let thread = thread::Builder::new().name(format!("shard {shard}")).spawn(work);
        threads.push(thread.map_err(failed)?);
    }
    drop((ready, published));
    is_ready.iter().take(threads.len()).collect::<Result<(), _>>().map_err(not_started)?;
    Ok((threads, doors))
}

/// A service with the operator's dictionaries.
fn answers(published: &[PublishedDictionary]) -> Result<Answers, Trouble> {
    let refused = |name: &dyn std::fmt::Display, why: ctfd::Refusal| Trouble {
        status: if why.fault == ctfd::Fault::Memory { 4 } else { 1 },
        message: format!("{name}: {:?} at {}", why.fault, why.place),
    };
    let mut answers = Answers::new().map_err(|why| refused(&"the service", why))?;
    for file in published {
        let loaded = answers.load(&file.name, &file.section);
        loaded.map_err(|why| refused(&file.path.display(), why))?;
    }
    Ok(answers)
}
