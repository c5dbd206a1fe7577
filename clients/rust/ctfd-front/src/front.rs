//! The front's main thread: it accepts connections, passes them to shards, and reports their
//! counts.

use crate::answers::LAST_SESSION;
use crate::command::Options;
use crate::connection::Connection;
use crate::door::{Door, Snapshot};
use crate::files::{self, Trouble};
use crate::journal::{say, Level};
use crate::listening::Listener;
use crate::metrics::{self, Figures, Places};
use crate::notify::notify;
use crate::refusals::{Cause, Refusal};
use crate::signals::Signals;
use crate::start::{self, Thread};
use crate::statistics::{Dear, Listing, Statistics};
use crate::system;
use crate::text::Words;
use crate::users::{Rejection, Users};
use mio::net::{UnixListener, UnixStream};
use mio::{Events, Interest, Poll, Token};
use std::fmt;
use std::io::{self, ErrorKind, Write};
use std::sync::Arc;
use std::time::{Duration, Instant};

const LISTENER: Token = Token(0);
const SIGNALS: Token = Token(1);
pub const TROUBLE: u8 = 5;
const ENDED_UNASKED: u8 = 6;
const NUMBERS_ENDED: u8 = 7;
/// After failing for lack of file descriptors, accepting is tried again after this time.
const PAUSE: Duration = Duration::from_secs(1);
const METRICS_EVERY: Duration = Duration::from_secs(15);
const TIDIED_EVERY: Duration = Duration::from_secs(60);

/// The state of the main thread.
struct Front {
    options: Options,
    poll: Poll,
    signals: Signals,
    listener: UnixListener,
    doors: Arc<[Door]>,
    users: Arc<Users>,
    /// The counts of this thread: connections that were refused.
    own: Statistics,
    sessions: u64,
    snapshots: Vec<Option<Snapshot>>,
    /// The paths of the statistics file, if one is written.
    places: Option<Places>,
    /// Whether connections may wait to be accepted; after a lack of file descriptors, they are
    /// accepted from a later moment on.
    may_accept: bool,
    accepts_from: Instant,
    next_stats: Option<Instant>,
    next_metrics: Option<Instant>,
    next_tidying: Instant,
}

/// Serves until it is told to end. Returns the exit status.
pub fn run(options: Options, signals: Signals) -> u8 {
    for (name, why) in &options.ignored {
        say(Level::Notice, format_args!("--{name} is without effect: {why}"));
    }
    match serve(options, signals) {
        Ok(status) => status,
        Err(trouble) => {
            say(Level::Error, &trouble.message);
            trouble.status
        }
    }
}

fn serve(options: Options, signals: Signals) -> Result<u8, Trouble> {
    let trouble = |message| Trouble { status: TROUBLE, message };
    let failed = |why: io::Error| trouble(format!("the front can't be started: {}", Words(&why)));
    files::refuse_programs(&options.files)?;
    options.store.as_ref().map_or(Ok(()), start::judge_store)?;
    start::allow_files(&options);
    start::limit_memory(&options).map_err(failed)?;
    let listener = start::listener(&options).map_err(trouble)?;
    let published = Arc::new(files::read(&options.files).map_err(start::not_started)?);
    let users = Arc::new(Users::new(&options.limits));
    let (threads, doors) = start::shards(&options, &users, published)?;
    let poll = Poll::new().map_err(failed)?;
    let socket = listener.socket.try_clone().and_then(|socket| {
        socket.set_nonblocking(true)?;
        Ok(UnixListener::from_std(socket))
    });
    let now = Instant::now();
    let mut front = Front {
        poll,
        signals,
        listener: socket.map_err(failed)?,
        users,
        own: Statistics::new(),
        sessions: 0,
        snapshots: doors.iter().map(|_| None).collect(),
        places: options.metrics.clone().map(Places::of),
        doors,
        may_accept: true,
        accepts_from: now,
        next_stats: options.stats.map(|every| now + every),
        next_metrics: options.metrics.as_ref().map(|_| now + options.metrics_every()),
        next_tidying: now + TIDIED_EVERY,
        options,
    };
    let status = front.work(&threads).map_err(failed);
    front.finish(listener, threads, status?)
}

impl Options {
    /// The interval at which the statistics file is written.
    fn metrics_every(&self) -> Duration {
        self.stats.unwrap_or(METRICS_EVERY)
    }
}

impl Front {
    /// Accepts connections until it is told to end, or can't go on. Returns the exit status.
    fn work(&mut self, threads: &[Thread]) -> io::Result<u8> {
        let registry = self.poll.registry();
        registry.register(&mut self.listener, LISTENER, Interest::READABLE)?;
        registry.register(&mut self.signals.wake, SIGNALS, Interest::READABLE)?;
        say(Level::Notice, "listening");
        notify("READY=1");
        let mut events = Events::with_capacity(8);
        while !self.signals.is_ending() {
            if threads.iter().any(Thread::is_finished) {
                say(Level::Error, "a service ended by itself: start ctfd-front again");
                return Ok(ENDED_UNASKED);
            }
            match self.poll.poll(&mut events, Some(self.patience())) {
                Err(why) if why.kind() != ErrorKind::Interrupted => return Err(why),
                _ => {}
            }
            self.may_accept |= events.iter().any(|event| event.token() == LISTENER);
            self.signals.hush();
            if self.signals.tells() {
                self.tell();
            }
            if self.may_accept && Instant::now() >= self.accepts_from {
                if let Some(status) = self.accept() {
                    return Ok(status);
                }
            }
            self.tick();
        }
        Ok(0)
    }

    /// How long it may wait for events.
    fn patience(&self) -> Duration {
        let accepts = self.may_accept.then_some(self.accepts_from);
        let moments = [self.next_stats, self.next_metrics, Some(self.next_tidying), accepts];
        let next = moments.into_iter().flatten().min();
        let now = Instant::now();
        next.map_or(PAUSE, |next| next.saturating_duration_since(now)).min(PAUSE)
    }

    /// Accepts the connections that wait. Returns the exit status if no session number is left for
    /// one.
    fn accept(&mut self) -> Option<u8> {
        loop {
            match self.listener.accept() {
                Ok((stream, _)) => {
                    if let Some(status) = self.take(stream) {
                        return Some(status);
                    }
                }
                Err(why) if why.kind() == ErrorKind::WouldBlock => {
                    self.may_accept = false;
                    return None;
                }
                Err(why)
                    if matches!(
                        why.kind(),
                        ErrorKind::Interrupted | ErrorKind::ConnectionAborted
                    ) => {}
                Err(why) => {
                    let why = Words(&why);
                    say(
                        Level::Error,
                        format_args!(
                            "no connection can be taken: {why}; raise the limit of open files, or \
                             lower --connections"
                        ),
                    );
                    self.accepts_from = Instant::now() + PAUSE;
                    return None;
                }
            }
        }
    }

    /// Gives a connection a session and a shard. If there are too many, it gets a refusal and is
    /// closed. Returns the exit status if no session number is left.
    fn take(&mut self, stream: UnixStream) -> Option<u8> {
        let user = system::peer_user(&stream).ok()?;
        if let Err(rejection) = self.users.begin(user, Instant::now()) {
            self.turn_away(stream, user, &rejection);
            return None;
        }
        // The last number is that of the store's owner, if there is a store.
        let last = LAST_SESSION - u64::from(self.options.store.is_some());
        if self.sessions >= self.options.limits.sessions.min(last) {
            say(Level::Error, "all numbers of sessions were given: start ctfd-front again");
            return Some(NUMBERS_ENDED);
        }
        self.sessions += 1;
        let Options { limits, withdraws, .. } = &self.options;
        let connection = Connection::new(stream, self.sessions as u32, user, limits, *withdraws);
        let door = self.doors.iter().min_by_key(|door| door.connections())?;
        if door.give(connection).is_some() {
            self.users.end(user);
            self.own.count_close(Cause::Refused(Refusal::Held));
        }
        None
    }

    fn turn_away(&mut self, mut stream: UnixStream, user: u32, rejection: &Rejection) {
        let Rejection { refusal, is_news, own, all } = rejection;
        let cause = Cause::Refused(*refusal);
        self.own.count_close(cause);
        let _ = stream.write(refusal.line());
        if *is_news {
            let words = cause.words();
            say(
                Level::Warning,
                format_args!(
                    "user {user} is refused a connection: {words} ({own} of its own, {all} in all)"
                ),
            );
        }
    }

    /// Does what is due.
    fn tick(&mut self) {
        let now = Instant::now();
        let is_due = |moment: Option<Instant>| moment.is_some_and(|moment| now >= moment);
        if now >= self.next_tidying {
            self.next_tidying = now + TIDIED_EVERY;
            self.users.tidy(now);
        }
        if is_due(self.next_stats) {
            self.next_stats = self.options.stats.map(|every| now + every);
            self.tell();
        } else if is_due(self.next_metrics) {
            self.next_metrics = Some(now + self.options.metrics_every());
            self.ask();
            self.write();
        }
    }

    /// Asks the shards for their counts.
    fn ask(&mut self) {
        for (door, snapshot) in self.doors.iter().zip(&mut self.snapshots) {
            if let Some(new) = door.ask() {
                *snapshot = Some(new);
            }
        }
    }

    /// The sum of all counts.
    fn statistics(&self) -> Statistics {
        let mut all = self.own.clone();
        self.snapshots.iter().flatten().for_each(|snapshot| all.add(&snapshot.statistics));
        all
    }

    /// Writes all counts to standard error, in one line.
    fn tell(&mut self) {
        self.ask();
        let all = self.statistics();
        let services = Services { doors: &self.doors, snapshots: &self.snapshots };
        let dearest = Dearest(all.dearest().next());
        let (open, bytes) = {
            let users = self.users.state();
            (users.connections, users.bytes)
        };
        say(
            Level::Info,
            format_args!(
                "connections {open} of {}, lines {}, bytes in {}, bytes out {}, held {bytes}; \
                 refused: {}; ended: {}; services: {services}{dearest}",
                self.sessions,
                all.lines,
                all.bytes_in,
                all.bytes_out,
                Listing(all.refusals()),
                Listing(all.causes()),
            ),
        );
        self.write();
    }

    /// Writes the statistics file, if there is one.
    fn write(&mut self) {
        let Some(places) = &self.places else { return };
        self.next_metrics = Some(Instant::now() + self.options.metrics_every());
        let statistics = self.statistics();
        let text = metrics::text(&Figures {
            statistics: &statistics,
            users: &self.users.state(),
            shards: &self.snapshots,
            doors: &self.doors,
            connection_total: self.sessions,
            memory: system::memory("VmRSS:"),
        });
        let put = text.bytes().ok_or(ErrorKind::OutOfMemory.into());
        if let Err(why) = put.and_then(|bytes| places.put(bytes)) {
            let why = Words(&why);
            say(Level::Warning, format_args!("{places}: {why}: statistics can't be written there"));
        }
    }

    /// Stops the shards, which first answer what they have read. Returns the exit status.
    fn finish(
        mut self,
        listener: Listener,
        threads: Vec<Thread>,
        status: u8,
    ) -> Result<u8, Trouble> {
        drop(listener);
        notify("STOPPING=1");
        self.doors.iter().for_each(Door::stop);
        let mut left = 0;
        for thread in threads {
            left += thread.join().ok().and_then(Result::ok).unwrap_or_default();
        }
        if left > 0 {
            say(
                Level::Warning,
                format_args!(
                    "{left} connections were not answered, or did not read their replies, and are \
                     closed"
                ),
            );
        }
        if self.options.metrics.is_some() {
            self.ask();
            self.write();
        }
        Ok(status)
    }
}

/// The services, for the line of statistics.
struct Services<'a> {
    doors: &'a [Door],
    snapshots: &'a [Option<Snapshot>],
}

impl fmt::Display for Services<'_> {
    fn fmt(&self, to: &mut fmt::Formatter<'_>) -> fmt::Result {
        let memory = system::memory("VmRSS:");
        for (shard, (door, snapshot)) in self.doors.iter().zip(self.snapshots).enumerate() {
            let seconds = snapshot.as_ref().map_or(0.0, |counts| counts.processor.as_secs_f64());
            let (comma, connections) = (if shard == 0 { "" } else { ", " }, door.connections());
            write!(
                to,
                "{comma}{shard} has {connections} connections, {seconds:.2} s, {memory} bytes"
            )?;
        }
        Ok(())
    }
}

/// The request that took longest, for the line of statistics.
struct Dearest<'a>(Option<&'a Dear>);

impl fmt::Display for Dearest<'_> {
    fn fmt(&self, to: &mut fmt::Formatter<'_>) -> fmt::Result {
        self.0.map_or(Ok(()), |dear| write!(to, "; dearest: {dear}"))
    }
}
