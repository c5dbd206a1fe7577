//! A shard: a thread with a service of its own and a part of the connections.

use crate::connection::{After, Connection};
use crate::door::{Door, Row, Snapshot};
use crate::refusals::{Cause, Refusal};
use crate::tools::Tools;
use crate::turns::Turns;
use mio::{Events, Poll, Token};
use std::io::{self, ErrorKind};
use std::sync::Arc;
use std::time::{Duration, Instant};

/// The token of a shard's waker.
pub const BELL: Token = Token(usize::MAX);
/// How long turns go on before new events are read.
const SLICE: Duration = Duration::from_millis(2);
/// The bounds of the interval at which silent clients are looked for.
const LEAST_TICK: Duration = Duration::from_millis(20);
const LONGEST_TICK: Duration = Duration::from_secs(1);
/// The most events of one poll. Their connections are served before more events are read, in less
/// than a slice if lines are short: so all clients with short requests come one after another.
const EVENTS: usize = 128;

/// The state of a shard's thread.
pub struct Shard {
    doors: Arc<[Door]>,
    poll: Poll,
    tools: Tools,
    turns: Turns,
    connections: Vec<Option<Connection>>,
    free: Vec<usize>,
    open: usize,
    /// When it ends, even if replies are unread.
    until: Option<Instant>,
    next_tick: Instant,
}

impl Shard {
    /// A shard without connections. `doors` are those of all shards.
    pub fn new(poll: Poll, doors: Arc<[Door]>, tools: Tools) -> Shard {
        Shard {
            doors,
            poll,
            tools,
            turns: Turns::new(),
            connections: Vec::new(),
            free: Vec::new(),
            open: 0,
            until: None,
            next_tick: Instant::now(),
        }
    }

    /// Serves until it is told to end and all replies are read, or the time for that is over.
    /// Returns the number of connections that were closed before that.
    pub fn run(mut self) -> io::Result<usize> {
        let mut events = Events::with_capacity(EVENTS);
        loop {
            self.hear(&mut events)?;
            self.turns.wake(self.tools.meter.last());
            self.slice();
            self.tick();
            if self.until.is_some_and(|until| self.is_over(until)) {
                break;
            }
        }
        let left = self.open;
        (0..self.connections.len()).for_each(|token| self.close(token, Cause::Unread));
        self.tell();
        Ok(left)
    }

    /// Polls and notes events. If a connection is left without a turn, all events are noted, since
    /// those who come now may go first.
    fn hear(&mut self, events: &mut Events) -> io::Result<()> {
        let times = if self.turns.is_empty() { 1 } else { 1 + self.open / EVENTS };
        for _ in 0..times {
            match self.poll.poll(events, self.patience()) {
                Err(why) if why.kind() == ErrorKind::Interrupted => return Ok(()),
                polled => polled?,
            }
            self.tools.meter.refresh();
            if self.note(events) < EVENTS {
                break;
            }
        }
        Ok(())
    }

    /// Notes some events. Returns their number.
    fn note(&mut self, events: &Events) -> usize {
        let mut count = 0;
        for event in events {
            count += 1;
            if event.token() == BELL {
                self.look();
            } else if let Some(Some(connection)) = self.connections.get_mut(event.token().0) {
                connection.note(event);
                self.turns.offer(event.token().0);
            }
        }
        count
    }

    /// Whether no shard has connections, any of which could still move here, or the time is over.
    fn is_over(&self, until: Instant) -> bool {
        let is_empty = self.doors.iter().all(|door| door.connections() == 0);
        is_empty || self.tools.meter.last() > until
    }

    fn door(&self) -> &Door {
        &self.doors[self.tools.shard]
    }

    /// How long it may wait for events.
    fn patience(&self) -> Option<Duration> {
        if !self.turns.is_empty() {
            return Some(Duration::ZERO);
        }
        let now = Instant::now();
        let tick = (self.open > 0).then_some(self.next_tick);
        let ending = self.until.map(|_| now + LEAST_TICK);
        let moments = [self.turns.next_wake(), ending, tick];
        let next = moments.into_iter().flatten().min()?;
        Some(next.saturating_duration_since(now))
    }

    /// Gives turns for a limited time.
    fn slice(&mut self) {
        let began = self.tools.meter.now();
        let mut before = began;
        while let Some(token) = self.turns.next() {
            let Some(connection) = self.connections[token].as_mut() else { continue };
            let mut longest = Duration::ZERO;
            let before_turn = connection.time_used;
            let may_wait = self.turns.may_put_behind(token);
            let after = connection.turn(&mut self.tools, may_wait, &mut longest);
            let answering = connection.time_used - before_turn;
            // Nobody is charged for the time in which the thread did not run: during a long
            // request, or after a reply, whose reader may have taken this processor.
            let turn = self.tools.meter.time_since(before);
            let took = if longest > crate::turns::LONG { answering } else { turn };
            let now = self.tools.meter.last();
            self.turns.charge(token, took, longest, now);
            self.follow(token, after);
            before = now;
            if now - began > SLICE {
                break;
            }
        }
    }

    /// Does what a connection waits for after its turn.
    fn follow(&mut self, token: usize, after: Result<After, Cause>) {
        let Some(connection) = self.connections[token].as_mut() else { return };
        match after {
            Ok(After::Turn) => self.turns.offer(token),
            Ok(After::Others) => self.turns.put_behind(token),
            Ok(After::Client) => {
                if connection.watch(self.poll.registry(), token).is_err() {
                    self.close(token, Cause::Broken);
                }
            }
            Ok(After::Shard(shard)) => self.hand_over(token, shard),
            Err(cause) => self.close(token, cause),
        }
    }

    /// Closes a connection and frees its session. Its user is charged for the time.
    fn close(&mut self, token: usize, cause: Cause) {
        let Some(mut connection) = self.connections[token].take() else { return };
        connection.deregister(self.poll.registry());
        let began = self.tools.meter.now();
        connection.close(cause, &mut self.tools);
        let now = self.tools.meter.now();
        self.turns.charge(token, now - began, Duration::ZERO, now);
        self.leave(token);
    }

    /// Passes a connection to the shard that has its room.
    fn hand_over(&mut self, token: usize, shard: usize) {
        let Some(mut connection) = self.connections[token].take() else { return };
        connection.deregister(self.poll.registry());
        if let Some(connection) = self.doors[shard].give(connection) {
            connection.close(Cause::Refused(Refusal::Held), &mut self.tools);
        }
        self.leave(token);
    }

    /// Frees the token of a connection that has gone.
    fn leave(&mut self, token: usize) {
        self.turns.leave(token);
        self.free.push(token);
        self.open -= 1;
        self.door().leave();
    }

    /// Handles what other threads passed and asked.
    fn look(&mut self) {
        while let Some(connection) = self.door().comer() {
            self.adopt(connection);
        }
        if self.door().is_asked() {
            self.tell();
        }
        if self.door().is_stopping() && self.until.is_none() {
            self.until = Some(Instant::now() + self.tools.limits.grace);
            for token in 0..self.connections.len() {
                if let Some(connection) = &mut self.connections[token] {
                    connection.finish(&mut self.tools);
                    self.turns.offer(token);
                }
            }
        }
    }

    /// Adds a connection. If memory is refused, or it can't be polled, it is closed.
    fn adopt(&mut self, mut connection: Connection) {
        match self.place(connection.user) {
            Some(token) if connection.register(self.poll.registry(), token).is_ok() => {
                if self.until.is_some() {
                    connection.finish(&mut self.tools);
                }
                self.connections[token] = Some(connection);
                self.open += 1;
                self.turns.offer(token);
            }
            place => {
                if let Some(token) = place {
                    self.turns.leave(token);
                    self.free.push(token);
                }
                connection.close(Cause::Refused(Refusal::Held), &mut self.tools);
                self.door().leave();
            }
        }
    }

    /// A token for a user's connection; `None` if memory is refused.
    fn place(&mut self, user: u32) -> Option<usize> {
        let token = match self.free.pop() {
            Some(token) => token,
            None => {
                self.connections.try_reserve(1).ok()?;
                // All tokens may be free at the same time.
                let places = self.connections.len() + 1;
                self.free.try_reserve(places.saturating_sub(self.free.len())).ok()?;
                self.connections.push(None);
                places - 1
            }
        };
        if self.turns.join(token, user).is_err() {
            self.free.push(token);
            return None;
        }
        Some(token)
    }

    /// Closes connections that are silent for too long.
    fn tick(&mut self) {
        let now = self.tools.meter.last();
        if now < self.next_tick {
            return;
        }
        let limits = &self.tools.limits;
        let tick = (limits.idle.min(limits.stalled) / 4).clamp(LEAST_TICK, LONGEST_TICK);
        self.next_tick = now + tick;
        self.turns.tidy_all();
        for token in 0..self.connections.len() {
            let connection = self.connections[token].as_ref();
            let overdue = connection.and_then(|open| open.overdue(now, &self.tools.limits));
            if let Some(cause) = overdue {
                self.close(token, cause);
            }
        }
    }

    /// Passes its counts to the main thread.
    fn tell(&self) {
        let mut connections = Vec::new();
        // If memory is refused, the rows of connections are left out.
        if connections.try_reserve(self.open).is_ok() {
            connections.extend(self.connections.iter().flatten().map(|open| Row {
                session: open.session,
                user: open.user,
                lines: open.lines,
                refusals: open.refusals,
                time_used: open.time_used,
                bytes: open.bytes(),
            }));
        }
        let processor = self.tools.meter.processor();
        let statistics = self.tools.statistics.clone();
        self.door().tell(Snapshot { statistics, processor, connections });
    }
}
