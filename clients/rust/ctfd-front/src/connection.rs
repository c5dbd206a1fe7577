//! A connection: the client's lines that are not answered yet, and the replies that it has not
//! read.

use crate::answers::{OutOfMemory, Session};
use crate::incoming::{Incoming, Line};
use crate::limits::Limits;
use crate::refusals::{Cause, Refusal};
use crate::rooms::Room;
use crate::tools::Tools;
use crate::turns::LONG;
use mio::event::{Event, Source};
use mio::net::UnixStream;
use mio::{Interest, Registry, Token};
use std::io::{self, ErrorKind, Read, Write};
use std::time::{Duration, Instant};

/// The limits of a turn in lines, time and bytes of replies. A single line may take longer.
const TURN_LINES: usize = 128;
const TURN_TIME: Duration = Duration::from_micros(250);
const TURN_BYTES: usize = 262_144;
/// The least change of the memory in use that is counted.
const COUNTED_BYTES: usize = 4_096;

const LONG_LINE: &[u8] = b"{\"fault\":{\"code\":59,\"name\":\"LongLine\",\"place\":0},\"s\":0}\n";
const OK: &[u8] = b"{\"ok\"";

/// What a connection waits for after its turn.
#[derive(Clone, Copy, PartialEq, Eq, Debug)]
pub enum After {
    /// Another turn.
    Turn,
    /// Other connections, whose requests are short: its own next request may be long, and is not
    /// answered yet.
    Others,
    /// Its client, which has to send or to read.
    Client,
    /// Another shard, which has its room.
    Shard(usize),
}

/// A client's socket, with its session.
pub struct Connection {
    stream: UnixStream,
    pub session: Session,
    pub user: u32,
    incoming: Incoming,
    unsent: Vec<u8>,
    sent_bytes: usize,
    /// Whether its publications are withdrawn when it ends.
    withdraws: bool,
    counted_bytes: usize,
    last_move: Instant,
    is_readable: bool,
    has_hung_up: bool,
    has_ended: bool,
    has_entered: bool,
    /// Whether a request was granted: otherwise the session has nothing to free.
    may_hold: bool,
    waits_to_write: bool,
    pub lines: u64,
    pub refusals: u64,
    pub time_used: Duration,
}

impl From<OutOfMemory> for Cause {
    fn from(_: OutOfMemory) -> Cause {
        Cause::Refused(Refusal::Held)
    }
}

impl Connection {
    /// A connection of a user, with the number of its session.
    pub fn new(
        stream: UnixStream,
        number: Session,
        user: u32,
        limits: &Limits,
        withdraws: bool,
    ) -> Connection {
        Connection {
            stream,
            session: number,
            user,
            incoming: Incoming::new(limits.line),
            unsent: Vec::new(),
            sent_bytes: 0,
            withdraws,
            counted_bytes: 0,
            last_move: Instant::now(),
            is_readable: true,
            has_hung_up: false,
            has_ended: false,
            has_entered: false,
            may_hold: false,
            waits_to_write: false,
            lines: 0,
            refusals: 0,
            time_used: Duration::ZERO,
        }
    }

    /// Registers the socket with a poll.
    pub fn register(&mut self, registry: &Registry, token: usize) -> io::Result<()> {
        self.waits_to_write = false;
        self.stream.register(registry, Token(token), Interest::READABLE)
    }

    /// Removes the socket from its poll.
    pub fn deregister(&mut self, registry: &Registry) {
        let _ = self.stream.deregister(registry);
    }

    /// Notes an event of the poll.
    pub fn note(&mut self, event: &Event) {
        if event.is_readable() || event.is_error() {
            self.is_readable = !self.has_ended;
        }
        // The end is reported once, perhaps with bytes before it: then a short read is not the
        // last.
        self.has_hung_up |= event.is_read_closed() || event.is_error();
    }

    /// Sends waiting replies, reads once, answers a limited number of lines, and sends their
    /// replies. If the next request may be long and `may_wait`, it answers nothing, so that others
    /// come first. `longest` is raised to the time of the longest request. Fails with the cause for
    /// which the connection is to be closed.
    pub fn turn(
        &mut self,
        tools: &mut Tools,
        may_wait: bool,
        longest: &mut Duration,
    ) -> Result<After, Cause> {
        self.flush(tools)?;
        if self.unread_bytes() > tools.limits.unread {
            return Ok(After::Client);
        }
        if !self.incoming.has_line() && self.is_readable {
            self.read(tools)?;
        }
        let is_long =
            |line: &Line<'_>| matches!(line, Line::Whole(line) if tools.may_be_long(line));
        if may_wait && self.incoming.line().as_ref().is_some_and(is_long) {
            return Ok(After::Others);
        }
        let mut replies = std::mem::take(&mut tools.replies);
        replies.clear();
        let answered = self.answer(tools, &mut replies, longest);
        let sent = self.send(&replies, tools);
        tools.replies = replies;
        sent?;
        let shard = answered?;
        self.count(tools)?;
        match shard {
            Some(shard) => Ok(After::Shard(shard)),
            None => self.after(tools),
        }
    }

    fn after(&self, tools: &Tools) -> Result<After, Cause> {
        let is_unread = self.unread_bytes() > tools.limits.unread;
        if !is_unread && (self.incoming.has_line() || self.is_readable) {
            Ok(After::Turn)
        } else if self.has_ended && self.unread_bytes() == 0 {
            Err(Cause::ByItself)
        } else {
            Ok(After::Client)
        }
    }

    /// Registers whether the poll reports that the client can read: only if there are replies to
    /// send.
    pub fn watch(&mut self, registry: &Registry, token: usize) -> io::Result<()> {
        let waits = self.unread_bytes() > 0;
        if waits == self.waits_to_write {
            return Ok(());
        }
        self.waits_to_write = waits;
        let write = if waits { Some(Interest::WRITABLE) } else { None };
        let interest = write.map_or(Interest::READABLE, |write| Interest::READABLE | write);
        self.stream.reregister(registry, Token(token), interest)
    }

    /// Stops reading, except what has arrived: whole lines are answered.
    pub fn finish(&mut self, tools: &mut Tools) {
        if !self.incoming.has_line() && !self.has_ended {
            // If the socket is broken, writing to it will show that again.
            let _ = self.read(tools);
        }
        self.incoming.drop_piece();
        (self.has_ended, self.is_readable) = (true, false);
    }

    /// The cause for which it is to be closed, if it has been silent too long.
    pub fn overdue(&self, now: Instant, limits: &Limits) -> Option<Cause> {
        let silent = now.saturating_duration_since(self.last_move);
        let (cause, most) = if self.unread_bytes() > 0 {
            (Cause::Unread, limits.stalled)
        } else if self.incoming.has_line() {
            return None;
        } else if self.incoming.has_piece() {
            (Cause::HalfALine, limits.stalled)
        } else {
            (Cause::Idle, limits.idle)
        };
        (silent > most).then_some(cause)
    }

    /// Frees its session and all that is counted for it, and closes it.
    pub fn close(mut self, cause: Cause, tools: &mut Tools) {
        if let (Cause::Refused(refusal), 0) = (cause, self.unread_bytes()) {
            let _ = self.stream.write(refusal.line());
        }
        if self.may_hold {
            tools.replies.clear();
            tools.answers.leave(self.session, self.withdraws, &mut tools.replies);
        }
        tools.users.hold(self.user, self.counted_bytes, 0);
        tools.users.end(self.user);
        tools.statistics.count_close(cause);
    }

    /// The bytes that are counted for it.
    pub fn bytes(&self) -> usize {
        self.counted_bytes
    }

    fn unread_bytes(&self) -> usize {
        self.unsent.len() - self.sent_bytes
    }

    /// Answers whole lines, as many as a turn allows. Returns the shard to which the connection
    /// moves, if it does.
    fn answer(
        &mut self,
        tools: &mut Tools,
        replies: &mut Vec<u8>,
        longest: &mut Duration,
    ) -> Result<Option<usize>, Cause> {
        let mut before = tools.meter.now();
        let until = before + TURN_TIME;
        let most = TURN_LINES.min(tools.limits.ahead).min(tools.limits.user_ahead);
        for _ in 0..most {
            if !self.has_entered && self.incoming.has_line() {
                self.has_entered = true;
                if let Some(shard) = self.enter(tools, replies)? {
                    return Ok((shard != tools.shard).then_some(shard));
                }
            }
            let Some(took) = self.answer_line(tools, replies, before)? else { break };
            let now = tools.meter.last();
            *longest = took.max(*longest);
            self.time_used += took;
            before = now;
            if now > until || took > LONG || replies.len() > TURN_BYTES {
                break;
            }
        }
        Ok(None)
    }

    /// Answers the next line, if there is one. Returns the time since `before`.
    fn answer_line(
        &mut self,
        tools: &mut Tools,
        replies: &mut Vec<u8>,
        before: Instant,
    ) -> Result<Option<Duration>, Cause> {
        let start = replies.len();
        let mut took = Duration::ZERO;
        match self.incoming.line() {
            None => return Ok(None),
            Some(Line::TooLong) => {
                replies.try_reserve(LONG_LINE.len()).map_err(OutOfMemory::from)?;
                replies.extend_from_slice(LONG_LINE);
                self.incoming.skip();
            }
            Some(Line::Whole(line)) => {
                if let Some(builds) = &mut tools.builds {
                    builds.provide(line, &mut tools.answers, replies)?;
                }
                tools.answers.answer(self.session, line, replies)?;
                self.may_hold |= replies[start..].starts_with(OK);
                took = tools.meter.time_since(before);
                tools.statistics.note_time(took, self.session, self.user, line);
                let bytes = line.len();
                self.incoming.pass(bytes);
            }
        }
        self.lines += 1;
        self.refusals += u64::from(tools.statistics.count_reply(&replies[start..]));
        Ok(Some(took))
    }

    /// Enters a room if the first line asks for one. Returns the shard that has the room.
    fn enter(
        &mut self,
        tools: &mut Tools,
        replies: &mut Vec<u8>,
    ) -> Result<Option<usize>, OutOfMemory> {
        let Some(Line::Whole(line)) = self.incoming.line() else { return Ok(None) };
        let Some(room) = Room::of_line(line) else { return Ok(None) };
        if !tools.answers.is_json(line, replies)? {
            return Ok(None);
        }
        room.reply(self.session, replies)?;
        self.incoming.skip();
        Ok(Some(room.shard(tools.shards)))
    }

    /// Reads once from the socket.
    fn read(&mut self, tools: &mut Tools) -> Result<(), Cause> {
        let most = tools.read.len().min(tools.limits.bytes);
        match self.stream.read(&mut tools.read[..most]) {
            Ok(0) => {
                (self.is_readable, self.has_ended) = (false, true);
                self.incoming.end().map_err(OutOfMemory::from)?;
            }
            Ok(count) => {
                self.is_readable = count == most || self.has_hung_up;
                tools.statistics.bytes_in += count as u64;
                let was_empty = !self.incoming.has_piece();
                let has_line = self.incoming.feed(&tools.read[..count]);
                if has_line.map_err(OutOfMemory::from)? || was_empty {
                    self.last_move = tools.meter.last();
                }
            }
            Err(why) if is_for_now(&why) => self.is_readable = false,
            Err(_) => return Err(Cause::Broken),
        }
        Ok(())
    }

    /// Sends replies after those that wait. What the socket does not take waits too.
    fn send(&mut self, replies: &[u8], tools: &mut Tools) -> Result<(), Cause> {
        let mut rest = replies;
        if self.unread_bytes() == 0 && !rest.is_empty() {
            let count = self.write(rest, tools)?;
            rest = &rest[count..];
        }
        if !rest.is_empty() {
            self.unsent.try_reserve(rest.len()).map_err(OutOfMemory::from)?;
            self.unsent.extend_from_slice(rest);
        }
        Ok(())
    }

    /// Sends waiting replies, as many as the socket takes.
    fn flush(&mut self, tools: &mut Tools) -> Result<(), Cause> {
        if self.unread_bytes() == 0 {
            return Ok(());
        }
        let unsent = std::mem::take(&mut self.unsent);
        let written = self.write(&unsent[self.sent_bytes..], tools);
        self.unsent = unsent;
        self.sent_bytes += written?;
        if self.unread_bytes() == 0 {
            (self.unsent, self.sent_bytes) = (Vec::new(), 0);
        } else if self.sent_bytes > self.unsent.len() / 2 {
            self.unsent.drain(..self.sent_bytes);
            self.sent_bytes = 0;
        }
        Ok(())
    }

    /// Writes as much as the socket takes. Returns the number of bytes.
    fn write(&mut self, data: &[u8], tools: &mut Tools) -> Result<usize, Cause> {
        let mut count = 0;
        while count < data.len() {
            match self.stream.write(&data[count..]) {
                Ok(more) => count += more,
                Err(why) if is_for_now(&why) => break,
                Err(_) => return Err(Cause::Broken),
            }
        }
        if count > 0 {
            self.last_move = tools.meter.last();
            tools.statistics.bytes_out += count as u64;
        }
        Ok(count)
    }

    /// Counts the memory in use, if it has changed by enough.
    fn count(&mut self, tools: &Tools) -> Result<(), Cause> {
        let bytes = self.incoming.size() + self.unread_bytes();
        if bytes.abs_diff(self.counted_bytes) < COUNTED_BYTES {
            return Ok(());
        }
        let before = std::mem::replace(&mut self.counted_bytes, bytes);
        if tools.users.hold(self.user, before, bytes) {
            return Err(Cause::Refused(Refusal::Held));
        }
        Ok(())
    }
}

/// Whether a call may be tried again later.
fn is_for_now(why: &io::Error) -> bool {
    matches!(why.kind(), ErrorKind::WouldBlock | ErrorKind::Interrupted)
}
