//! Fairness: whose lines the service answers next.
//!
//! This is start-time fair queueing on two levels: users, and the connections of each. A tag is the
//! time that a user or connection has used. Those who come, or come again, begin with the tag of
//! the one served last, so nobody saves up time. The least tag is served first. Of equal tags, a
//! request whose word is that of a short one is first, so a new client need not wait for all who
//! came with a long one.
//!
//! A turn is short, unless a single request is long. If others are active, a connection that had
//! such a request rests as long as that took: so the others have half of the time undisturbed, even
//! if they have no line waiting at the moment when the service is free.
//!
//! All memory for turns is reserved when a connection joins, so nothing here fails later.

use std::cmp::Reverse;
use std::collections::{BinaryHeap, HashMap, TryReserveError};
use std::hash::{BuildHasherDefault, Hasher};
use std::time::{Duration, Instant};

/// A request that takes longer than this is long.
pub const LONG: Duration = Duration::from_millis(2);
/// How long after a turn a connection counts as active.
const ABOUT: Duration = Duration::from_secs(1);
const LONGEST_REST: Duration = Duration::from_secs(1);

/// A place in a queue: the tag, the order of arrival, and the owner.
type Place<T> = Reverse<(u64, u64, T)>;
/// Added to the order of a connection whose next request may be long, so that it comes after all
/// others with its tag.
const BEHIND: u64 = 1 << 63;

/// Those who wait, ordered by tags in nanoseconds. `now` is the tag of the one served last.
struct Queue<T> {
    heap: BinaryHeap<Place<T>>,
    now: u64,
}

impl<T: Ord> Queue<T> {
    fn new() -> Queue<T> {
        Queue { heap: BinaryHeap::new(), now: 0 }
    }

    fn push(&mut self, tag: &mut u64, may_be_long: bool, order: u64, who: T) {
        *tag = self.now.max(*tag);
        let order = if may_be_long { order | BEHIND } else { order };
        self.heap.push(Reverse((*tag, order, who)));
    }

    /// Reserves memory for `count` places.
    fn reserve(&mut self, count: usize) -> Result<(), TryReserveError> {
        self.heap.try_reserve(count.saturating_sub(self.heap.len()))
    }
}

/// A hasher of user numbers. The system assigns these, so nobody can choose them to collide.
#[derive(Default)]
struct Spreader(u64);

impl Hasher for Spreader {
    fn write(&mut self, bytes: &[u8]) {
        bytes.iter().for_each(|byte| self.write_u32(u32::from(*byte)));
    }

    fn write_u32(&mut self, number: u32) {
        // 2^64 divided by the golden ratio, which spreads numbers that are close.
        let spread = (self.0 ^ u64::from(number)).wrapping_mul(0x9e37_79b9_7f4a_7c15);
        self.0 = spread.rotate_left(32);
    }

    fn finish(&self) -> u64 {
        self.0
    }
}

/// A user: its tag among users, and the queue of its connections.
struct User {
    tag: u64,
    is_waiting: bool,
    connections: usize,
    queue: Queue<usize>,
}

/// A connection: its user, and its tag among the user's connections.
struct Asker {
    user: u32,
    tag: u64,
    /// The order of its place in the queue, if it has one.
    place: Option<u64>,
    is_resting: bool,
    /// Whether its next request may be long, and it was put behind others with its tag.
    is_behind: bool,
}

/// The turns of a shard. Connections are identified by their tokens.
pub struct Turns {
    users: HashMap<u32, User, BuildHasherDefault<Spreader>>,
    queue: Queue<u32>,
    askers: Vec<Option<Asker>>,
    rests: BinaryHeap<Reverse<(Instant, usize)>>,
    order: u64,
    count: usize,
    /// The connection that had the last turn and when, and when another had one.
    recent: Option<usize>,
    recently: Option<Instant>,
    others_recently: Option<Instant>,
}

impl Turns {
    /// No connections.
    pub fn new() -> Turns {
        Turns {
            users: HashMap::default(),
            queue: Queue::new(),
            askers: Vec::new(),
            rests: BinaryHeap::new(),
            order: 0,
            count: 0,
            recent: None,
            recently: None,
            others_recently: None,
        }
    }

    /// Adds a connection of a user, with a token that is not in use.
    pub fn join(&mut self, token: usize, user: u32) -> Result<(), TryReserveError> {
        if self.askers.len() <= token {
            self.askers.try_reserve(token + 1 - self.askers.len())?;
            self.askers.resize_with(token + 1, || None);
        }
        self.users.try_reserve(1)?;
        self.rests.try_reserve((self.count + 1).saturating_sub(self.rests.len()))?;
        self.queue.reserve(self.users.len() + 1)?;
        let now = self.queue.now;
        let known = self.users.entry(user).or_insert(User {
            tag: now,
            is_waiting: false,
            connections: 0,
            queue: Queue::new(),
        });
        known.queue.reserve(known.connections + 1)?;
        known.connections += 1;
        self.count += 1;
        let tag = known.queue.now;
        self.askers[token] =
            Some(Asker { user, tag, place: None, is_resting: false, is_behind: false });
        Ok(())
    }

    /// Removes a connection.
    pub fn leave(&mut self, token: usize) {
        let Some(asker) = self.askers[token].take() else { return };
        self.count -= 1;
        if asker.is_resting {
            self.rests.retain(|Reverse((_, rests))| *rests != token);
        }
        if self.recent == Some(token) {
            self.recent = None;
        }
        if let Some(user) = self.users.get_mut(&asker.user) {
            user.connections -= 1;
            if asker.place.is_some() {
                user.queue.heap.retain(|Reverse((.., waits))| *waits != token);
            }
        }
        self.queue_again(asker.user);
        self.tidy(asker.user);
    }

    /// Puts a user into the queue, if its connections wait.
    fn queue_again(&mut self, number: u32) {
        let Some(user) = self.users.get_mut(&number) else { return };
        if !user.is_waiting && !user.queue.heap.is_empty() {
            user.is_waiting = true;
            self.order += 1;
            self.queue.push(&mut user.tag, false, self.order, number);
        }
    }

    /// Forgets a user without connections whose tag gives it no debt.
    fn tidy(&mut self, user: u32) {
        let is_old = |known: &User| known.connections == 0 && !known.is_waiting;
        if self.users.get(&user).is_some_and(|known| is_old(known) && known.tag <= self.queue.now) {
            self.users.remove(&user);
        }
    }

    /// Forgets all such users.
    pub fn tidy_all(&mut self) {
        let now = self.queue.now;
        self.users.retain(|_, user| user.connections > 0 || user.is_waiting || user.tag > now);
    }

    /// Puts a connection into the queue, unless it is there already, or rests.
    pub fn offer(&mut self, token: usize) {
        let Some(asker) = self.askers[token].as_mut() else { return };
        if asker.place.is_some() || asker.is_resting {
            return;
        }
        let Some(user) = self.users.get_mut(&asker.user) else { return };
        self.order += 1;
        asker.place = Some(self.order);
        user.queue.push(&mut asker.tag, asker.is_behind, self.order, token);
        if !user.is_waiting {
            user.is_waiting = true;
            self.queue.push(&mut user.tag, false, self.order, asker.user);
        }
    }

    /// Whether the connection whose turn it is may be put behind other waiting connections of its
    /// user.
    pub fn may_put_behind(&self, token: usize) -> bool {
        let Some(asker) = self.askers[token].as_ref() else { return false };
        let user = self.users.get(&asker.user);
        !asker.is_behind && user.is_some_and(|user| !user.queue.heap.is_empty())
    }

    /// Puts the connection whose turn it is behind others that have used as much time, since its
    /// request may be long.
    pub fn put_behind(&mut self, token: usize) {
        if let Some(asker) = self.askers[token].as_mut() {
            asker.is_behind = true;
        }
        self.offer(token);
    }

    /// The connection whose turn it is. It is no longer in the queue: see `offer`.
    pub fn next(&mut self) -> Option<usize> {
        while let Some(Reverse((tag, order, number))) = self.queue.heap.pop() {
            let Some(user) = self.users.get_mut(&number) else { continue };
            if user.tag > tag && !user.queue.heap.is_empty() {
                // It has used more time since it was put into the queue.
                self.queue.heap.push(Reverse((user.tag, order, number)));
                continue;
            }
            user.is_waiting = false;
            let Some(Reverse((own_tag, _, token))) = user.queue.heap.pop() else {
                self.tidy(number);
                continue;
            };
            user.queue.now = user.queue.now.max(own_tag);
            self.queue.now = self.queue.now.max(tag);
            if let Some(asker) = self.askers[token].as_mut() {
                asker.place = None;
                return Some(token);
            }
        }
        None
    }

    /// Charges a connection for a turn. `longest` is the time of its longest request: if that was
    /// long and others are active, the connection rests.
    pub fn charge(&mut self, token: usize, took: Duration, longest: Duration, now: Instant) {
        let Some(asker) = self.askers[token].as_mut() else { return };
        let nanoseconds = took.as_nanos() as u64;
        asker.tag += nanoseconds;
        asker.is_behind = false;
        let number = asker.user;
        if let Some(user) = self.users.get_mut(&number) {
            user.tag += nanoseconds;
        }
        self.queue_again(number);
        if self.recent != Some(token) {
            self.others_recently = self.recently;
            self.recent = Some(token);
        }
        self.recently = Some(now);
        let are_about = || self.others_recently.is_some_and(|before| now - before < ABOUT);
        if longest > LONG && are_about() {
            if let Some(asker) = self.askers[token].as_mut() {
                asker.is_resting = true;
                self.rests.push(Reverse((now + longest.min(LONGEST_REST), token)));
            }
        }
    }

    /// Ends the rest of connections whose time has come, and offers them turns.
    pub fn wake(&mut self, now: Instant) {
        while let Some(&Reverse((until, token))) = self.rests.peek() {
            if until > now {
                break;
            }
            self.rests.pop();
            if let Some(asker) = self.askers[token].as_mut() {
                asker.is_resting = false;
            }
            self.offer(token);
        }
    }

    /// When the next connection ends its rest.
    pub fn next_wake(&self) -> Option<Instant> {
        self.rests.peek().map(|Reverse((until, _))| *until)
    }

    /// Whether nobody waits for a turn.
    pub fn is_empty(&self) -> bool {
        self.queue.heap.is_empty()
    }
}

#[cfg(test)]
mod world;

#[cfg(test)]
mod tests {
    use super::*;

    /// Adds a connection for each user.
    fn join(turns: &mut Turns, users: &[u32]) {
        for (token, user) in users.iter().enumerate() {
            turns.join(token, *user).unwrap();
        }
    }

    const MILLISECOND: Duration = Duration::from_millis(1);

    #[test]
    fn a_long_request_rests_where_others_are_about() {
        let (mut turns, now) = (Turns::new(), Instant::now());
        join(&mut turns, &[1, 1]);
        let long = MILLISECOND * 50;
        turns.offer(0);
        assert_eq!(turns.next(), Some(0));
        turns.charge(0, long, long, now);
        assert_eq!(turns.next_wake(), None); // it was alone
        turns.offer(1);
        assert_eq!(turns.next(), Some(1));
        turns.charge(1, MILLISECOND, MILLISECOND, now);
        turns.offer(0);
        assert_eq!(turns.next(), Some(0));
        turns.charge(0, long, long, now);
        turns.offer(0);
        assert_eq!(turns.next(), None);
        assert_eq!(turns.next_wake(), Some(now + long));
        turns.wake(now + long);
        assert_eq!(turns.next(), Some(0));
    }

    #[test]
    fn who_leaves_has_no_turn() {
        let mut turns = Turns::new();
        join(&mut turns, &[1, 1, 2]);
        (0..3).for_each(|token| turns.offer(token));
        turns.leave(0);
        turns.leave(2);
        assert_eq!((turns.next(), turns.next()), (Some(1), None));
        turns.leave(1);
        assert!(turns.is_empty() && turns.users.is_empty());
        turns.join(0, 1).unwrap();
        turns.offer(0);
        assert_eq!(turns.next(), Some(0));
    }
}
