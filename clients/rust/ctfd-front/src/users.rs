//! The users who connect, as the system identifies them, and what each of them has.

use crate::limits::Limits;
use crate::refusals::Refusal;
use std::collections::{HashMap, TryReserveError};
use std::sync::{Mutex, MutexGuard, PoisonError};
use std::time::{Duration, Instant};

const HOUR: f64 = 3_600.0;
/// How long after a message another may say that a user is refused a connection.
const TOLD_AGAIN: Duration = Duration::from_secs(60);

/// The connections and the memory of a user. `sessions` is how many more sessions it may make, as
/// of `since`.
#[derive(Clone, Debug)]
pub struct Account {
    pub connections: usize,
    pub bytes: usize,
    sessions: f64,
    since: Instant,
    last_refusal: Option<Instant>,
}

/// The accounts of all users, and their sums.
pub struct Users {
    limits: Limits,
    state: Mutex<State>,
}

/// The state behind the lock.
#[derive(Default)]
pub struct State {
    pub connections: usize,
    pub bytes: usize,
    pub accounts: HashMap<u32, Account>,
}

/// The reason why a connection is refused, and whether to tell the operator.
pub struct Rejection {
    pub refusal: Refusal,
    pub is_news: bool,
    pub own: usize,
    pub all: usize,
}

impl Users {
    /// No users.
    pub fn new(limits: &Limits) -> Users {
        Users { limits: limits.clone(), state: Mutex::default() }
    }

    /// The current state.
    pub fn state(&self) -> MutexGuard<'_, State> {
        self.state.lock().unwrap_or_else(PoisonError::into_inner)
    }

    /// Counts a connection of a user and its session, or says why it is refused.
    pub fn begin(&self, user: u32, now: Instant) -> Result<(), Rejection> {
        let mut state = self.state();
        let all = state.connections;
        let most = self.limits.user_sessions as f64;
        let account = match account_of(&mut state.accounts, user, most, now) {
            Ok(account) => account,
            Err(_) => {
                return Err(Rejection { refusal: Refusal::Held, is_news: true, own: 0, all });
            }
        };
        account.allow_again(most, now);
        let refusal = if all >= self.limits.connections
            || account.connections >= self.limits.user_connections
        {
            Refusal::Connections
        } else if account.sessions < 1.0 {
            Refusal::Sessions
        } else {
            account.connections += 1;
            account.sessions -= 1.0;
            state.connections += 1;
            return Ok(());
        };
        let is_news = account.last_refusal.is_none_or(|before| now - before > TOLD_AGAIN);
        if is_news {
            account.last_refusal = Some(now);
        }
        Err(Rejection { refusal, is_news, own: account.connections, all })
    }

    /// Counts a user's connection as closed.
    pub fn end(&self, user: u32) {
        let mut state = self.state();
        state.connections -= 1;
        if let Some(account) = state.accounts.get_mut(&user) {
            account.connections -= 1;
        }
    }

    /// Counts the memory in use for a connection, in bytes: now, and before. Returns whether it is
    /// too much, and more than before.
    pub fn hold(&self, user: u32, before: usize, bytes: usize) -> bool {
        let mut state = self.state();
        state.bytes = state.bytes + bytes - before;
        let all = state.bytes;
        let own = state.accounts.get_mut(&user).map_or(0, |account| {
            account.bytes = account.bytes + bytes - before;
            account.bytes
        });
        bytes > before && (all > self.limits.memory || own > self.limits.user_memory)
    }

    /// Forgets users that have no connection and may open as many sessions as any other.
    pub fn tidy(&self, now: Instant) {
        let most = self.limits.user_sessions as f64;
        self.state().accounts.retain(|_, account| {
            account.allow_again(most, now);
            account.connections > 0 || account.sessions < most
        });
    }
}

impl Account {
    /// Grants further sessions for the time that has passed.
    fn allow_again(&mut self, most: f64, now: Instant) {
        let seconds = now.saturating_duration_since(self.since).as_secs_f64();
        self.sessions = most.min(self.sessions + seconds * most / HOUR);
        self.since = now;
    }
}

fn account_of(
    accounts: &mut HashMap<u32, Account>,
    user: u32,
    sessions: f64,
    now: Instant,
) -> Result<&mut Account, TryReserveError> {
    accounts.try_reserve(1)?;
    Ok(accounts.entry(user).or_insert(Account {
        connections: 0,
        bytes: 0,
        sessions,
        since: now,
        last_refusal: None,
    }))
}

#[cfg(test)]
mod tests {
    use super::*;

    fn refusal(users: &Users, user: u32, now: Instant) -> Option<Refusal> {
        users.begin(user, now).err().map(|rejection| rejection.refusal)
    }

    #[test]
    fn sessions_come_back_within_the_hour() {
        let users = Users::new(&Limits { user_sessions: 6, ..Limits::default() });
        let now = Instant::now();
        for _ in 0..6 {
            assert_eq!(refusal(&users, 1, now), None);
            users.end(1);
        }
        assert_eq!(refusal(&users, 1, now), Some(Refusal::Sessions));
        assert_eq!(refusal(&users, 2, now), None);
        assert_eq!(refusal(&users, 1, now + Duration::from_secs(600)), None);
    }

    #[test]
    fn connections_are_limited_by_user_and_in_all() {
        let limits = Limits { connections: 3, user_connections: 2, ..Limits::default() };
        let (users, now) = (Users::new(&limits), Instant::now());
        assert_eq!([1, 1, 2].map(|user| refusal(&users, user, now)), [None; 3]);
        assert_eq!(refusal(&users, 3, now), Some(Refusal::Connections));
        users.end(2);
        assert_eq!(refusal(&users, 1, now), Some(Refusal::Connections));
        assert_eq!(refusal(&users, 3, now), None);
    }

    #[test]
    fn who_asks_for_more_is_refused() {
        let limits = Limits { memory: 100, user_memory: 60, ..Limits::default() };
        let (users, now) = (Users::new(&limits), Instant::now());
        assert_eq!([1, 2].map(|user| refusal(&users, user, now)), [None; 2]);
        assert!(!users.hold(1, 0, 60));
        assert!(users.hold(1, 60, 61));
        assert!(users.hold(2, 0, 40));
        assert!(!users.hold(2, 40, 39));
        assert_eq!(users.state().bytes, 100);
    }

    #[test]
    fn users_without_anything_are_forgotten() {
        let (users, now) = (Users::new(&Limits::default()), Instant::now());
        assert_eq!(refusal(&users, 1, now), None);
        users.tidy(now + Duration::from_secs(7_200));
        assert_eq!(users.state().accounts.len(), 1);
        users.end(1);
        users.tidy(now + Duration::from_secs(7_200));
        assert_eq!(users.state().accounts.len(), 0);
    }
}
