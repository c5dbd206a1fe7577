//! A simulation of shares of time, whose clock is a number: each client states how long its
//! requests take, and always has a line, or sends one some time after a reply.

use super::*;

const MICROSECOND: Duration = Duration::from_micros(1);
const MILLISECOND: Duration = Duration::from_millis(1);
const SECOND: Duration = Duration::from_secs(1);
const SMALL: Duration = Duration::from_micros(10);
const DEAR: Duration = Duration::from_millis(500);

/// A simulated client.
struct Asking {
    user: u32,
    costs: Duration,
    /// The time between a reply and the next line; `None` if lines always wait.
    pause: Option<Duration>,
    begins: Duration,
    /// The time since which its line waits.
    since: Option<Duration>,
    served: Duration,
    waits: Vec<Duration>,
}

/// A client that begins at once, and always has a line.
fn asking(user: u32, costs: Duration) -> Asking {
    let (served, waits) = (Duration::ZERO, Vec::new());
    Asking { user, costs, pause: None, begins: Duration::ZERO, since: None, served, waits }
}

impl Asking {
    fn from(mut self, begins: Duration) -> Asking {
        self.begins = begins;
        self
    }

    fn pausing(mut self, pause: Duration) -> Asking {
        self.pause = Some(pause);
        self
    }
}

/// Runs the simulation until a moment. Returns for each client the time that it was served, and its
/// waits.
fn after(until: Duration, mut all: Vec<Asking>) -> Vec<Asking> {
    let (mut turns, start, mut now) = (Turns::new(), Instant::now(), Duration::ZERO);
    for (token, one) in all.iter().enumerate() {
        turns.join(token, one.user).unwrap();
    }
    while now < until {
        turns.wake(start + now);
        for (token, one) in all.iter_mut().enumerate() {
            if one.since.is_none() && one.begins <= now {
                one.since = Some(one.begins);
                turns.offer(token);
            }
        }
        let Some(token) = turns.next() else {
            let comers = all.iter().filter(|one| one.since.is_none()).map(|one| one.begins);
            let rested = turns.next_wake().map(|moment| moment - start);
            now = comers.chain(rested).min().unwrap_or(until).max(now + MICROSECOND);
            continue;
        };
        if all[token].costs > LONG && turns.may_put_behind(token) {
            turns.put_behind(token);
            continue;
        }
        let one = &mut all[token];
        now += one.costs;
        turns.charge(token, one.costs, one.costs, start + now);
        one.served += one.costs;
        one.waits.push(now - one.since.take().unwrap_or(now));
        one.begins = now + one.pause.unwrap_or_default();
        if one.pause.is_none() {
            one.since = Some(now);
            turns.offer(token);
        }
    }
    all
}

/// Whether two times differ by at most `by`.
fn is_near(time: Duration, wanted: Duration, by: Duration) -> bool {
    time.abs_diff(wanted) <= by
}

#[test]
fn who_always_asks_gets_as_much_time_as_any_other() {
    let costs = [1_050, 1_200, 1_500, 1_900].map(|cost| asking(1, MICROSECOND * cost));
    for one in after(SECOND * 4, costs.into()) {
        assert!(is_near(one.served, SECOND, MILLISECOND * 20), "{:?}", one.served);
    }
}

#[test]
fn small_requests_wait_for_the_one_that_runs_at_most_and_mostly_for_none() {
    let pause = |place: u32| MILLISECOND * (30 + place);
    let mut all: Vec<_> = (0..49).map(|place| asking(1, SMALL).pausing(pause(place))).collect();
    all.push(asking(1, DEAR));
    let mut all = after(SECOND * 20, all);
    let dear = all.pop().unwrap();
    let mut waits: Vec<_> = all.into_iter().flat_map(|one| one.waits).collect();
    waits.sort_unstable();
    assert!(waits[waits.len() / 2] < MILLISECOND);
    assert!(*waits.last().unwrap() < DEAR + MILLISECOND * 10);
    assert!(dear.served > SECOND * 8, "{:?}", dear.served);
}

#[test]
fn one_alone_does_not_rest() {
    let all = after(SECOND * 20, vec![asking(1, DEAR)]);
    assert!(all[0].served > SECOND * 19);
}

#[test]
fn a_newcomer_waits_for_one() {
    let mut all: Vec<_> = (0..20).map(|_| asking(1, DEAR)).collect();
    all.push(asking(1, SMALL).from(MILLISECOND * 700).pausing(SECOND * 60));
    let all = after(SECOND * 20, all);
    assert!(all[20].waits[0] < DEAR + MILLISECOND * 10, "{:?}", all[20].waits);
}

#[test]
fn nobody_saves_up() {
    let all = vec![asking(1, MILLISECOND), asking(1, MILLISECOND).from(SECOND)];
    let all = after(SECOND * 2, all);
    assert!(is_near(all[0].served, MILLISECOND * 1_500, MILLISECOND * 10));
    assert!(is_near(all[1].served, MILLISECOND * 500, MILLISECOND * 10));
}

#[test]
fn users_share_alike_however_many_connections_each_has() {
    let mut all: Vec<_> = (0..30).map(|_| asking(1, MILLISECOND)).collect();
    all.push(asking(2, MILLISECOND));
    let all = after(SECOND * 2, all);
    assert!(is_near(all[30].served, SECOND, MILLISECOND * 50), "{:?}", all[30].served);
    for one in &all[..30] {
        assert!(is_near(one.served, SECOND / 30, MILLISECOND * 5), "{:?}", one.served);
    }
}
