//! The counts of a shard since it was started.

use crate::answers::fault_of;
use crate::members::Members;
use crate::refusals::Cause;
use std::cmp::Reverse;
use std::fmt;
use std::time::Duration;

const FAULTS: usize = 128;
/// How many bytes of a line are shown.
const SHOWN: usize = 80;
/// How many of the requests that took longest are kept.
const DEAREST: usize = 5;

/// A request that took long.
#[derive(Clone, Debug)]
pub struct Dear {
    pub took: Duration,
    pub session: u32,
    pub user: u32,
    pub bytes: usize,
    line: [u8; SHOWN],
}

impl Dear {
    /// The beginning of its line.
    fn line(&self) -> &[u8] {
        &self.line[..self.bytes.min(SHOWN)]
    }

    /// Its word; empty unless it is in the beginning.
    pub fn word(&self) -> &str {
        let word = Members::of(self.line()).find(|member| member.key.is("op"));
        let text = word.and_then(|member| member.text()).map_or(&[][..], |text| text.0);
        let is_word = text.len() <= 16 && text.iter().all(u8::is_ascii_lowercase);
        std::str::from_utf8(text).ok().filter(|_| is_word).unwrap_or_default()
    }
}

impl fmt::Display for Dear {
    fn fmt(&self, to: &mut fmt::Formatter<'_>) -> fmt::Result {
        let milliseconds = self.took.as_secs_f64() * 1e3;
        let Dear { session, user, bytes, .. } = self;
        let line = self.line().escape_ascii();
        write!(to, "{milliseconds:.1} ms session {session}, user {user}, {bytes} bytes, '{line}'")
    }
}

/// The counts of all connections of a shard, or of all shards.
#[derive(Clone)]
pub struct Statistics {
    pub lines: u64,
    pub bytes_in: u64,
    pub bytes_out: u64,
    closes: [u64; Cause::ALL.len()],
    refusals_by_code: [u64; FAULTS],
    /// The requests that took longest, in descending order of time.
    dearest: [Option<Dear>; DEAREST],
}

impl Statistics {
    /// Statistics whose counts are all 0.
    pub fn new() -> Statistics {
        Statistics {
            lines: 0,
            bytes_in: 0,
            bytes_out: 0,
            closes: [0; Cause::ALL.len()],
            refusals_by_code: [0; FAULTS],
            dearest: [None, None, None, None, None],
        }
    }

    /// Counts a reply. Returns whether it is a refusal.
    pub fn count_reply(&mut self, reply: &[u8]) -> bool {
        self.lines += 1;
        let Some(fault) = fault_of(reply) else { return false };
        self.refusals_by_code[usize::from(fault.code()) % FAULTS] += 1;
        true
    }

    /// Counts a closed connection.
    pub fn count_close(&mut self, cause: Cause) {
        self.closes[cause.place()] += 1;
    }

    /// Keeps a request if it is among those that took longest.
    pub fn note_time(&mut self, took: Duration, session: u32, user: u32, line: &[u8]) {
        if self.dearest[DEAREST - 1].as_ref().is_some_and(|least| least.took >= took) {
            return;
        }
        let shown = &line[..line.len().min(SHOWN)];
        let mut dear = Dear { took, session, user, bytes: line.len(), line: [0; SHOWN] };
        dear.line[..shown.len()].copy_from_slice(shown);
        self.keep(dear);
    }

    /// Keeps a request in place of a shorter one.
    fn keep(&mut self, mut dear: Dear) {
        for place in &mut self.dearest {
            match place {
                Some(other) if other.took >= dear.took => {}
                Some(other) => std::mem::swap(other, &mut dear),
                None => {
                    *place = Some(dear);
                    return;
                }
            }
        }
    }

    /// The requests that took longest, in descending order of time.
    pub fn dearest(&self) -> impl Iterator<Item = &Dear> {
        self.dearest.iter().flatten()
    }

    /// Adds the counts of another shard.
    pub fn add(&mut self, other: &Statistics) {
        self.lines += other.lines;
        self.bytes_in += other.bytes_in;
        self.bytes_out += other.bytes_out;
        let pairs = self.closes.iter_mut().zip(&other.closes);
        pairs
            .chain(self.refusals_by_code.iter_mut().zip(&other.refusals_by_code))
            .for_each(|(sum, one)| *sum += one);
        other.dearest().for_each(|dear| self.keep(dear.clone()));
    }

    /// The number of refusals by fault, the most frequent first.
    pub fn refusals(&self) -> impl Iterator<Item = (FaultName, u64)> + Clone {
        largest_first(&self.refusals_by_code).filter_map(|(code, count)| {
            ctfd::Fault::from_code(code as u16).map(|fault| (FaultName(fault), count))
        })
    }

    /// The number of closed connections by cause, the most frequent first.
    pub fn causes(&self) -> impl Iterator<Item = (&'static str, u64)> + Clone {
        largest_first(&self.closes).map(|(place, count)| (Cause::ALL[place].words(), count))
    }
}

/// The indexes of counts that are not 0, the greatest counts first.
fn largest_first<const N: usize>(counts: &[u64; N]) -> impl Iterator<Item = (usize, u64)> + Clone {
    let mut sorted = [(0, 0); N];
    for ((place, count), sorted) in counts.iter().enumerate().zip(&mut sorted) {
        *sorted = (place, *count);
    }
    sorted.sort_unstable_by_key(|(place, count)| (Reverse(*count), *place));
    sorted.into_iter().take_while(|(_, count)| *count > 0)
}

/// A fault that is displayed as its name.
#[derive(Clone, Copy)]
pub struct FaultName(ctfd::Fault);

impl fmt::Display for FaultName {
    fn fmt(&self, to: &mut fmt::Formatter<'_>) -> fmt::Result {
        write!(to, "{:?}", self.0)
    }
}

/// Counts that are displayed with their names.
pub struct Listing<I>(pub I);

impl<I: Iterator<Item = (T, u64)> + Clone, T: fmt::Display> fmt::Display for Listing<I> {
    fn fmt(&self, to: &mut fmt::Formatter<'_>) -> fmt::Result {
        let mut comma = "";
        for (name, count) in self.0.clone() {
            write!(to, "{comma}{name} {count}")?;
            comma = ", ";
        }
        to.write_str(if comma.is_empty() { "none" } else { "" })
    }
}

#[cfg(test)]
mod tests {
    use super::*;

    #[test]
    fn the_dearest_are_kept() {
        let mut statistics = Statistics::new();
        for took in [3, 9, 1, 7, 5, 2, 8] {
            let line = br#"{"op":"import","d":1}"#;
            statistics.note_time(Duration::from_millis(took), took as u32, 0, line);
        }
        let sessions: Vec<_> = statistics.dearest().map(|dear| dear.session).collect();
        assert_eq!(sessions, [9, 8, 7, 5, 3]);
        let dearest = statistics.dearest().next().unwrap();
        assert_eq!(dearest.word(), "import");
        assert!(dearest.to_string().starts_with("9.0 ms session 9, user 0, 21 bytes, "));
    }

    #[test]
    fn refusals_are_counted_by_fault() {
        let mut statistics = Statistics::new();
        let no_slot = b"{\"fault\":{\"code\":49,\"name\":\"NoSlot\",\"place\":0},\"s\":1}\n";
        assert!(statistics.count_reply(no_slot) && statistics.count_reply(no_slot));
        assert!(!statistics.count_reply(b"{\"ok\":{},\"s\":1}\n"));
        let mut both = statistics.clone();
        both.add(&statistics);
        assert_eq!(both.lines, 6);
        assert_eq!(Listing(both.refusals()).to_string(), "NoSlot 4");
        assert_eq!(Listing(both.causes()).to_string(), "none");
    }
}
