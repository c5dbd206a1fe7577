//! Types by build-id: a build in a store is published when it is first taken.
//!
//! `ctfd-convert` reads it in another process. A session of the front hands it in, with lines that
//! any client could write, so it changes no answer to a client's other requests.

use crate::answers::{Answers, OutOfMemory, Session, LAST_SESSION};
use crate::bundle::{self, Bundle};
use crate::journal::{say, Level};
use crate::members::Members;
use crate::name::Name;
use memchr::memmem;
use std::collections::HashMap;
use std::fmt::Display;
use std::io::Write;
use std::path::{Path, PathBuf};
use std::time::{Duration, Instant};

/// The owner of all builds. If there is a store, no connection has this session number.
pub const OWNER: Session = LAST_SESSION as Session;
const OWNER_DIGITS: &[u8] = b"4294967295";
/// The quota of a session, in bytes of lists.
pub const QUOTA: u64 = 268_435_456;
/// The longest line that takes a build, in bytes.
const LONGEST: usize = 4_096;
/// The number of digits of a build-id.
const DIGITS: std::ops::RangeInclusive<usize> = 4..=64;
/// The folder of all builds in a store.
const BUILD_IDS: &str = "buildid";
/// The number of a list's bytes that one line has at most.
const PIECE: usize = 500_000;
/// The size of the buffer for such a line, in bytes.
const LINE: usize = 2 * PIECE + 256;
/// The time between two messages on builds that can't be published.
const PAUSE: Duration = Duration::from_secs(60);
const OK: &[u8] = b"{\"ok\"";

/// A store of types, as the operator names it.
#[derive(Clone, Debug)]
pub struct Store {
    pub folder: PathBuf,
    /// The command that reads it.
    pub converter: PathBuf,
    /// The most bytes of lists that are published at the same time.
    pub most: u64,
}

/// A published build.
struct PublishedBuild {
    bytes: u64,
    last_use: u64,
}

/// The builds of a store that a shard has published.
pub struct Builds {
    store: Store,
    published: HashMap<Name, PublishedBuild>,
    bytes: u64,
    uses: u64,
    line: Vec<u8>,
    next_message: Instant,
}

/// The reason why a build is not published.
pub enum Trouble {
    Memory(OutOfMemory),
    Refused(String),
}

impl From<OutOfMemory> for Trouble {
    fn from(memory: OutOfMemory) -> Trouble {
        Trouble::Memory(memory)
    }
}

impl From<String> for Trouble {
    fn from(why: String) -> Trouble {
        Trouble::Refused(why)
    }
}

impl Builds {
    /// The builds of a store, before any is published.
    pub fn new(store: Store) -> Builds {
        let published = HashMap::new();
        let (line, next_message) = (Vec::new(), Instant::now());
        Builds { store, published, bytes: 0, uses: 0, line, next_message }
    }

    /// Whether a line takes a build that has to be read first.
    pub fn is_new(&self, line: &[u8]) -> bool {
        build_taken(line).is_some_and(|name| !self.published.contains_key(&name))
    }

    /// Publishes the build that a line takes, if the store has it. If it can't be published, the
    /// operator gets a message, and the client a reply that nothing is published by this name.
    pub fn provide(
        &mut self,
        line: &[u8],
        answers: &mut Answers,
        room: &mut Vec<u8>,
    ) -> Result<(), OutOfMemory> {
        let Some(name) = build_taken(line) else { return Ok(()) };
        self.uses += 1;
        if let Some(known) = self.published.get_mut(&name) {
            known.last_use = self.uses;
            return Ok(());
        }
        if !is_there(&self.store.folder, &name) {
            return Ok(());
        }
        match self.publish(name, answers, room) {
            Ok(()) => Ok(()),
            Err(Trouble::Memory(memory)) => Err(memory),
            Err(Trouble::Refused(why)) => {
                self.tell(&name, why);
                Ok(())
            }
        }
    }

    /// Writes a message, unless there was one recently: clients decide how many there would be.
    fn tell(&mut self, name: &Name, why: impl Display) {
        let now = Instant::now();
        if now >= self.next_message {
            self.next_message = now + PAUSE;
            let folder = self.store.folder.display();
            say(Level::Warning, format_args!("{folder}: build {name} is not published: {why}"));
        }
    }

    fn publish(
        &mut self,
        name: Name,
        answers: &mut Answers,
        room: &mut Vec<u8>,
    ) -> Result<(), Trouble> {
        self.published.try_reserve(1).map_err(OutOfMemory::from)?;
        let bundle = bundle::read(&self.store, &name)?;
        let bytes = bundle.bytes();
        self.make_room(bytes, answers, room)?;
        let done = self.hand_in(&bundle, &name, answers, room);
        // Frees the slot and the stage; the publication stays.
        let ended = self.ask(answers, room, |line| line.extend_from_slice(br#"{"op":"reset"}"#));
        self.line = Vec::new();
        done.and(ended)?;
        self.bytes += bytes;
        self.published.insert(name, PublishedBuild { bytes, last_use: self.uses });
        Ok(())
    }

    /// Withdraws the builds that were taken longest ago, until there is room for twice as many
    /// bytes: while a build is handed in, it is in a slot too.
    fn make_room(
        &mut self,
        bytes: u64,
        answers: &mut Answers,
        room: &mut Vec<u8>,
    ) -> Result<(), Trouble> {
        if bytes > self.store.most || 2 * bytes > QUOTA {
            return Err(Trouble::Refused(format!("its {bytes} bytes are too many")));
        }
        while self.bytes + bytes > self.store.most || self.bytes + 2 * bytes > QUOTA {
            let oldest = self.published.iter().min_by_key(|(_, one)| one.last_use);
            let Some((&name, _)) = oldest else { break };
            self.ask(answers, room, |line| {
                let _ = write!(line, r#"{{"op":"withdraw","name":"{name}"}}"#);
            })?;
            if let Some(gone) = self.published.remove(&name) {
                self.bytes -= gone.bytes;
            }
        }
        Ok(())
    }

    fn hand_in(
        &mut self,
        bundle: &Bundle,
        name: &Name,
        answers: &mut Answers,
        room: &mut Vec<u8>,
    ) -> Result<(), Trouble> {
        for (section, list) in bundle.lists() {
            for piece in list.chunks(PIECE) {
                self.ask(answers, room, |line| write_part(line, section, piece))?;
            }
        }
        self.ask(answers, room, |line| {
            let model = if bundle.is_64 { "lp64" } else { "ilp32" };
            let _ = write!(line, r#"{{"op":"open","model":"{model}"}}"#);
        })?;
        self.ask(answers, room, |line| {
            let _ = write!(line, r#"{{"op":"publish","d":1,"name":"{name}"}}"#);
        })
    }

    /// Sends a line, which `write` writes, in the front's session. `room` is a buffer for the
    /// reply.
    fn ask(
        &mut self,
        answers: &mut Answers,
        room: &mut Vec<u8>,
        write: impl FnOnce(&mut Vec<u8>),
    ) -> Result<(), Trouble> {
        self.line.clear();
        self.line.try_reserve(LINE).map_err(OutOfMemory::from)?;
        write(&mut self.line);
        let start = room.len();
        let answered = answers.answer(OWNER, &self.line, room);
        let reply = &room[start..];
        let refusal = (!reply.starts_with(OK)).then(|| String::from_utf8_lossy(reply).into_owned());
        room.truncate(start);
        answered?;
        match refusal {
            None => Ok(()),
            Some(refusal) => Err(Trouble::Refused(refusal.trim_end().to_owned())),
        }
    }
}

/// Writes a line that stages a piece of a list.
fn write_part(line: &mut Vec<u8>, section: &str, piece: &[u8]) {
    const DIGITS: &[u8; 16] = b"0123456789abcdef";
    let _ = write!(line, r#"{{"op":"part","section":"{section}","bytes":""#);
    for byte in piece {
        line.extend([DIGITS[usize::from(byte >> 4)], DIGITS[usize::from(byte & 15)]]);
    }
    line.extend_from_slice(b"\"}");
}

/// The build that a line takes from the store's owner. The service checks that the line is JSON; of
/// a key that occurs twice, the last counts.
fn build_taken(line: &[u8]) -> Option<Name> {
    if line.len() > LONGEST || memmem::find(line, OWNER_DIGITS).is_none() {
        return None;
    }
    let (mut word, mut owner, mut name) = (None, None, None);
    for member in Members::of(line) {
        if member.key.is("op") {
            word = member.text();
        } else if member.key.is("owner") {
            owner = Some(member.value.trim_ascii_end());
        } else if member.key.is("name") {
            name = member.text();
        }
    }
    let is_taken = word?.is("take") && owner? == OWNER_DIGITS;
    let name = Name::of(name?).filter(|_| is_taken)?;
    let digits = name.bytes();
    let is_id = DIGITS.contains(&digits.len())
        && digits.len() % 2 == 0
        && digits.iter().all(|byte| matches!(byte, b'0'..=b'9' | b'a'..=b'f'));
    is_id.then_some(name)
}

/// Whether a store has a build.
fn is_there(store: &Path, name: &Name) -> bool {
    let folder = store.join(BUILD_IDS).join(name.to_string());
    folder.symlink_metadata().is_ok_and(|about| about.is_dir())
}

#[cfg(test)]
mod tests {
    use super::*;

    #[test]
    fn lines_that_take_builds() {
        let taken = |line: &str| build_taken(line.as_bytes()).map(|name| name.to_string());
        let own = Some("abcd".to_owned());
        assert_eq!(taken(r#"{"s":1,"op":"take","owner":4294967295,"name":"abcd"}"#), own);
        assert_eq!(taken(r#"{"op":"t\u0061ke","name":"abcd", "owner":4294967295 }"#), own);
        assert_eq!(taken(r#"{"op":"x","op":"take","owner":4294967295,"name":"abcd"}"#), own);
        for line in [
            r#"{"op":"take","owner":0,"name":"abcd"}"#,
            r#"{"op":"take","owner":42949672950,"name":"abcd"}"#,
            r#"{"op":"take","owner":4294967295,"name":"abc"}"#,
            r#"{"op":"take","owner":4294967295,"name":"ABCD"}"#,
            r#"{"op":"take","owner":4294967295,"name":"../a"}"#,
            r#"{"op":"publish","owner":4294967295,"name":"abcd"}"#,
            r#"{"op":"take","owner":4294967295,"name":7}"#,
            r#"{"op":"take","owner":4294967295}"#,
            r#"4294967295"#,
        ] {
            assert_eq!(taken(line), None, "{line}");
        }
    }

    #[test]
    fn parts_are_in_hexadecimal() {
        let mut line = Vec::new();
        write_part(&mut line, "ctf", b"\xf1\x0f");
        assert_eq!(line, br#"{"op":"part","section":"ctf","bytes":"f10f"}"#);
    }
}
