//! Rooms: clients that want to meet name a room, which decides on their shard.
//!
//! The name of a room determines its shard, so nothing has to be kept: a client that comes later,
//! or after a restart, gets to the same shard. A room keeps nobody out.

use crate::members::Members;
use crate::name::Name;
use memchr::memmem;
use std::collections::TryReserveError;
use std::io::Write;

/// The most bytes of the line.
const LONGEST: usize = 256;

/// The room that a client's first line asks for.
pub struct Room {
    name: Name,
    /// The session that the line names, if any.
    session: Option<u32>,
}

impl Room {
    /// The room that a line asks for: `{"op":"room","name":"NAME"}`, with or without `s`. The
    /// service checks that the line is JSON.
    pub fn of_line(line: &[u8]) -> Option<Room> {
        if line.len() > LONGEST || memmem::find(line, b"room").is_none() {
            return None;
        }
        let (mut word, mut name, mut session) = (None, None, None);
        for member in Members::of(line) {
            if member.key.is("op") {
                word = member.text();
            } else if member.key.is("name") {
                name = member.text();
            } else if member.key.is("s") {
                session = Some(member.value.trim_ascii_end());
            }
        }
        if !word?.is("room") {
            return None;
        }
        let session = match session {
            None | Some(b"null") => None,
            Some(digits) => Some(session_of(digits)?),
        };
        Some(Room { name: Name::of(name?)?, session })
    }

    /// The index of the shard that has the room.
    pub fn shard(&self, shards: usize) -> usize {
        crc32fast::hash(self.name.bytes()) as usize % shards
    }

    /// Appends the reply to the line. Its session is that of the line, or `session` if that names
    /// none.
    pub fn reply(&self, session: u32, replies: &mut Vec<u8>) -> Result<(), TryReserveError> {
        replies.try_reserve(2 * LONGEST)?;
        let session = self.session.unwrap_or(session);
        // The memory is reserved already.
        let _ = writeln!(replies, r#"{{"ok":{{"room":"{}"}},"s":{session}}}"#, self.name);
        Ok(())
    }
}

fn session_of(digits: &[u8]) -> Option<u32> {
    let digits = std::str::from_utf8(digits).ok()?;
    let is_plain = digits.starts_with(|first: char| matches!(first, '1'..='9'));
    digits.parse().ok().filter(|_| is_plain)
}

#[cfg(test)]
mod tests {
    use super::*;

    fn reply(line: &str) -> Option<String> {
        let mut replies = Vec::new();
        Room::of_line(line.as_bytes())?.reply(7, &mut replies).unwrap();
        String::from_utf8(replies).ok()
    }

    #[test]
    fn a_room_is_asked_for() {
        let own = "{\"ok\":{\"room\":\"a\"},\"s\":7}\n";
        assert_eq!(reply(r#"{"op":"room","name":"a"}"#).as_deref(), Some(own));
        assert_eq!(reply(r#"{"s":7, "\u006fp":"room", "name" : "\u0061" }"#).as_deref(), Some(own));
        for line in [
            r#"{"op":"room"}"#,
            r#"{"op":"room","name":"a b"}"#,
            r#"{"op":"room","name":""}"#,
            r#"{"op":"room","name":"a","s":0}"#,
            r#"{"op":"room","name":"a","s":4294967296}"#,
            r#"{"op":"room","name":"a","s":"1"}"#,
            r#"{"op":"rooms","name":"a"}"#,
        ] {
            assert_eq!(reply(line), None, "{line}");
        }
    }

    #[test]
    fn its_shard_is_that_of_its_checksum() {
        let room = Room::of_line(br#"{"op":"room","name":"kernel-debug"}"#).unwrap();
        let shards: Vec<_> = (1..6).map(|shards| room.shard(shards)).collect();
        let sum = crc32fast::hash(b"kernel-debug") as usize;
        assert_eq!(shards, (1..6).map(|shards| sum % shards).collect::<Vec<_>>());
    }
}
