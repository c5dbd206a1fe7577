//! The service that answers the lines of a shard, in the shard's thread.

use ctfd::{Fault, Refusal, Service};
use std::collections::TryReserveError;

/// The number of a connection's session.
pub type Session = u32;

/// The greatest session number.
pub const LAST_SESSION: u64 = u32::MAX as u64;

/// Memory was refused. At most the reply to one line is lost.
#[derive(Clone, Copy, Debug)]
pub struct OutOfMemory;

impl From<TryReserveError> for OutOfMemory {
    fn from(_: TryReserveError) -> OutOfMemory {
        OutOfMemory
    }
}

impl From<Refusal> for OutOfMemory {
    fn from(_: Refusal) -> OutOfMemory {
        OutOfMemory
    }
}

/// The service that answers the lines of all sessions of a shard.
pub struct Answers {
    service: Service,
}

impl Answers {
    /// A service with new sessions.
    pub fn new() -> Result<Answers, Refusal> {
        Ok(Answers { service: Service::new()? })
    }

    /// Appends the reply to a session's line, in the form that the client reads.
    pub fn answer(
        &mut self,
        session: Session,
        line: &[u8],
        replies: &mut Vec<u8>,
    ) -> Result<(), OutOfMemory> {
        Ok(self.service.answer_as(session, line, replies)?)
    }

    /// Whether a line is JSON, as the service reads it. The line is answered as that of a session
    /// that has nothing.
    pub fn is_json(&mut self, line: &[u8], room: &mut Vec<u8>) -> Result<bool, OutOfMemory> {
        let start = room.len();
        let answered = self.service.answer_into(line, room);
        let fault = fault_of(&room[start..]);
        room.truncate(start);
        answered?;
        Ok(fault != Some(Fault::NotJson))
    }

    /// Frees what a session has, and withdraws its publications if `withdraws`.
    pub fn leave(&mut self, session: Session, withdraws: bool, room: &mut Vec<u8>) {
        if withdraws {
            let _ = self.service.leave(session);
            return;
        }
        let start = room.len();
        let _ = self.service.answer_as(session, br#"{"op":"reset"}"#, room);
        room.truncate(start);
    }

    /// Publishes a CTF section for the operator: any session may take it.
    pub fn load(&mut self, name: &str, section: &[u8]) -> Result<(), Refusal> {
        self.service.load(name, section)
    }
}

const FAULT: &[u8] = b"{\"fault\":{\"code\":";

/// The fault in a reply, if there is one.
pub fn fault_of(reply: &[u8]) -> Option<Fault> {
    let digits = reply.strip_prefix(FAULT)?.iter().map_while(|byte| match byte {
        b'0'..=b'9' => Some(u16::from(byte - b'0')),
        _ => None,
    });
    Fault::from_code(digits.fold(0, |code: u16, digit| code.wrapping_mul(10).wrapping_add(digit)))
}

#[cfg(test)]
mod random_lines;

#[cfg(test)]
mod tests {
    use super::*;

    const LUA: &[u8] = include_bytes!("../../../../examples/lua.ctf");

    fn reply(answers: &mut Answers, session: u32, line: &str) -> String {
        let mut replies = Vec::new();
        answers.answer(session, line.as_bytes(), &mut replies).unwrap();
        String::from_utf8(replies).unwrap()
    }

    #[test]
    fn each_session_has_its_own() {
        let mut answers = Answers::new().unwrap();
        assert_eq!(
            reply(&mut answers, 5, r#"{"s":1,"op":"create"}"#),
            "{\"ok\":{\"d\":1},\"s\":1}\n"
        );
        assert!(reply(&mut answers, 6, r#"{"s":5,"op":"close","d":1}"#).contains("NoSlot"));
        assert!(reply(&mut answers, 6, "{}").ends_with(",\"s\":6}\n"));
        assert!(reply(&mut answers, 6, "no").contains("NotJson"));
        answers.leave(5, false, &mut Vec::new());
        assert!(reply(&mut answers, 5, r#"{"op":"close","d":1}"#).contains("NoSlot"));
    }

    #[test]
    fn the_operators_files_are_taken_from_owner_0() {
        let mut answers = Answers::new().unwrap();
        answers.load("lua", LUA).unwrap();
        answers.load("again", LUA).unwrap();
        for line in [
            r#"{"s":1,"op":"take","owner":0,"name":"lua"}"#,
            r#"{"op":"\u0074ake","owner":5,"name":"again","own\u0065r":0 }"#,
        ] {
            assert!(reply(&mut answers, 7, line).contains("\"types\":526"), "{line}");
        }
        let other = reply(&mut answers, 7, r#"{"op":"take","owner":0,"owner":7,"name":"lua"}"#);
        assert!(other.contains("NotPublished"));
        assert_eq!(answers.load("lua", LUA).unwrap_err().fault, Fault::NameTaken);
        assert_eq!(answers.load("bad", b"no dictionary").unwrap_err().fault, Fault::BadMagic);
    }

    #[test]
    fn a_line_is_json_or_not() {
        let (mut answers, mut room) = (Answers::new().unwrap(), Vec::new());
        assert!(answers.is_json(br#"{"op":"room"}"#, &mut room).unwrap());
        assert!(!answers.is_json(br#"{"op":"room""#, &mut room).unwrap());
        assert!(room.is_empty());
    }
}
