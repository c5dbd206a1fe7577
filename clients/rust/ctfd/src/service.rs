//! The line protocol, in process.

use crate::faults::{outcome_of, Fault, Refusal};
use crate::names::fill;
use crate::raw;
use std::fmt;

/// A service that answers lines of JSON as `ctfd serve` does; all its sessions are in this process.
///
/// ```
/// let mut service = ctfd::Service::new().unwrap();
/// let reply = service.answer(r#"{"s":1,"op":"create"}"#).unwrap();
/// assert_eq!(reply, r#"{"ok":{"d":1},"s":1}"#);
/// ```
pub struct Service {
    raw: raw::Handle,
    room: Vec<u8>,
}

// SAFETY: a service may be used on any thread, one call at a time; it shares nothing with others.
unsafe impl Send for Service {}

impl Service {
    /// A service with new sessions.
    pub fn new() -> Result<Service, Refusal> {
        let mut raw = raw::Handle::NONE;
        // SAFETY: the handle is this function's own.
        outcome_of(unsafe { raw::ctfd_begin(&mut raw) })?;
        Ok(Service { raw, room: Vec::with_capacity(4096) })
    }

    /// Answers a line. Neither the line nor the reply ends in a newline. Refusals of requests are
    /// in the reply.
    pub fn answer(&mut self, line: &str) -> Result<&str, Refusal> {
        let (raw, mut is_asked) = (&mut self.raw, false);
        fill(&mut self.room, |at, len, told| {
            if std::mem::replace(&mut is_asked, true) {
                // SAFETY: the handle is this value's own; `fill` passes a buffer of `len` bytes.
                return unsafe { raw::ctfd_reply(raw, at, len, told) };
            }
            // SAFETY: as above; the line lives for the call.
            unsafe { raw::ctfd_line(raw, line.as_ptr(), line.len(), at, len, told) }
        })?;
        let reply = std::str::from_utf8(&self.room).expect("a reply is plain ASCII");
        Ok(reply.trim_end_matches('\n'))
    }

    /// Answers a line of any bytes, without its newline, and appends the reply with a newline.
    ///
    /// If memory for the reply is refused, the result is [`Fault::Memory`] and nothing is appended;
    /// the line may have been answered or not.
    ///
    /// ```
    /// let (mut service, mut replies) = (ctfd::Service::new().unwrap(), Vec::new());
    /// service.answer_into(br#"{"s":1,"op":"create"}"#, &mut replies).unwrap();
    /// assert_eq!(replies, b"{\"ok\":{\"d\":1},\"s\":1}\n");
    /// ```
    pub fn answer_into(&mut self, line: &[u8], replies: &mut Vec<u8>) -> Result<(), Refusal> {
        self.append(replies, |service, at, room, len| {
            // SAFETY: the handle is a service's own, the line is borrowed for the call, and at `at`
            // is a buffer of `room` bytes.
            unsafe { raw::ctfd_line(service, line.as_ptr(), line.len(), at, room, len) }
        })
    }

    /// Answers a line as [`Service::answer_into`] does, but for the given session, whatever the
    /// line's `s` is, so no client can use another's session. The reply repeats the line's `s`; if
    /// the line has none, it has the session's number. Session 0 is refused with
    /// [`Fault::BadRequest`].
    ///
    /// ```
    /// let (mut service, mut replies) = (ctfd::Service::new().unwrap(), Vec::new());
    /// service.answer_as(7, br#"{"s":1,"op":"create"}"#, &mut replies).unwrap();
    /// assert_eq!(replies, b"{\"ok\":{\"d\":1},\"s\":1}\n");
    /// assert_eq!(service.answer(r#"{"s":7,"op":"close","d":1}"#).unwrap(), r#"{"ok":{},"s":7}"#);
    /// ```
    pub fn answer_as(
        &mut self,
        session: u32,
        line: &[u8],
        replies: &mut Vec<u8>,
    ) -> Result<(), Refusal> {
        self.append(replies, |service, at, room, len| {
            let (line, bytes) = (line.as_ptr(), line.len());
            // SAFETY: as in `answer_into`.
            unsafe { raw::ctfd_line_as(service, session, line, bytes, at, room, len) }
        })
    }

    /// Publishes a CTF section for owner 0, the operator: any session may take it by its name.
    pub fn load(&mut self, name: &str, section: &[u8]) -> Result<(), Refusal> {
        let (name, name_len) = (name.as_ptr(), name.len());
        let (at, len) = (section.as_ptr().cast(), section.len());
        // SAFETY: the handle is this value's own, and name and section are borrowed for the call.
        outcome_of(unsafe { raw::ctfd_load(&mut self.raw, name, name_len, at, len) })
    }

    /// Forgets a session: what it has, and what it has published. Other sessions keep what they
    /// took from it.
    pub fn leave(&mut self, session: u32) -> Result<(), Refusal> {
        // SAFETY: the handle is this value's own.
        outcome_of(unsafe { raw::ctfd_leave(&mut self.raw, session) })
    }

    /// Appends the reply of a call.
    fn append(
        &mut self,
        replies: &mut Vec<u8>,
        ask: impl FnOnce(&mut raw::Handle, *mut u8, usize, &mut u64) -> u32,
    ) -> Result<(), Refusal> {
        reserve(replies, ROOM)?;
        let (mut len, room) = (0, replies.spare_capacity_mut());
        let (at, room) = (room.as_mut_ptr().cast::<u8>(), room.len());
        outcome_of(ask(&mut self.raw, at, room, &mut len))?;
        let len = len as usize;
        if len > room {
            reserve(replies, len)?;
            let (mut same, at) = (0, replies.spare_capacity_mut().as_mut_ptr().cast::<u8>());
            // SAFETY: as above, with room for the whole reply.
            outcome_of(unsafe { raw::ctfd_reply(&mut self.raw, at, len, &mut same) })?;
        }
        // SAFETY: the library wrote that many bytes after the end of `replies`.
        unsafe { replies.set_len(replies.len() + len) };
        Ok(())
    }
}

/// The initial size of the buffer for a reply, in bytes.
const ROOM: usize = 4096;

/// Makes room for `more` further bytes.
fn reserve(replies: &mut Vec<u8>, more: usize) -> Result<(), Refusal> {
    replies.try_reserve(more).map_err(|_| Refusal { fault: Fault::Memory, place: 0 })
}

impl Drop for Service {
    fn drop(&mut self) {
        // SAFETY: nothing borrows it any more.
        unsafe { raw::ctfd_end(&mut self.raw) }
    }
}

impl fmt::Debug for Service {
    fn fmt(&self, to: &mut fmt::Formatter<'_>) -> fmt::Result {
        to.debug_struct("Service").finish_non_exhaustive()
    }
}
