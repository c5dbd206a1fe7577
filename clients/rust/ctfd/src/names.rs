//! Names and other text from the library.

use crate::faults::{outcome_of, Refusal};
use std::fmt;
use std::ops::Deref;

/// A name, as bytes. `Display` shows printable ASCII as it is, and all other bytes, `"` and `\` as
/// `\x` and two hexadecimal digits, as replies and dumps do.
#[derive(Clone, Default, PartialEq, Eq, PartialOrd, Ord, Hash)]
pub struct Name(pub(crate) Vec<u8>);

impl Name {
    /// The name as text; `None` if its bytes are not UTF-8.
    pub fn to_str(&self) -> Option<&str> {
        std::str::from_utf8(&self.0).ok()
    }

    /// The bytes of the name.
    pub fn into_bytes(self) -> Vec<u8> {
        self.0
    }
}

impl Deref for Name {
    type Target = [u8];

    fn deref(&self) -> &[u8] {
        &self.0
    }
}

impl PartialEq<str> for Name {
    fn eq(&self, other: &str) -> bool {
        self.0 == other.as_bytes()
    }
}

impl PartialEq<&str> for Name {
    fn eq(&self, other: &&str) -> bool {
        self.0 == other.as_bytes()
    }
}

impl fmt::Display for Name {
    fn fmt(&self, to: &mut fmt::Formatter<'_>) -> fmt::Result {
        show(&self.0, to)
    }
}

impl fmt::Debug for Name {
    fn fmt(&self, to: &mut fmt::Formatter<'_>) -> fmt::Result {
        write!(to, "\"{self}\"")
    }
}

/// Formats the bytes of a name.
pub(crate) fn show(bytes: &[u8], to: &mut fmt::Formatter<'_>) -> fmt::Result {
    for &byte in bytes {
        match byte {
            b'"' | b'\\' => write!(to, "\\x{byte:02x}")?,
            b' '..=b'~' => write!(to, "{}", char::from(byte))?,
            _ => write!(to, "\\x{byte:02x}")?,
        }
    }
    Ok(())
}

/// The initial size of a text buffer, in bytes: most names are shorter, and a buffer that grew for
/// one long text is not cleared for each text after it.
const FIRST: usize = 256;

/// Fills a buffer with the text that `ask` writes, calling it again if the buffer was too small.
/// `ask` writes as much as fits, and gives the full length.
pub(crate) fn fill(
    room: &mut Vec<u8>,
    mut ask: impl FnMut(*mut u8, usize, &mut u64) -> u32,
) -> Result<(), Refusal> {
    let mut len = 0;
    room.resize(FIRST, 0);
    loop {
        outcome_of(ask(room.as_mut_ptr(), room.len(), &mut len))?;
        let whole = len as usize <= room.len();
        room.resize(len as usize, 0);
        if whole {
            return Ok(());
        }
    }
}

/// The text that `ask` writes, in a buffer of its own.
pub(crate) fn text(ask: impl FnMut(*mut u8, usize, &mut u64) -> u32) -> Result<Name, Refusal> {
    let mut room = Vec::new();
    fill(&mut room, ask)?;
    Ok(Name(room))
}
