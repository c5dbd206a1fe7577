//! Names of publications and of rooms.

use crate::members::Text;
use std::fmt;

/// The most characters of a name.
const LONGEST: usize = 64;

/// A name of a publication or a room: 1 to 64 ASCII letters, digits, `.`, `_` and `-`.
#[derive(Clone, Copy, PartialEq, Eq, Hash)]
pub struct Name {
    len: u8,
    bytes: [u8; LONGEST],
}

impl Name {
    /// The name in a text; `None` if it is no name.
    pub fn of(text: Text<'_>) -> Option<Name> {
        let mut name = Name { len: 0, bytes: [0; LONGEST] };
        for character in text.characters() {
            let byte = character.filter(|byte| {
                byte.is_ascii_alphanumeric() || matches!(byte, b'.' | b'_' | b'-')
            })?;
            *name.bytes.get_mut(usize::from(name.len))? = byte;
            name.len += 1;
        }
        (name.len > 0).then_some(name)
    }

    /// The characters of the name.
    pub fn bytes(&self) -> &[u8] {
        &self.bytes[..usize::from(self.len)]
    }
}

impl fmt::Display for Name {
    fn fmt(&self, to: &mut fmt::Formatter<'_>) -> fmt::Result {
        to.write_str(std::str::from_utf8(self.bytes()).unwrap_or_default())
    }
}

#[cfg(test)]
mod tests {
    use super::*;

    #[test]
    fn names_have_a_length() {
        assert!(Name::of(Text(&[b'x'; 64])).is_some());
        assert!(Name::of(Text(&[b'x'; 65])).is_none());
        assert!(Name::of(Text(b"")).is_none());
    }
}
