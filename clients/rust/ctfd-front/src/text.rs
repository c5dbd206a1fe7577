//! Text that is made while memory may be refused. That ends nothing: std's own strings, which abort
//! the process, are not used here.

use crate::system;
use std::fmt::{self, Write};
use std::io;

/// A text that grows as long as memory is granted.
#[derive(Default)]
pub struct Text {
    bytes: Vec<u8>,
    is_refused: bool,
}

impl Text {
    /// Its bytes; `None` if memory for some of them was refused.
    pub fn bytes(&self) -> Option<&[u8]> {
        (!self.is_refused).then_some(&self.bytes)
    }
}

impl Write for Text {
    fn write_str(&mut self, piece: &str) -> fmt::Result {
        self.is_refused |= self.bytes.try_reserve(piece.len()).is_err();
        if self.is_refused {
            return Err(fmt::Error);
        }
        self.bytes.extend_from_slice(piece.as_bytes());
        Ok(())
    }
}

/// The most bytes of a line for the operator: 256 shards and all faults fit.
const LINE_BYTES: usize = 65_536;

/// A line in a buffer of fixed size. What does not fit is cut off.
pub struct Line {
    bytes: [u8; LINE_BYTES],
    len: usize,
}

impl Line {
    /// An empty line. It is too large for a stack, which may fail to grow if memory is refused.
    pub const fn new() -> Line {
        Line { bytes: [0; LINE_BYTES], len: 0 }
    }

    /// Replaces the text. Returns its bytes with a newline.
    pub fn hold(&mut self, text: impl fmt::Display) -> &[u8] {
        self.len = 0;
        let _ = write!(self, "{text}"); // it fails if the line is full
        self.bytes[self.len] = b'\n';
        &self.bytes[..self.len + 1]
    }
}

impl Write for Line {
    fn write_str(&mut self, piece: &str) -> fmt::Result {
        let room = LINE_BYTES - 1 - self.len;
        let piece = &piece.as_bytes()[..piece.len().min(room)];
        self.bytes[self.len..self.len + piece.len()].copy_from_slice(piece);
        self.len += piece.len();
        if piece.len() < room || room == 0 {
            Ok(())
        } else {
            Err(fmt::Error)
        }
    }
}

/// A system error that is displayed without the number that Rust adds.
pub struct Words<'a>(pub &'a io::Error);

impl fmt::Display for Words<'_> {
    fn fmt(&self, to: &mut fmt::Formatter<'_>) -> fmt::Result {
        match self.0.raw_os_error() {
            Some(number) => {
                let mut room = [0; 128];
                to.write_str(system::error_text(number, &mut room))
            }
            None => write!(to, "{}", self.0),
        }
    }
}

#[cfg(test)]
mod tests {
    use super::*;

    #[test]
    fn a_line_is_cut_where_it_is_full() {
        let mut line = Line::new();
        assert_eq!(line.hold("x".repeat(2 * LINE_BYTES)).len(), LINE_BYTES);
        assert_eq!(line.hold("short"), b"short\n");
    }

    #[test]
    fn the_systems_words_have_no_number() {
        let missing = io::Error::from_raw_os_error(libc::ENOENT);
        assert_eq!(Words(&missing).to_string(), "No such file or directory");
        assert_eq!(
            Words(&io::ErrorKind::InvalidInput.into()).to_string(),
            "invalid input parameter"
        );
    }

    #[test]
    fn a_text_grows() {
        let mut text = Text::default();
        write!(text, "a {}", 1).unwrap();
        assert_eq!(text.bytes(), Some(&b"a 1"[..]));
    }
}
