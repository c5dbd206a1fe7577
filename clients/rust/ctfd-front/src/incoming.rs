//! The bytes that a client has sent, split into lines.

use memchr::{memchr, memrchr};
use std::collections::TryReserveError;

/// A client's next line.
#[derive(Clone, Copy, Debug, PartialEq, Eq)]
pub enum Line<'a> {
    /// The bytes of the line, without the newline.
    Whole(&'a [u8]),
    /// The line is longer than allowed.
    TooLong,
}

/// Received bytes, and the whole lines in them.
///
/// Of a line longer than `longest` nothing is kept. Nothing is added while there are whole lines,
/// so no more is kept than a part of a line and the bytes of one read.
pub struct Incoming {
    bytes: Vec<u8>,
    start: usize,
    /// The offset after the last newline.
    whole_end: usize,
    longest: usize,
    /// Whether the rest of a line that is too long has to be dropped.
    is_cut: bool,
    /// Whether the first line was too long.
    is_first_too_long: bool,
}

impl Incoming {
    /// An empty buffer; `longest` is the most bytes of a line.
    pub fn new(longest: usize) -> Incoming {
        Incoming {
            bytes: Vec::new(),
            start: 0,
            whole_end: 0,
            longest,
            is_cut: false,
            is_first_too_long: false,
        }
    }

    /// Adds received bytes. Returns whether a line ended in them. If memory is refused, nothing is
    /// added.
    pub fn feed(&mut self, mut data: &[u8]) -> Result<bool, TryReserveError> {
        debug_assert!(!self.has_line(), "whole lines are answered first");
        let mut has_ended = false;
        if self.is_cut {
            let Some(end) = memchr(b'\n', data) else { return Ok(false) };
            data = &data[end + 1..];
            has_ended = true;
        }
        self.bytes.try_reserve(data.len())?;
        if has_ended {
            (self.is_cut, self.is_first_too_long) = (false, true);
        }
        let before = self.bytes.len();
        self.bytes.extend_from_slice(data);
        match memrchr(b'\n', data) {
            Some(last) => {
                self.whole_end = before + last + 1;
                has_ended = true;
            }
            None if self.bytes.len() > self.longest => {
                self.is_cut = true;
                self.bytes = Vec::new();
            }
            None => {}
        }
        Ok(has_ended)
    }

    /// Ends the input: a last part that is not empty is a line too.
    pub fn end(&mut self) -> Result<(), TryReserveError> {
        if self.is_cut || self.bytes.len() > self.whole_end {
            let end = [b'\n'];
            if self.has_line() {
                self.bytes.try_reserve(end.len())?;
                self.bytes.extend_from_slice(&end);
                self.whole_end = self.bytes.len();
            } else {
                self.feed(&end)?;
            }
        }
        Ok(())
    }

    /// Drops a line that has begun and not ended.
    pub fn drop_piece(&mut self) {
        self.bytes.truncate(self.whole_end);
        self.is_cut = false;
    }

    /// Whether there is a whole line.
    pub fn has_line(&self) -> bool {
        self.is_first_too_long || self.start < self.whole_end
    }

    /// The next line, which stays until it is passed.
    pub fn line(&self) -> Option<Line<'_>> {
        if self.is_first_too_long {
            return Some(Line::TooLong);
        }
        let rest = &self.bytes[self.start..self.whole_end];
        let line = &rest[..memchr(b'\n', rest)?];
        Some(if line.len() > self.longest { Line::TooLong } else { Line::Whole(line) })
    }

    /// Removes the next line, which has that many bytes.
    pub fn pass(&mut self, bytes: usize) {
        if std::mem::take(&mut self.is_first_too_long) {
            return;
        }
        self.start += bytes + 1;
        if self.start == self.bytes.len() {
            // An idle connection uses no memory.
            (self.bytes, self.start, self.whole_end) = (Vec::new(), 0, 0);
        } else if self.start == self.whole_end {
            self.keep_piece();
        }
    }

    /// Frees all lines, and leaves a buffer as small as the part of a line that remains.
    fn keep_piece(&mut self) {
        let mut piece = Vec::new();
        if piece.try_reserve_exact(self.bytes.len() - self.start).is_ok() {
            piece.extend_from_slice(&self.bytes[self.start..]);
            self.bytes = piece;
        } else {
            self.bytes.drain(..self.start);
        }
        (self.start, self.whole_end) = (0, 0);
    }

    /// Removes the next line.
    pub fn skip(&mut self) {
        let rest = &self.bytes[self.start..self.whole_end];
        let bytes = memchr(b'\n', rest).unwrap_or(0);
        self.pass(bytes);
    }

    /// The number of bytes kept.
    pub fn size(&self) -> usize {
        self.bytes.len() - self.start
    }

    /// Whether a line has begun and not ended.
    pub fn has_piece(&self) -> bool {
        self.is_cut || self.bytes.len() > self.whole_end
    }
}

#[cfg(test)]
mod tests {
    use super::*;

    /// The lines of data that arrives in pieces of a size; `None` for a line that is too long.
    fn lines(data: &[u8], size: usize, longest: usize) -> Vec<Option<Vec<u8>>> {
        let (mut incoming, mut found) = (Incoming::new(longest), Vec::new());
        let mut drain = |incoming: &mut Incoming| {
            while let Some(line) = incoming.line() {
                found.push(match line {
                    Line::Whole(line) => Some(line.to_vec()),
                    Line::TooLong => None,
                });
                incoming.skip();
            }
        };
        for piece in data.chunks(size) {
            incoming.feed(piece).unwrap();
            drain(&mut incoming);
            assert!(incoming.size() <= longest + size);
        }
        incoming.end().unwrap();
        drain(&mut incoming);
        assert_eq!((incoming.size(), incoming.has_piece()), (0, false));
        found
    }

    #[test]
    fn lines_are_the_same_however_they_come() {
        let data = b"one\n\ntwo\nfar too long a line\nseven..\neight...\nlast";
        let wanted =
            [Some("one"), Some(""), Some("two"), None, Some("seven.."), None, Some("last")];
        let wanted: Vec<_> =
            wanted.iter().map(|line| line.map(|line| line.as_bytes().to_vec())).collect();
        for size in 1..data.len() + 1 {
            assert_eq!(lines(data, size, 7), wanted, "{size}");
        }
    }

    #[test]
    fn a_long_line_without_end_is_one_line() {
        for size in [1, 3, 100] {
            assert_eq!(lines(&[b'x'; 50], size, 7), [None]);
            assert_eq!(lines(b"xxxxxxxxxx\n", size, 7), [None]);
        }
        assert_eq!(lines(b"", 1, 7), [] as [Option<Vec<u8>>; 0]);
    }

    #[test]
    fn a_piece_is_dropped() {
        let mut incoming = Incoming::new(7);
        incoming.feed(b"a\nb").unwrap();
        incoming.drop_piece();
        assert_eq!(incoming.line(), Some(Line::Whole(b"a")));
        incoming.skip();
        assert!(!incoming.has_line() && !incoming.has_piece());
        incoming.feed(b"0123456789").unwrap();
        incoming.drop_piece();
        incoming.feed(b"c\n").unwrap();
        assert_eq!(incoming.line(), Some(Line::Whole(b"c")));
    }
}
