//! Texts that pointers lead to, as gdb prints them.

use super::quoting::{quote, Limits};
use super::reading::from_little_endian;
use super::target::Target;

/// Texts are read in steps, each up to the next multiple of this address.
const STEP: u64 = 256;

/// How the characters of a text are stored and printed.
#[derive(Clone, Copy, Debug)]
pub struct Letters {
    /// The size of a character in bytes.
    pub size: u64,
    /// The prefix before the quotes: `L`, `u`, `U` or nothing.
    pub prefix: &'static str,
}

/// Plain text.
pub const PLAIN: Letters = Letters { size: 1, prefix: "" };

impl Target<'_> {
    /// The text at an address in quotes, or the error that it cannot be read; and the number of
    /// characters that were read.
    pub fn text(&self, address: u64, letters: Letters, limits: Limits) -> (String, usize) {
        let (codes, missing) = self.letters(address, letters.size, limits.elements);
        (text_of(&codes, missing, letters, limits), codes.len())
    }
    /// The characters up to a zero, or past the limit; and the first address that cannot be read,
    /// if there is one before that.
    fn letters(&self, address: u64, size: u64, limit: usize) -> (Vec<u32>, Option<u64>) {
        let (mut bytes, mut codes) = (Vec::new(), Vec::new());
        let mut new = 0;
        while codes.len() <= limit && !codes[new..].contains(&0) {
            new = codes.len();
            let at = address.wrapping_add(bytes.len() as u64);
            let length = STEP - at % STEP;
            let piece = self.bytes(at, length);
            let end = at.wrapping_add(piece.len() as u64);
            let is_short = (piece.len() as u64) < length;
            bytes.extend(piece);
            let known = codes.len() * size as usize;
            let whole = bytes[known..].chunks_exact(size as usize);
            codes.extend(whole.map(|one| from_little_endian(one) as u32));
            if is_short && !codes[new..].contains(&0) {
                return (codes, Some(end));
            }
        }
        (codes, None)
    }
}

/// A text in quotes, or the error with the address that cannot be read.
fn text_of(codes: &[u32], missing: Option<u64>, letters: Letters, limits: Limits) -> String {
    let no_access = |at: u64| format!("<error: Cannot access memory at address 0x{at:x}>");
    if let (Some(at), true) = (missing, codes.is_empty()) {
        return no_access(at);
    }
    let end = codes.iter().position(|&code| code == 0);
    let text = &codes[..end.unwrap_or(codes.len())];
    let has_more = text.len() > limits.elements || end.is_none() && missing.is_none();
    let cut = &text[..text.len().min(limits.elements)];
    let made = quote(cut, limits, has_more, letters.prefix);
    match missing {
        Some(at) if end.is_none() && text.len() < limits.elements => made + &no_access(at),
        _ => made,
    }
}
