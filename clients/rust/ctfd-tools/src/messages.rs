//! Messages on standard error, and exit statuses.

use std::fmt::Display;
use std::io::Write as _;

/// Exit status: something was lost, and the rest was written.
pub const LOSSY: u8 = 1;
/// Exit status: nothing was written.
pub const REFUSED: u8 = 2;

/// Writes a line to standard error. An error in doing so is ignored: there is nobody to report it
/// to.
pub fn warn(command: &str, line: impl Display) {
    let line: String = line.to_string().chars().map(printable).collect();
    let _ = writeln!(std::io::stderr(), "{command}: {line}");
}

/// Replaces a control character: names may contain any, and terminals obey some of them.
pub fn printable(letter: char) -> char {
    if letter.is_control() {
        char::REPLACEMENT_CHARACTER
    } else {
        letter
    }
}
