//! Standard output, written in large pieces, with colors on a terminal.

use crate::messages::warn;
use ctfd_read::error::reason;
use std::io::{self, BufWriter, ErrorKind, IsTerminal as _, StdoutLock, Write};
use std::process::ExitCode;

/// The exit status if nobody reads the output: that of a process killed by SIGPIPE, in a shell.
const UNREAD: u8 = 141;
const PIECE: usize = 1 << 16;

/// The terminal's codes for holes, for other comments, and for plain text.
const HOLE: &[u8] = b"\x1b[33m";
const COMMENT: &[u8] = b"\x1b[2m";
const PLAIN: &[u8] = b"\x1b[0m";

/// The output of a command.
pub struct Output {
    written: BufWriter<StdoutLock<'static>>,
    has_colors: bool,
    line: Vec<u8>,
}

impl Output {
    /// Standard output. On a terminal comments have colors, unless NO_COLOR is set, or TERM is
    /// missing or `dumb`.
    pub fn new() -> Output {
        let written = BufWriter::with_capacity(PIECE, io::stdout().lock());
        let is_set = |name: &str| std::env::var_os(name).is_some_and(|word| !word.is_empty());
        let is_dumb = std::env::var_os("TERM").is_none_or(|word| word == "dumb");
        let has_colors = io::stdout().is_terminal() && !is_set("NO_COLOR") && !is_dumb;
        Output { written, has_colors, line: Vec::new() }
    }

    /// Writes a line of C, with its comment in a color.
    fn write_colored(&mut self) -> io::Result<()> {
        let line = std::mem::take(&mut self.line);
        let begins = line.windows(2).position(|pair| pair == b"/*").unwrap_or(line.len());
        let (code, comment) = line.split_at(begins);
        self.written.write_all(code)?;
        if !comment.is_empty() {
            let color = if comment.starts_with(b"/* XXX") { HOLE } else { COMMENT };
            let text = comment.strip_suffix(b"\n").unwrap_or(comment);
            let parts = [color, text, PLAIN, &comment[text.len()..]];
            parts.into_iter().try_for_each(|part| self.written.write_all(part))?;
        }
        Ok(())
    }
}

impl Write for Output {
    fn write(&mut self, bytes: &[u8]) -> io::Result<usize> {
        if !self.has_colors {
            return self.written.write(bytes);
        }
        for part in bytes.split_inclusive(|&byte| byte == b'\n') {
            self.line.extend_from_slice(part);
            if part.ends_with(b"\n") {
                self.write_colored()?;
            }
        }
        Ok(bytes.len())
    }

    fn flush(&mut self) -> io::Result<()> {
        self.write_colored()?;
        self.written.flush()
    }
}

/// The exit status of a command whose output cannot be written. Prints a message, unless the reader
/// has left.
pub fn lost(command: &str, trouble: u8, error: &io::Error) -> ExitCode {
    if error.kind() == ErrorKind::BrokenPipe {
        return ExitCode::from(UNREAD);
    }
    warn(command, format!("standard output: {}", reason(error)));
    ExitCode::from(trouble)
}

/// An output with a title, which is written before the first output.
pub struct TitledOutput<'o> {
    output: &'o mut Output,
    title: Option<String>,
}

impl<'o> TitledOutput<'o> {
    /// An output with this title, or none.
    pub fn new(output: &'o mut Output, title: Option<String>) -> TitledOutput<'o> {
        TitledOutput { output, title }
    }

    /// Writes the title, if it is not written yet.
    pub fn begin(&mut self) -> io::Result<()> {
        match self.title.take() {
            Some(title) => self.output.write_all(title.as_bytes()),
            None => Ok(()),
        }
    }
}

impl Write for TitledOutput<'_> {
    fn write(&mut self, bytes: &[u8]) -> io::Result<usize> {
        self.begin()?;
        self.output.write(bytes)
    }

    fn flush(&mut self) -> io::Result<()> {
        self.output.flush()
    }
}
