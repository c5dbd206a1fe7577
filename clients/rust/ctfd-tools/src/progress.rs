//! A progress bar with an estimate for long work, if standard error is a terminal.

use crate::types::text::printable;
use ctfd_read::inputs::Options;
use ctfd_read::progress::{Listener, Progress};
use indicatif::{ProgressBar, ProgressDrawTarget, ProgressStyle};
use std::io::{stderr, IsTerminal as _};
use std::os::unix::ffi::OsStrExt as _;
use std::path::Path;
use std::sync::{Arc, OnceLock};
use std::time::{Duration, Instant};

/// Work that takes no longer shows no bar.
const PATIENCE: Duration = Duration::from_secs(1);
const TEMPLATE: &str = "{msg} [{bar:30}] {percent:>3}%, {eta} left";

/// When the command began.
static BEGUN: OnceLock<Instant> = OnceLock::new();

/// Records when the command began; bars are shown some time after that.
pub fn begin() {
    BEGUN.get_or_init(Instant::now);
}

/// A progress bar for reading a file.
pub struct Bar {
    begun: Instant,
    what: String,
    is_wanted: bool,
    shown: OnceLock<ProgressBar>,
}

impl Bar {
    /// A bar with the given message.
    pub fn new(what: String) -> Bar {
        let is_wanted = stderr().is_terminal();
        Bar { begun: *BEGUN.get_or_init(Instant::now), what, is_wanted, shown: OnceLock::new() }
    }

    fn show(&self, total: u64) -> ProgressBar {
        let bar = ProgressBar::with_draw_target(Some(total), ProgressDrawTarget::stderr())
            .with_message(self.what.clone())
            .with_elapsed(self.begun.elapsed());
        match ProgressStyle::with_template(TEMPLATE) {
            Ok(style) => bar.with_style(style.progress_chars("=> ")),
            Err(_) => bar,
        }
    }
}

/// The options for reading a file, with a progress bar.
pub fn with_bar(reading: &Options, path: &Path) -> Options {
    let what = format!("reading {}", printable(path.as_os_str().as_bytes()));
    Options { listener: Listener::new(Arc::new(Bar::new(what))), ..reading.clone() }
}

impl Progress for Bar {
    fn advance(&self, done: u64, total: u64) {
        if self.is_wanted && self.begun.elapsed() > PATIENCE {
            let bar = self.shown.get_or_init(|| self.show(total));
            bar.set_length(total);
            bar.set_position(done);
        }
    }

    fn end(&self) {
        if let Some(bar) = self.shown.get() {
            bar.finish_and_clear();
        }
    }
}
