//! Whether standard output was closed when this process began.
//!
//! Rust opens `/dev/null` in place of closed standard files before `main` runs; output would then
//! be lost with status 0. So this is checked earlier, by a function in `.init_array`.
#![allow(unsafe_code)]

use std::sync::atomic::{AtomicBool, Ordering};

/// The message if standard output is closed.
pub const CLOSED: &str =
    "standard output is closed, so nothing can be printed: redirect it, to /dev/null if need be";
const OUTPUT: i32 = 1;
/// The command of `fcntl` that returns the flags of an open file, and changes nothing.
const F_GETFD: i32 = 1;

static IS_CLOSED: AtomicBool = AtomicBool::new(false);

extern "C" {
    fn fcntl(file: i32, command: i32, ...) -> i32;
}

#[used]
#[link_section = ".init_array"]
static BEFORE_MAIN: extern "C" fn() = look;

extern "C" fn look() {
    // SAFETY: `F_GETFD` takes no argument, and any number may be given for a file.
    let flags = unsafe { fcntl(OUTPUT, F_GETFD) };
    IS_CLOSED.store(flags == -1, Ordering::Relaxed);
}

/// Whether standard output was closed.
pub fn is_output_closed() -> bool {
    IS_CLOSED.load(Ordering::Relaxed)
}
