//! Runs `debuginfod-find`, which asks servers, as a child process with limits on time and output.

use crate::output::{on_path, Folder};
use crate::store::BuildId;
use ctfd_read::error::{refuse, Error, Result};
use std::fs::{self, File};
use std::io::Read as _;
use std::os::unix::process::ExitStatusExt as _;
use std::path::{Path, PathBuf};
use std::process::{Child, Command, ExitStatus, Stdio};
use std::thread;
use std::time::{Duration, Instant};

use super::place::LONGEST;

const FINDER: &str = "debuginfod-find";
const SHELL: &str = "sh";
/// The shell's script: allows files of at most `$1` blocks of 512 bytes and no core files, and runs
/// the other arguments.
const LIMITED: &str = "ulimit -c 0 && ulimit -f \"$1\" && shift && exec \"$@\"";
const BLOCK: u64 = 512;
/// The time after which the child is killed, and the limits in seconds that it gets itself. The
/// first also ends endless redirects.
const PATIENCE: Duration = Duration::from_secs(20);
const MOST_SECONDS: &str = "15";
const STALLED_SECONDS: &str = "10";
/// The pause between two checks of the child.
const PAUSE: Duration = Duration::from_millis(5);
/// The most bytes that are read of each of the child's outputs.
const MOST_SAID: u64 = 1 << 12;
/// The number of SIGXFSZ, the signal for a file that grows too long.
const TOO_LONG: i32 = 25;
/// The child's message for a build that no server has.
const ABSENT: &str = "No such file or directory";

/// What to ask for.
#[derive(Clone, Copy)]
pub enum Request {
    /// A section by its name.
    Section(&'static str),
    /// The debug file.
    DebugFile,
}

/// Asks servers for a part of a build; None if they do not have it. Temporary files go below
/// `below`.
pub fn fetch(urls: &str, id: &BuildId, wanted: Request, below: &Path) -> Result<Option<Vec<u8>>> {
    let Some(finder) = on_path(FINDER) else {
        return refuse(format!(
            "{FINDER} (Debian: debuginfod), which asks servers, is not on the PATH: install it, or \
             name a folder"
        ));
    };
    let Some(shell) = on_path(SHELL) else { return refuse("sh is not on the PATH") };
    let folder = Folder::within(below)?;
    let words: Vec<&str> = match wanted {
        Request::Section(name) => vec!["section", id.digits(), name],
        Request::DebugFile => vec!["debuginfo", id.digits()],
    };
    let mut command = Command::new(shell);
    command
        .args(["-c", LIMITED, SHELL])
        .arg((LONGEST / BLOCK).to_string())
        .arg(finder)
        .args(words)
        .current_dir(folder.path())
        .env("DEBUGINFOD_URLS", urls)
        .env("DEBUGINFOD_CACHE_PATH", folder.path())
        .env("DEBUGINFOD_MAXSIZE", LONGEST.to_string())
        .env("DEBUGINFOD_MAXTIME", MOST_SECONDS)
        .env("DEBUGINFOD_TIMEOUT", STALLED_SECONDS)
        .env("DEBUGINFOD_RETRY_LIMIT", "1")
        .env_remove("DEBUGINFOD_VERBOSE")
        .env_remove("DEBUGINFOD_PROGRESS")
        .env_remove("DEBUGINFOD_HEADERS_FILE")
        .stdin(Stdio::null())
        .stdout(File::create(folder.path().join("said"))?)
        .stderr(File::create(folder.path().join("errors"))?);
    let child = command.spawn().map_err(Error::from)?;
    let status = exit_status(child)?;
    let said = |name: &str| text_of(&folder.path().join(name));
    match status {
        None => refuse(format!("the server took more than {} s", PATIENCE.as_secs())),
        Some(status) if status.success() => fetched_bytes(&folder, &said("said")).map(Some),
        Some(status) if status.signal() == Some(TOO_LONG) => refuse(too_long()),
        Some(_) => failure_of(&said("errors")),
    }
}

fn too_long() -> String {
    format!("the server sent more than {} MB", LONGEST >> 20)
}

/// Waits for a child, and returns how it ended; None if it ran too long and was killed.
fn exit_status(mut child: Child) -> Result<Option<ExitStatus>> {
    let begun = Instant::now();
    loop {
        if let Some(status) = child.try_wait()? {
            return Ok(Some(status));
        }
        if begun.elapsed() > PATIENCE {
            let _ = child.kill();
            child.wait()?;
            return Ok(None);
        }
        thread::sleep(PAUSE);
    }
}

/// The bytes of the file whose name the child printed; it must be in the child's folder.
fn fetched_bytes(folder: &Folder, said: &str) -> Result<Vec<u8>> {
    let path = PathBuf::from(said.trim_end_matches('\n'));
    let real = path.canonicalize()?;
    if !real.starts_with(folder.path().canonicalize()?) || !fs::metadata(&real)?.is_file() {
        return refuse(format!("{FINDER} names a file that it has not made"));
    }
    let mut bytes = Vec::new();
    File::open(real)?.take(LONGEST + 1).read_to_end(&mut bytes)?;
    match bytes.len() as u64 > LONGEST {
        true => refuse(too_long()),
        false => Ok(bytes),
    }
}

/// The result if the child failed: None if no server has the build, else an error.
fn failure_of(errors: &str) -> Result<Option<Vec<u8>>> {
    let line = errors.lines().last().unwrap_or("no word on why");
    let why = line.rsplit(": ").next().unwrap_or(line);
    match why {
        ABSENT => Ok(None),
        "File too large" => refuse(too_long()),
        _ => refuse(format!("{FINDER} failed: {why}")),
    }
}

/// The first bytes of a file as text; empty if it cannot be read.
fn text_of(path: &Path) -> String {
    let mut bytes = Vec::new();
    let read = File::open(path).and_then(|file| file.take(MOST_SAID).read_to_end(&mut bytes));
    read.map_or_else(|_| String::new(), |_| String::from_utf8_lossy(&bytes).into_owned())
}
