//! Output files, each written whole or not at all.

use crate::interrupts;
use ctfd_read::error::{reason, refuse, Error, Result};
use std::env;
use std::fs::{self, DirBuilder, OpenOptions};
use std::io::{ErrorKind, Write as _};
use std::os::unix::fs::{DirBuilderExt as _, MetadataExt as _};
use std::path::{Path, PathBuf};
use std::process::Command;

/// The word for standard output in place of a file name.
pub const STANDARD_OUTPUT: &str = "-";
/// The exit status if nobody reads the output: that of a process killed by SIGPIPE, in a shell.
const UNREAD: i32 = 141;
const SECTION: &str = ".SUNW_ctf";
/// Programs that copy ELF files. GNU's knows only the machines that it was built for.
const COPIERS: [&str; 2] = ["objcopy", "llvm-objcopy"];

fn is_standard(path: &Path) -> bool {
    path.as_os_str() == STANDARD_OUTPUT
}

fn error_of(path: &Path, error: &std::io::Error) -> Error {
    Error(format!("cannot write {}: {}", path.display(), reason(error)))
}

/// Refuses a file that cannot be written, before its contents are made.
pub fn judge(path: &Path) -> Result<()> {
    if is_standard(path) {
        return Ok(());
    }
    match fs::metadata(path) {
        Ok(about) if about.is_dir() => {
            refuse(format!("cannot write {}: is a directory", path.display()))
        }
        Ok(about) if !about.is_file() => Ok(()), // a device or a pipe: opening it would write to it
        _ => Beside::new(path).map(drop),
    }
}

/// Refuses an input that is one of the outputs.
pub fn judge_input(input: &Path, outputs: &[&Path]) -> Result<()> {
    let is_written = |output: &&Path| !is_standard(output) && is_same(input, output);
    match outputs.iter().any(is_written) {
        true => refuse(format!(
            "{}: it is an input, and would be overwritten: name another file",
            input.display()
        )),
        false => Ok(()),
    }
}

/// Whether two paths name the same file, after links.
pub fn is_same(one: &Path, other: &Path) -> bool {
    let real = |path: &Path| path.canonicalize().unwrap_or_else(|_| path.to_owned());
    real(one) == real(other)
}

/// Writes a file whole, or leaves the old one.
pub fn write(path: &Path, bytes: &[u8]) -> Result<()> {
    if is_standard(path) {
        return print(bytes);
    }
    if fs::metadata(path).is_ok_and(|about| !about.is_file()) {
        let open = || OpenOptions::new().append(true).open(path)?.write_all(bytes);
        return open().map_err(|error| error_of(path, &error));
    }
    let beside = Beside::new(path)?;
    fs::write(&beside.path, bytes)
        .and_then(|()| fs::rename(&beside.path, path))
        .map_err(|error| error_of(path, &error))
}

/// Writes to standard output. If its reader has left, ends the process without a message.
fn print(bytes: &[u8]) -> Result<()> {
    let mut output = std::io::stdout().lock();
    match output.write_all(bytes).and_then(|()| output.flush()) {
        Err(error) if error.kind() == ErrorKind::BrokenPipe => std::process::exit(UNREAD),
        done => done.map_err(|error| Error(format!("standard output: {}", reason(&error)))),
    }
}

/// A temporary file beside another, which it replaces if all goes well.
struct Beside {
    path: PathBuf,
}

impl Beside {
    fn new(other: &Path) -> Result<Beside> {
        let folder = other.parent().unwrap_or(Path::new(""));
        let process = std::process::id();
        for turn in 0..u32::MAX {
            let path = folder.join(format!(".ctfd-{process}-{turn}"));
            let open = |path: &Path| OpenOptions::new().write(true).create_new(true).open(path);
            match interrupts::make(&path, open) {
                Ok(_) => return Ok(Beside { path }),
                Err(error) if error.kind() == ErrorKind::AlreadyExists => {}
                Err(error) => return Err(error_of(other, &error)),
            }
        }
        refuse("no free name for a temporary file")
    }
}

impl Drop for Beside {
    fn drop(&mut self) {
        interrupts::unmake(&self.path); // as a rule it was renamed
    }
}

/// A temporary folder of this process, removed with its contents when dropped.
pub struct Folder {
    path: PathBuf,
}

impl Folder {
    /// Makes one in the system's folder for temporary files.
    pub fn new() -> Result<Folder> {
        Folder::within(&std::env::temp_dir())
    }

    /// Makes one in the given folder.
    pub fn within(other: &Path) -> Result<Folder> {
        let process = std::process::id();
        for turn in 0..u32::MAX {
            let path = other.join(format!(".ctfd-{process}-{turn}"));
            match interrupts::make(&path, |path| DirBuilder::new().mode(0o700).create(path)) {
                Ok(()) => return Ok(Folder { path }),
                Err(error) if error.kind() == ErrorKind::AlreadyExists => {}
                Err(error) => return Err(error_of(&path, &error)),
            }
        }
        refuse("no free name for a temporary folder")
    }

    /// The path of the folder.
    pub fn path(&self) -> &Path {
        &self.path
    }
}

impl Drop for Folder {
    fn drop(&mut self) {
        interrupts::unmake(&self.path);
    }
}

/// Writes a copy of an ELF file with the dictionary in it, replacing any that it has.
pub fn add_section(input: &Path, bytes: &[u8], output: &Path) -> Result<()> {
    let words = ["--remove-section", SECTION].map(str::to_owned);
    let whole = with_sections("--section", input, &words, &[(SECTION, bytes)], output)?;
    write(output, &whole)?;
    if !is_standard(output) && output.is_file() {
        let mode =
            fs::metadata(input).and_then(|about| fs::set_permissions(output, about.permissions()));
        mode.map_err(|error| error_of(output, &error))?;
    }
    Ok(())
}

/// A copy of an ELF file, made by objcopy with the given options and added sections. `option` is
/// the user's option that needs it, and `output` the file to be written; both are for messages.
pub fn with_sections(
    option: &str,
    input: &Path,
    words: &[String],
    sections: &[(&str, &[u8])],
    output: &Path,
) -> Result<Vec<u8>> {
    let folder = Folder::new()?;
    let copy = folder.path.join("copy");
    let mut words = words.to_vec();
    for (number, (name, bytes)) in sections.iter().enumerate() {
        let file = folder.path.join(number.to_string());
        fs::write(&file, bytes).map_err(|error| error_of(&file, &error))?;
        words.extend(["--add-section".to_owned(), format!("{name}={}", file.display())]);
    }
    let mut said = Vec::new();
    for copier in COPIERS {
        match copy_by_tool(copier, &words, input, &copy) {
            None => {}
            Some(Ok(())) => return fs::read(&copy).map_err(|error| error_of(&copy, &error)),
            Some(Err(words)) => said.push(words),
        }
    }
    match said.first() {
        Some(words) => refuse(format!("{}: objcopy failed: {words}", output.display())),
        None => {
            refuse(format!("{option} needs objcopy, which is not on the PATH: install binutils"))
        }
    }
}

/// The path of a program on the PATH. Relative folders on the PATH are skipped: another user may
/// have put a file into the current folder.
pub fn on_path(name: &str) -> Option<PathBuf> {
    let is_program = |path: &PathBuf| {
        fs::metadata(path).is_ok_and(|about| about.is_file() && about.mode() & 0o111 != 0)
    };
    env::split_paths(&env::var_os("PATH")?)
        .filter(|folder| folder.is_absolute())
        .map(|folder| folder.join(name))
        .find(is_program)
}

/// Copies a file by a tool, and returns its message if that fails; None if it cannot be run.
fn copy_by_tool(
    copier: &str,
    words: &[String],
    input: &Path,
    copy: &Path,
) -> Option<std::result::Result<(), String>> {
    let input = input.canonicalize().unwrap_or_else(|_| input.to_owned());
    let done =
        Command::new(on_path(copier)?).args(words).args([input.as_path(), copy]).output().ok()?;
    if done.status.success() {
        return Some(Ok(()));
    }
    let said = String::from_utf8_lossy(&done.stderr);
    let said = said.split_whitespace().collect::<Vec<_>>().join(" ");
    Some(Err(if said.is_empty() { "no word on why".to_owned() } else { said }))
}
