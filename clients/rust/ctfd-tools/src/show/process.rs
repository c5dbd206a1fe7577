//! Running processes: reads memory from `/proc/PID/mem`, which does not stop them.

use ctfd_read::core_file::{MappedFile, Mapping};
use ctfd_read::error::{reason, refuse, Error, Result};
use std::collections::HashMap;
use std::ffi::{OsStr, OsString};
use std::fs::{self, File};
use std::io::{self, ErrorKind};
use std::os::unix::ffi::{OsStrExt as _, OsStringExt as _};
use std::os::unix::fs::FileExt as _;
use std::path::{Path, PathBuf};

/// File offsets are less than this, and so are the addresses that can be read.
const MOST: u64 = 1 << 63;
const DELETED: &[u8] = b" (deleted)";
const ADVICE: &str =
    "it may be read by its owner, if the system lets one (kernel.yama.ptrace_scope), and by root";

/// The memory of a process, and its mapped files.
pub struct Process {
    pid: u32,
    folder: PathBuf,
    memory: File,
    files: Vec<MappedFile>,
}

impl Process {
    /// Opens the memory of a process.
    pub fn open(pid: u32) -> Result<Process> {
        let folder = PathBuf::from(format!("/proc/{pid}"));
        let opened = File::open(folder.join("mem"))
            .and_then(|memory| Ok((memory, files(&folder)?)))
            .map_err(|error| why_not(pid, &error));
        let (memory, files) = opened?;
        if files.is_empty() {
            return refuse(format!(
                "process {pid} has no program in memory: it has ended, or is the kernel's own"
            ));
        }
        Ok(Process { pid, folder, memory, files })
    }

    /// The name for messages.
    pub fn name(&self) -> String {
        format!("process {}", self.pid)
    }

    /// The mapped files; the program comes first.
    pub fn files(&self) -> &[MappedFile] {
        &self.files
    }

    /// At most `length` bytes at an address: as many as can be read.
    pub fn read(&self, address: u64, length: u64) -> Vec<u8> {
        let mut bytes = vec![0; length as usize];
        let mut count = 0;
        while count < bytes.len() {
            let at = address.saturating_add(count as u64);
            match self.memory.read_at(&mut bytes[count..], at) {
                _ if at >= MOST => break,
                Ok(0) | Err(_) => break,
                Ok(more) => count += more,
            }
        }
        bytes.truncate(count);
        bytes
    }

    /// Whether the process has ended; it has no program any more then.
    pub fn has_ended(&self) -> bool {
        fs::read_link(self.folder.join("exe")).is_err()
    }
}

/// The error for a process that cannot be read.
fn why_not(pid: u32, error: &io::Error) -> Error {
    const NO_PROCESS: i32 = 3; // ESRCH: the process ended in the meantime
    Error(match error.kind() {
        ErrorKind::PermissionDenied => format!("process {pid} may not be read: {ADVICE}"),
        ErrorKind::NotFound => format!("there is no process {pid}"),
        _ if error.raw_os_error() == Some(NO_PROCESS) => format!("there is no process {pid}"),
        _ => format!("process {pid}: {}", reason(error)),
    })
}

/// The files of `/proc/PID/maps` in the order of their addresses, without duplicates, and with the
/// program first.
fn files(folder: &Path) -> io::Result<Vec<MappedFile>> {
    let program = match fs::read_link(folder.join("exe")) {
        Ok(path) => path.into_os_string().into_vec(),
        Err(error) if error.kind() == ErrorKind::NotFound => return Ok(Vec::new()),
        Err(error) => return Err(error),
    };
    let maps = fs::read(folder.join("maps"))?;
    let mut made: Vec<MappedFile> = Vec::new();
    let mut numbers: HashMap<&[u8], usize> = HashMap::new();
    for (path, range, mapping) in mapped_files(&maps) {
        let number = *numbers.entry(path).or_insert_with_key(|path| {
            made.push(file(folder, path, range, &program));
            made.len() - 1
        });
        made[number].mappings.push(mapping);
    }
    if let Some(number) = made.iter().position(|one| one.is_program) {
        made[..=number].rotate_right(1);
    }
    Ok(made)
}

/// A mapped file, and the paths at which it may be opened. A deleted file can be opened in
/// `map_files`, if the kernel allows it, as for root; the program is opened as it was when the
/// process began. The kernel writes `\012` for a newline in a name, but also for these four
/// characters, so both names are tried.
fn file(folder: &Path, written: &[u8], range: &str, program: &[u8]) -> MappedFile {
    let path = with_newlines(written);
    let is_program = [written, &path].contains(&program);
    let inside = |path: &[u8]| {
        let mut made = OsString::from(folder.join("root"));
        made.push(OsStr::from_bytes(path));
        PathBuf::from(made)
    };
    let whole = path.strip_suffix(DELETED);
    let places = match is_program {
        true => vec![folder.join("exe")],
        false => {
            let mut made = vec![inside(&path)];
            made.extend((path != written).then(|| inside(written)));
            made.extend(whole.map(|_| folder.join("map_files").join(range)));
            made
        }
    };
    let path = PathBuf::from(OsStr::from_bytes(whole.unwrap_or(&path)));
    MappedFile { path, places, mappings: Vec::new(), is_program }
}

/// The files with their address ranges, as the kernel writes them and as numbers.
fn mapped_files(maps: &[u8]) -> impl Iterator<Item = (&[u8], &str, Mapping)> {
    maps.split(|&byte| byte == b'\n').filter_map(line)
}

/// Parses a line: `START-END rights OFFSET device inode PATH`. None if there is no path.
fn line(line: &[u8]) -> Option<(&[u8], &str, Mapping)> {
    let mut rest = line;
    let mut words = [&[][..]; 5];
    for word in &mut words {
        let end = rest.iter().position(|&byte| byte == b' ')?;
        *word = &rest[..end];
        rest = rest[end..].trim_ascii_start();
    }
    let number = |word: &str| u64::from_str_radix(word, 16).ok();
    let range = std::str::from_utf8(words[0]).ok()?;
    let (start, end) = range.split_once('-')?;
    let (start, end) = (number(start)?, number(end)?);
    let offset = number(std::str::from_utf8(words[2]).ok()?)?;
    let mapping = Mapping { start, end, offset };
    rest.starts_with(b"/").then_some((rest, range, mapping))
}

/// Replaces `\012` by the newline for which the kernel writes it.
fn with_newlines(path: &[u8]) -> Vec<u8> {
    let mut made = Vec::with_capacity(path.len());
    let mut rest = path;
    while let Some((&byte, behind)) = rest.split_first() {
        match rest.strip_prefix(br"\012") {
            Some(behind) => {
                made.push(b'\n');
                rest = behind;
            }
            None => {
                made.push(byte);
                rest = behind;
            }
        }
    }
    made
}

#[cfg(test)]
mod tests {
    use super::*;

    #[test]
    fn maps_have_odd_names() {
        let maps = b"00400000-00401000 r-xp 00002000 fe:00 12   /usr/bin/a b (deleted)\n\
            00601000-00602000 rw-p 00000000 00:00 0 [heap]\n\
            00701000-00702000 rw-p 0 00:00 0\n\
            7f00-7f10 r--p 00000000 fe:00 13 /odd\\012name\n\
            no-line r--p 0 0 0 /x";
        let found = mapped_files(maps).map(|(path, _, mapping)| (with_newlines(path), mapping));
        let found: Vec<_> = found.collect();
        let mapping = |start, end, offset| Mapping { start, end, offset };
        assert_eq!(
            found,
            [
                (b"/usr/bin/a b (deleted)".to_vec(), mapping(0x40_0000, 0x40_1000, 0x2000)),
                (b"/odd\nname".to_vec(), mapping(0x7f00, 0x7f10, 0)),
            ]
        );
    }

    #[test]
    fn what_was_deleted_is_known_by_its_name() {
        let made = file(Path::new("/proc/7"), b"/lib/a (deleted)", "10-20", b"/bin/b");
        assert_eq!(made.path, Path::new("/lib/a"));
        let places = ["/proc/7/root/lib/a (deleted)", "/proc/7/map_files/10-20"];
        assert_eq!(made.places, places.map(PathBuf::from));
        let program = file(Path::new("/proc/7"), br"/bin/b\012", "10-20", br"/bin/b\012");
        assert!(program.is_program);
        let other = file(Path::new("/proc/7"), br"/bin/b\012", "10-20", b"/bin/b");
        let places = ["/proc/7/root/bin/b\n", r"/proc/7/root/bin/b\012"];
        assert_eq!(other.places, places.map(PathBuf::from));
    }

    #[test]
    fn this_process_is_read() {
        let process = Process::open(std::process::id()).unwrap();
        let bytes = *b"some bytes of this process";
        assert_eq!(process.read(bytes.as_ptr() as u64, 26), bytes);
        assert_eq!(process.read(u64::MAX - 4, 16), b"");
        assert!(process.files()[0].is_program && !process.has_ended());
    }
}
