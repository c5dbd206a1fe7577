//! Packages of distributions: extracts regular files from the output of each format's own tool.

mod cpio;

use crate::output::on_path;
use crate::types::failure::{Failure, Outcome};
use crate::types::open::display_path;
use ctfd_read::error::reason;
use std::fs::{self, File, OpenOptions};
use std::io::{self, ErrorKind, Read};
use std::path::{Component, Path, PathBuf};
use std::process::{Child, Command, Stdio};

/// How many times its own size a package may unpack to, and how many bytes more.
const MOST_TIMES: u64 = 256;
const AT_LEAST: u64 = 1 << 30;
/// How many bytes at the start of a file tell its format.
const FIRST: u64 = 4;
/// The longest path, as on Linux.
const LONGEST_NAME: usize = 4096;

/// The format of a package.
#[derive(Clone, Copy, Debug, PartialEq, Eq)]
pub enum Format {
    /// dpkg, of Debian.
    Debian,
    /// RPM, of Fedora, SUSE and others.
    Rpm,
}

impl Format {
    const ALL: [Format; 2] = [Format::Debian, Format::Rpm];

    /// The format of a file, by its first bytes.
    pub fn of(path: &Path) -> Option<Format> {
        let is_file = fs::metadata(path).is_ok_and(|about| about.is_file());
        let begins = |format: &Format| {
            let mut first = vec![0; format.magic().len()];
            let read = File::open(path).and_then(|mut file| file.read_exact(&mut first));
            read.is_ok() && first == format.magic()
        };
        is_file.then(|| Format::ALL.into_iter().find(begins)).flatten()
    }

    fn magic(self) -> &'static [u8] {
        match self {
            Format::Debian => b"!<arch>\ndebian-binary",
            Format::Rpm => b"\xed\xab\xee\xdb",
        }
    }

    /// The program that prints the files as an archive, and its options before the package's name.
    fn unpacker(self) -> (&'static str, &'static [&'static str]) {
        match self {
            Format::Debian => ("dpkg-deb", &["--fsys-tarfile"]),
            Format::Rpm => ("rpm2cpio", &[]),
        }
    }
}

/// Unpacks those regular files of a package whose first bytes are wanted, and returns how many.
pub fn unpack(
    package: &Path,
    format: Format,
    into: &Path,
    is_wanted: fn(&[u8]) -> bool,
) -> Outcome<usize> {
    let refused = |said: String| Failure::Refused(format!("{}: {said}", display_path(package)));
    let mut child = start(package, format).map_err(refused)?;
    let bytes = fs::metadata(package).map_or(0, |about| about.len());
    let most = MOST_TIMES.saturating_mul(bytes).saturating_add(AT_LEAST);
    let mut into = Unpacking { into, is_wanted, count: 0 };
    let unpacked = match child.stdout.take().map(|output| output.take(most)) {
        None => Ok(()),
        Some(output) if format == Format::Debian => into.tar(output),
        Some(output) => cpio::each_file(output, &mut |name, bytes| into.file(name, bytes)),
    };
    let _ = child.kill(); // it has ended, unless the package is damaged or too large
    let status = child.wait().map_err(|error| refused(reason(&error)))?;
    match unpacked {
        Ok(()) if !status.success() => Err(refused("it is damaged".to_owned())),
        Ok(()) => Ok(into.count),
        Err(error) => Err(refused(format!("it can't be unpacked: {}", reason(&error)))),
    }
}

/// Starts the unpacker of a package.
fn start(package: &Path, format: Format) -> Result<Child, String> {
    let (name, words) = format.unpacker();
    let Some(unpacker) = on_path(name) else {
        return Err(format!(
            "{name}, which unpacks it, is not on the PATH: unpack it, and name the folder"
        ));
    };
    Command::new(unpacker)
        .args(words)
        .arg(package.canonicalize().unwrap_or_else(|_| package.to_owned()))
        .stdin(Stdio::null())
        .stdout(Stdio::piped())
        .stderr(Stdio::null())
        .spawn()
        .map_err(|error| reason(&error))
}

/// The folder into which a package is unpacked.
struct Unpacking<'p> {
    into: &'p Path,
    is_wanted: fn(&[u8]) -> bool,
    count: usize,
}

impl Unpacking<'_> {
    /// Unpacks the files of a tar archive, reading it to its end.
    fn tar(&mut self, bytes: impl Read) -> io::Result<()> {
        let mut archive = tar::Archive::new(bytes);
        for entry in archive.entries()? {
            let mut entry = entry?;
            if entry.header().entry_type().is_file() {
                let name = entry.path()?.into_owned();
                self.file(&name, &mut entry)?;
            }
        }
        io::copy(&mut archive.into_inner(), &mut io::sink())?;
        Ok(())
    }

    /// Unpacks a file, if it is wanted. Nothing is written outside of the folder: links are not
    /// unpacked, and a name that leads out of it is skipped.
    fn file(&mut self, name: &Path, bytes: &mut dyn Read) -> io::Result<()> {
        let mut first = Vec::new();
        bytes.take(FIRST).read_to_end(&mut first)?;
        let Some(name) = within(name).filter(|_| (self.is_wanted)(&first)) else { return Ok(()) };
        let place = self.into.join(name);
        fs::create_dir_all(place.parent().unwrap_or(self.into))?;
        match OpenOptions::new().write(true).create_new(true).open(&place) {
            Ok(mut file) => io::copy(&mut first.as_slice().chain(bytes), &mut file)?,
            Err(error) if error.kind() == ErrorKind::AlreadyExists => return Ok(()),
            Err(error) => return Err(error),
        };
        self.count += 1;
        Ok(())
    }
}

/// The path of a file relative to the folder; None if it leads out of the folder.
fn within(name: &Path) -> Option<PathBuf> {
    let is_plain = |part: &Component<'_>| matches!(part, Component::Normal(_));
    let is_passed = |part: &Component<'_>| matches!(part, Component::CurDir | Component::RootDir);
    let parts: Vec<Component<'_>> = name.components().filter(|one| !is_passed(one)).collect();
    let is_within = !parts.is_empty() && parts.iter().all(is_plain);
    is_within.then(|| parts.into_iter().collect())
}

#[cfg(test)]
mod tests {
    use super::within;
    use std::path::{Path, PathBuf};

    #[test]
    fn no_name_leads_out() {
        let of = |name: &str| within(Path::new(name));
        assert_eq!(of("./usr/bin/x"), Some(PathBuf::from("usr/bin/x")));
        assert_eq!(of("/etc/passwd"), Some(PathBuf::from("etc/passwd")));
        assert_eq!(of("usr/../../x"), None);
        assert_eq!(of(".."), None);
        assert_eq!(of("."), None);
    }
}
