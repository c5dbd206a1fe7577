//! The lists of a build, in the output of `ctfd-convert --bundle`: a line of JSON with their
//! lengths, then the lists one after another.

use crate::answers::OutOfMemory;
use crate::builds::{Store, Trouble};
use crate::members::Members;
use crate::name::Name;
use crate::text::Words;
use memchr::memchr;
use rustix::io::{poll, PollFd, PollFlags};
use std::io::{self, ErrorKind, Read};
use std::process::{Child, ChildStdout, Command, Stdio};
use std::time::{Duration, Instant};

/// The most bytes of all lists.
const LONGEST: usize = 1 << 28;
/// The bytes that are read at once.
const PIECE: usize = 1 << 18;
/// How long the command may take.
const PATIENCE: Duration = Duration::from_secs(20);
/// The memory that starting a command takes, in bytes. It is requested first, so that a refusal is
/// found here, and does not end the process.
const MARGIN: usize = 1 << 16;

/// The lists of a build.
pub struct Bundle {
    bytes: Vec<u8>,
    /// The range of each list: the dictionary, its symbols and their strings.
    places: [Option<(usize, usize)>; 3],
    /// Whether pointers have 8 bytes.
    pub is_64: bool,
}

impl Bundle {
    /// Parses the output of the command; `None` if it is no bundle.
    fn of(bytes: Vec<u8>) -> Option<Bundle> {
        let head = bytes.get(..memchr(b'\n', &bytes)?)?;
        let (mut lists, mut described) = (None, None);
        for member in Members::of(head) {
            if member.key.is("lists") {
                lists = member.value.strip_prefix(b"[");
            } else if member.key.is("dictionaries") {
                described = member.value.strip_prefix(b"[");
            }
        }
        let mut ends = vec![head.len() + 1];
        for length in numbers(lists?) {
            ends.push(ends.last()?.checked_add(length?)?);
        }
        let (mut places, mut is_64) = ([None; 3], true);
        let keys = ["ctf", "symbols", "strings"];
        for member in Members::of(described?) {
            if let Some(at) = keys.iter().position(|key| member.key.is(key)) {
                if let Some(number) = numbers(member.value).next().flatten() {
                    let ends = ends.get(number..)?;
                    places[at] = Some((*ends.first()?, *ends.get(1)?));
                }
            } else if member.key.is("model") {
                is_64 = member.text().is_none_or(|model| !model.is("ilp32"));
            }
        }
        let is_whole = ends.last() == Some(&bytes.len()) && places[0].is_some();
        is_whole.then_some(Bundle { bytes, places, is_64 })
    }

    /// The lists, with the names that `part` has for them.
    pub fn lists(&self) -> impl Iterator<Item = (&'static str, &[u8])> {
        let named = ["ctf", "sym", "str"].into_iter().zip(self.places);
        named.filter_map(|(name, place)| place.map(|(from, to)| (name, &self.bytes[from..to])))
    }

    /// The bytes of all lists.
    pub fn bytes(&self) -> u64 {
        self.lists().map(|(_, list)| list.len() as u64).sum()
    }
}

/// The numbers in a JSON list, up to its end; `None` for anything else.
fn numbers(list: &[u8]) -> impl Iterator<Item = Option<usize>> + '_ {
    let end = list.iter().position(|&byte| byte == b']').unwrap_or(list.len());
    list[..end]
        .split(|&byte| byte == b',')
        .map(|digits| std::str::from_utf8(digits).ok()?.parse().ok())
}

/// Reads the lists of a build with the command. It asks no server, and reads only files of the
/// store.
pub fn read(store: &Store, name: &Name) -> Result<Bundle, Trouble> {
    drop(with_room(MARGIN)?);
    let mut child = Command::new(&store.converter)
        .args(["--bundle", &name.to_string(), "-"])
        .env_clear()
        .env("CTFD_STORE", &store.folder)
        .current_dir("/")
        .stdin(Stdio::null())
        .stdout(Stdio::piped())
        .stderr(Stdio::null())
        .spawn()
        .map_err(|why| format!("{}: {}", store.converter.display(), Words(&why)))?;
    let printed = output_of(&mut child);
    let _ = child.kill(); // it has ended, unless it takes too long or prints too much
    let status = child.wait().map_err(|why| Words(&why).to_string())?;
    let bytes = printed?;
    match Bundle::of(bytes).filter(|_| status.success()) {
        Some(bundle) => Ok(bundle),
        None => Err(format!(
            "{} refuses it (status {}): `ctfd-store check` says why",
            store.converter.display(),
            status.code().unwrap_or(-1)
        )
        .into()),
    }
}

fn with_room(bytes: usize) -> Result<Vec<u8>, OutOfMemory> {
    let mut room = Vec::new();
    room.try_reserve_exact(bytes)?;
    Ok(room)
}

/// The output of a command.
fn output_of(child: &mut Child) -> Result<Vec<u8>, Trouble> {
    let Some(mut output) = child.stdout.take() else { return Ok(Vec::new()) };
    let until = Instant::now() + PATIENCE;
    let mut bytes = Vec::new();
    loop {
        wait(&output, until)?;
        bytes.try_reserve(PIECE).map_err(OutOfMemory::from)?;
        let start = bytes.len();
        bytes.resize(start + PIECE, 0);
        let count = output.read(&mut bytes[start..]);
        bytes.truncate(start + *count.as_ref().unwrap_or(&0));
        match count {
            Ok(0) => return Ok(bytes),
            Err(why) if why.kind() != ErrorKind::Interrupted => {
                return Err(Words(&why).to_string().into())
            }
            _ if bytes.len() > LONGEST => return Err("it is too long".to_owned().into()),
            _ => {}
        }
    }
}

/// Waits until a command has printed more, or has ended.
fn wait(output: &ChildStdout, until: Instant) -> Result<(), Trouble> {
    let left = until.saturating_duration_since(Instant::now());
    let milliseconds = i32::try_from(left.as_millis()).unwrap_or(i32::MAX);
    match poll(&mut [PollFd::new(output, PollFlags::IN)], milliseconds) {
        Ok(0) => Err(format!("to read it took more than {} s", PATIENCE.as_secs()).into()),
        Err(why) if io::Error::from(why).kind() != ErrorKind::Interrupted => {
            Err(Words(&why.into()).to_string().into())
        }
        _ => Ok(()),
    }
}

#[cfg(test)]
mod tests {
    use super::*;

    fn lists(printed: &[u8]) -> Option<Vec<(&'static str, Vec<u8>)>> {
        let bundle = Bundle::of(printed.to_vec())?;
        Some(bundle.lists().map(|(name, list)| (name, list.to_vec())).collect())
    }

    #[test]
    fn lists_stand_behind_each_other() {
        let printed = br#"{"lists":[3,2],"dictionaries":[{"ctf":1,"symbols":null,"strings":0,"model":"ilp32"}]}
abcde"#;
        assert_eq!(lists(printed), Some(vec![("ctf", b"de".to_vec()), ("str", b"abc".to_vec())]));
        assert!(!Bundle::of(printed.to_vec()).unwrap().is_64);
    }

    #[test]
    fn what_is_no_bundle() {
        for printed in [
            &b""[..],
            b"{}\n",
            b"{\"lists\":[3],\"dictionaries\":[{\"ctf\":0}]}\nab",
            b"{\"lists\":[3],\"dictionaries\":[{\"ctf\":1}]}\nabc",
            b"{\"lists\":[3],\"dictionaries\":[{\"ctf\":-1}]}\nabc",
            b"{\"lists\":[99999999999999999999],\"dictionaries\":[{\"ctf\":0}]}\nabc",
            b"{\"lists\":[18446744073709551615],\"dictionaries\":[{\"ctf\":0}]}\nabc",
            b"{\"lists\":[],\"dictionaries\":[]}\n",
        ] {
            assert_eq!(lists(printed), None);
        }
    }
}
