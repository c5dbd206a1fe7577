//! `ctfd-store missing`: the builds that clients asked a server for and did not get, from its log.

use super::build_id::BuildId;
use super::builds::Store;
use super::index::BUILD_IDS;
use crate::types::failure::{Failure, Outcome};
use crate::types::output::Output;
use ctfd_read::error::reason;
use std::collections::HashMap;
use std::io::{self, BufRead, Read as _, Write as _};
use std::path::Path;

/// How much of a line is read, and how many builds are counted, since anybody may ask for anything.
const LONGEST_LINE: u64 = 1 << 16;
const MOST: usize = 1 << 20;
/// The HTTP status for a file that does not exist.
const ABSENT: &[u8] = b"404";

/// Prints the builds that a log reports as missing and the store does not have, beginning with
/// those that were asked for most often.
pub fn run(path: &Path) -> Outcome<u8> {
    let store = Store::open(path)?;
    let counts = counts(io::stdin().lock())
        .map_err(|error| Failure::Refused(format!("standard input: {}", reason(&error))))?;
    let is_missing = |one: &(BuildId, u64)| store.build(&one.0).map(|found| found.is_none());
    let mut listed = Vec::new();
    for one in counts {
        if is_missing(&one)? {
            listed.push(one);
        }
    }
    listed.sort_unstable_by(|(one, first), (other, second)| (second, one).cmp(&(first, other)));
    let mut lines = Output::new();
    for (id, count) in listed {
        writeln!(lines, "{count:>7} {id}")?;
    }
    lines.flush()?;
    Ok(0)
}

/// How often a log reports each build as missing.
fn counts(mut log: impl BufRead) -> io::Result<HashMap<BuildId, u64>> {
    let mut made = HashMap::new();
    let mut line = Vec::new();
    loop {
        line.clear();
        if log.by_ref().take(LONGEST_LINE).read_until(b'\n', &mut line)? == 0 {
            return Ok(made);
        }
        if let Some(id) = absent(&line) {
            if made.len() < MOST || made.contains_key(&id) {
                *made.entry(id).or_default() += 1;
            }
        }
    }
}

/// The build that a line of a log reports as missing, if there is one.
fn absent(line: &[u8]) -> Option<BuildId> {
    let mut words = line.split(|byte| byte.is_ascii_whitespace() || *byte == b'"');
    let id = words.by_ref().find_map(|word| {
        let path = std::str::from_utf8(word).ok()?;
        let (_, rest) = path.split_once(BUILD_IDS)?;
        let (digits, _) = rest.strip_prefix('/')?.split_once('/')?;
        BuildId::of_digits(digits)
    })?;
    // The version of HTTP may be between a path and its status.
    words.filter(|word| !word.is_empty()).take(2).any(|word| word == ABSENT).then_some(id)
}

#[cfg(test)]
mod tests {
    use super::*;

    #[test]
    fn logs_of_several_servers_are_read() {
        let log =
            "1.2.3.4 - - [29/Nov/2026] \"GET /buildid/abcd/debuginfo HTTP/1.1\" 404 153 \"-\"\n\
            1.2.3.4 - - [29/Nov/2026] \"GET /buildid/abcd/section/.SUNW_ctf HTTP/1.1\" 404 -\n\
            1.2.3.4 - - [29/Nov/2026] \"GET /types/buildid/aaaa/debuginfo HTTP/1.1\" 404 -\n\
            1.2.3.4 - - [29/Nov/2026] \"GET /buildid/bbbb/debuginfo HTTP/1.1\" 200 404\n\
            (1/2): 127.0.0.1:3 UA:x XFF: GET /buildid/cccc/debuginfo 404 9 0+1ms\n\
            x \"GET /buildid/../debuginfo HTTP/1.1\" 404 1\n\
            x \"GET /buildid/ABCD/debuginfo HTTP/1.1\" 404 1\n";
        let log: Vec<u8> = log.bytes().chain([0xff, 0xff]).collect();
        let mut found: Vec<(String, u64)> = counts(&log[..])
            .unwrap()
            .into_iter()
            .map(|(id, count)| (id.digits().to_owned(), count))
            .collect();
        found.sort();
        let wanted = [("aaaa", 1), ("abcd", 2), ("cccc", 1)];
        assert_eq!(found, wanted.map(|(id, count)| (id.to_owned(), count)));
    }
}
