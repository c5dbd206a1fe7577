//! The index of a store: a line with the SHA-256 sum of each file, in the order of their paths, as
//! `sha256sum` writes and checks them.

use super::build_id::BuildId;
use ctfd_read::error::{refuse, Result};
use sha2::{Digest as _, Sha256};
use std::cmp::Ordering;
use std::collections::BTreeMap;
use std::fmt::Write as _;
use std::fs::File;
use std::os::unix::fs::FileExt as _;

/// The folder of all builds.
pub const BUILD_IDS: &str = "buildid";
const DIGITS: usize = 64;
/// The size limit of a line in bytes.
const LONGEST_LINE: usize = 512;
const BETWEEN: &str = "  ";

/// A SHA-256 sum in hexadecimal.
pub type Sum = String;

/// The sum of some bytes.
pub fn sum_of(bytes: &[u8]) -> Sum {
    Sha256::digest(bytes).iter().fold(String::with_capacity(DIGITS), |mut made, byte| {
        let _ = write!(made, "{byte:02x}");
        made
    })
}

/// The sums of a build's files, by their names in its folder.
pub type Sums = BTreeMap<String, Sum>;

/// Parses a line: the sum of a file, the build-id, and the name in the build's folder.
fn parse_line(line: &str) -> Option<(Sum, BuildId, &str)> {
    let (sum, path) = line.split_once(BETWEEN)?;
    let is_sum = sum.len() == DIGITS && sum.bytes().all(|byte| byte.is_ascii_hexdigit());
    let rest = path.strip_prefix(BUILD_IDS)?.strip_prefix('/')?;
    let (digits, name) = rest.split_once('/')?;
    Some((sum.to_owned(), BuildId::of_digits(digits).filter(|_| is_sum)?, name))
}

/// Appends the lines for the files of a build.
fn write(made: &mut String, id: &BuildId, sums: &Sums) {
    for (name, sum) in sums {
        let _ = writeln!(made, "{sum}{BETWEEN}{BUILD_IDS}/{id}/{name}");
    }
}

/// The index with new lines for some builds in place of their old ones; a build without sums gets
/// none.
pub fn with_changes(index: &str, changes: &BTreeMap<BuildId, Sums>) -> Result<String> {
    judge_end(index)?;
    let mut made = String::with_capacity(index.len());
    let mut left = changes.iter().peekable();
    for line in index.lines() {
        let Some((_, id, _)) = parse_line(line) else { return refuse(damage(line)) };
        while let Some((earlier, sums)) = left.next_if(|(other, _)| **other < id) {
            write(&mut made, earlier, sums);
        }
        if !changes.contains_key(&id) {
            made += line;
            made.push('\n');
        }
    }
    left.for_each(|(id, sums)| write(&mut made, id, sums));
    Ok(made)
}

fn judge_end(index: &str) -> Result<()> {
    match index.is_empty() || index.ends_with('\n') {
        true => Ok(()),
        false => refuse("its last line is cut off"),
    }
}

/// All sums of an index.
pub fn sums(index: &str) -> Result<BTreeMap<BuildId, Sums>> {
    judge_end(index)?;
    let mut made: BTreeMap<BuildId, Sums> = BTreeMap::new();
    for line in index.lines() {
        let Some((sum, id, name)) = parse_line(line) else { return refuse(damage(line)) };
        made.entry(id).or_default().insert(name.to_owned(), sum);
    }
    Ok(made)
}

/// The sum of a build's file; None if the index does not have it. Reads only a few lines, by binary
/// search, since an index may be long.
pub fn sum_in(index: &File, id: &BuildId, name: &str) -> Result<Option<Sum>> {
    let wanted = format!("{BUILD_IDS}/{id}/{name}");
    let (mut low, mut high) = (0, index.metadata()?.len());
    while low < high {
        let middle = low + (high - low) / 2;
        let Some((begins, line)) = line_from(index, middle, high)? else {
            high = middle;
            continue;
        };
        let Some((sum, path)) = line.split_once(BETWEEN) else { return refuse(damage(&line)) };
        match path.cmp(&wanted) {
            Ordering::Equal => return Ok(Some(sum.to_owned())),
            Ordering::Less => low = begins + line.len() as u64 + 1,
            Ordering::Greater => high = middle,
        }
    }
    Ok(None)
}

/// The first line that begins at or after `offset` and before `end`, and where it begins; None if
/// there is none.
fn line_from(index: &File, offset: u64, end: u64) -> Result<Option<(u64, String)>> {
    let mut bytes = [0; 2 * LONGEST_LINE];
    let from = offset.saturating_sub(1);
    let length = index.read_at(&mut bytes, from)?;
    let bytes = &bytes[..length];
    let newline = |from: usize| {
        let rest = bytes.get(from..)?;
        rest.iter().position(|&byte| byte == b'\n').map(|place| from + place)
    };
    let begins = if offset == 0 { Some(0) } else { newline(0).map(|place| place + 1) };
    let Some(begins) = begins.filter(|&begins| from + (begins as u64) < end) else {
        return Ok(None);
    };
    let Some(ends) = newline(begins) else { return refuse("a line without an end") };
    let line = String::from_utf8_lossy(&bytes[begins..ends]).into_owned();
    Ok(Some((from + begins as u64, line)))
}

fn damage(line: &str) -> String {
    let begins: String = line.chars().take(DIGITS).collect();
    format!("a line that add did not write: {begins}")
}

#[cfg(test)]
mod tests {
    use super::*;

    fn id(digits: &str) -> BuildId {
        BuildId::of_digits(digits).unwrap()
    }

    #[test]
    fn a_sum_is_that_of_sha256() {
        let wanted = "ba7816bf8f01cfea414140de5dae2223b00361a396177a9cb410ff61f20015ad";
        assert_eq!(sum_of(b"abc"), wanted);
    }

    #[test]
    fn lines_stand_in_order_and_take_each_others_place() {
        let of = |names: &[&str], sum: &str| -> Sums {
            names.iter().map(|name| ((*name).to_owned(), sum.repeat(DIGITS))).collect()
        };
        let first = BTreeMap::from([
            (id("bbbb"), of(&["debuginfo", "section/.symtab"], "1")),
            (id("dddd"), of(&["debuginfo"], "2")),
        ]);
        let index = with_changes("", &first).unwrap();
        assert_eq!(sums(&index).unwrap(), first);
        let second = BTreeMap::from([
            (id("aaaa"), of(&["debuginfo"], "3")),
            (id("bbbb"), of(&["debuginfo"], "4")),
            (id("cccc"), of(&["about"], "5")),
            (id("dddd"), Sums::new()),
            (id("eeee"), of(&["debuginfo"], "6")),
        ]);
        let index = with_changes(&index, &second).unwrap();
        let ids: Vec<&str> = index.lines().map(|line| &line[74..78]).collect();
        assert_eq!(ids, ["aaaa", "bbbb", "cccc", "eeee"]);
        assert!(index.lines().all(|line| !line.starts_with('1')));
    }

    #[test]
    fn each_sum_is_found_in_a_file() {
        let sums = |n: u32| -> Sums {
            let names = ["about", "debuginfo", "section/.SUNW_ctf"];
            names.into_iter().map(|name| (name.to_owned(), sum_of(&n.to_le_bytes()))).collect()
        };
        for count in [0, 1, 2, 3, 50] {
            let listed: BTreeMap<BuildId, Sums> = (0..count)
                .map(|n| (id(&"abcd".repeat(1 + n as usize % 32)), sums(n)))
                .chain((0..count).map(|n| (id(&format!("{:04x}", 2 * n + 1)), sums(n))))
                .collect();
            let path = std::env::temp_dir().join(format!("index-{}-{count}", std::process::id()));
            std::fs::write(&path, with_changes("", &listed).unwrap()).unwrap();
            let file = File::open(&path).unwrap();
            std::fs::remove_file(&path).unwrap();
            for (id, sums) in &listed {
                for (name, sum) in sums {
                    assert_eq!(sum_in(&file, id, name).unwrap().as_ref(), Some(sum));
                }
                assert_eq!(sum_in(&file, id, "executable").unwrap(), None);
                assert_eq!(sum_in(&file, id, "").unwrap(), None);
            }
            assert_eq!(sum_in(&file, &id("0000"), "about").unwrap(), None);
            assert_eq!(sum_in(&file, &id("ffff"), "about").unwrap(), None);
        }
    }

    #[test]
    fn damage_is_told() {
        let sum = "1".repeat(DIGITS);
        for line in ["", "x", &format!("{sum}  buildid/abc/x"), &format!("{sum}  ../abcd/x")] {
            assert!(sums(&format!("{line}\n")).is_err(), "{line}");
        }
    }
}
