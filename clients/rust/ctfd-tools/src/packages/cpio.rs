//! The archives that `rpm2cpio` prints: for each file a header in ASCII, with its name, and its
//! bytes, each padded to four bytes.

use super::LONGEST_NAME;
use std::ffi::OsStr;
use std::io::{self, ErrorKind, Read};
use std::os::unix::ffi::OsStrExt as _;
use std::path::Path;

/// The first bytes of a header; in the second format it has a checksum too.
const MAGICS: [&[u8]; 2] = [b"070701", b"070702"];
const MAGIC: usize = 6;
/// The number of hexadecimal digits of a number in a header.
const DIGITS: usize = 8;
const HEADER: usize = MAGIC + 13 * DIGITS;
const ALIGN: u64 = 4;
/// The name after the last file.
const END: &[u8] = b"TRAILER!!!";
/// The bits of a mode for the kind of a file, and their value for a regular file.
const KIND: u32 = 0o170_000;
const REGULAR: u32 = 0o100_000;

/// A function that takes the name and bytes of a file.
pub type Taker<'t> = &'t mut dyn FnMut(&Path, &mut dyn Read) -> io::Result<()>;

/// Calls `take` for each regular file that is not empty, and reads the archive to its end. If a
/// file has several names, its bytes follow the last.
pub fn each_file(mut bytes: impl Read, take: Taker<'_>) -> io::Result<()> {
    loop {
        let mut header = [0; HEADER];
        bytes.read_exact(&mut header)?;
        if !MAGICS.iter().any(|magic| header.starts_with(magic)) {
            return Err(damage());
        }
        let (mode, size) = (number(&header, 1)?, u64::from(number(&header, 6)?));
        let length = number(&header, 11)? as usize;
        if length > LONGEST_NAME {
            return Err(damage());
        }
        let mut name = vec![0; length];
        bytes.read_exact(&mut name)?;
        skip(&mut bytes, padding((HEADER + length) as u64))?;
        let name = name.strip_suffix(b"\0").unwrap_or(&name);
        if name == END {
            io::copy(&mut bytes, &mut io::sink())?;
            return Ok(());
        }
        let mut content = (&mut bytes).take(size);
        if mode & KIND == REGULAR && size != 0 {
            take(Path::new(OsStr::from_bytes(name)), &mut content)?;
        }
        let left = content.limit();
        skip(&mut bytes, left + padding(size))?;
    }
}

/// The number at an index in a header.
fn number(header: &[u8; HEADER], place: usize) -> io::Result<u32> {
    let begins = MAGIC + place * DIGITS;
    let digits = std::str::from_utf8(&header[begins..begins + DIGITS]).ok();
    digits.and_then(|digits| u32::from_str_radix(digits, 16).ok()).ok_or_else(damage)
}

/// The number of padding bytes after `length` bytes.
fn padding(length: u64) -> u64 {
    length.next_multiple_of(ALIGN) - length
}

fn skip(bytes: &mut impl Read, count: u64) -> io::Result<()> {
    match io::copy(&mut bytes.take(count), &mut io::sink())? {
        passed if passed == count => Ok(()),
        _ => Err(ErrorKind::UnexpectedEof.into()),
    }
}

fn damage() -> io::Error {
    io::Error::new(ErrorKind::InvalidData, "a damaged archive of cpio")
}

#[cfg(test)]
mod tests {
    use super::each_file;
    use std::io::Read as _;

    fn entry(mode: u32, name: &str, bytes: &[u8]) -> Vec<u8> {
        let mut made = b"070701".to_vec();
        let fields = [0, mode as usize, 0, 0, 1, 0, bytes.len(), 0, 0, 0, 0, name.len() + 1, 0]
            .map(|field: usize| format!("{field:08x}"));
        made.extend(fields.concat().bytes());
        made.extend(name.bytes().chain([0]));
        made.resize(made.len().next_multiple_of(4), 0);
        made.extend(bytes);
        made.resize(made.len().next_multiple_of(4), 0);
        made
    }

    fn files_of(archive: &[u8]) -> std::io::Result<Vec<(String, Vec<u8>)>> {
        let mut found = Vec::new();
        each_file(archive, &mut |name, bytes| {
            let mut held = Vec::new();
            bytes.take(3).read_to_end(&mut held)?;
            found.push((name.display().to_string(), held));
            Ok(())
        })?;
        Ok(found)
    }

    #[test]
    fn regular_files_are_handed_over() {
        let parts = [
            entry(0o040_755, "./usr", b""),
            entry(0o100_644, "./usr/a", b"12345"),
            entry(0o120_777, "./link", b"/etc"),
            entry(0o100_644, "b", b"1"),
            entry(0, "TRAILER!!!", b""),
        ];
        let wanted = [("./usr/a".to_owned(), b"123".to_vec()), ("b".to_owned(), b"1".to_vec())];
        assert_eq!(files_of(&parts.concat()).unwrap(), wanted);
    }

    #[test]
    fn damage_is_refused() {
        let whole = [entry(0o100_644, "a", b"12345"), entry(0, "TRAILER!!!", b"")].concat();
        for end in [1, 100, 113, 120, 124, 200] {
            assert!(files_of(&whole[..end]).is_err(), "{end}");
        }
        let mut other = whole.clone();
        other[0] = b'x';
        assert!(files_of(&other).is_err());
        let mut long = whole;
        long[6 + 11 * 8..][..8].copy_from_slice(b"ffffffff");
        assert!(files_of(&long).is_err());
    }
}
