//! Records in a file: consecutive values of a type.

use super::failure::{Failure, Outcome};
use super::file_types::FileTypes;
use super::members::{number, offset};
use super::text::printable;
use ctfd_read::error::reason;
use std::fs::File;
use std::io::{Read, Seek, SeekFrom, Write};
use std::path::Path;

/// About how many bytes of the file are read at a time.
const PIECE: usize = 1 << 22;

/// The wanted records: `TYPE FILE [OFFSET] [COUNT]`.
pub struct RecordRequest<'w> {
    /// The name of the type.
    pub name: &'w [u8],
    pub file: &'w Path,
    /// The offset of the first record.
    pub offset: Option<&'w str>,
    /// The number of records.
    pub count: Option<&'w str>,
}

/// Prints the records, one line each.
pub fn records(
    whole: &FileTypes<'_, '_>,
    wanted: &RecordRequest<'_>,
    is_hexadecimal: bool,
    output: &mut dyn Write,
) -> Outcome<()> {
    let start = wanted.offset.map(offset).transpose()?.unwrap_or(0) / 8;
    let start = u64::try_from(start).unwrap_or(u64::MAX);
    let (of, size) = type_wanted(whole, wanted.name)?;
    let count = wanted.count.map(count_of).transpose()?;
    let mut file = Pieces::open(wanted.file, start)?;
    if let Some(count) = count {
        file.judge(start, count, size)?;
    }
    let most = count.map_or(u64::MAX, |count| count.saturating_mul(size as u64));
    let at_once = (PIECE / size).max(1).saturating_mul(size);
    let mut read = 0;
    while read < most {
        let length = at_once.min(usize::try_from(most - read).unwrap_or(usize::MAX));
        let piece = file.next(length)?;
        for (place, value) in piece.chunks_exact(size).enumerate() {
            let at = start + read + (place * size) as u64;
            let place = if is_hexadecimal { format!("{at:#x}") } else { at.to_string() };
            match of.show(value, 0) {
                Ok(text) => writeln!(output, "{place:>8}  {text}")?,
                Err(refusal) => writeln!(output, "{place:>8}  ({})", refusal.fault)?,
            }
        }
        read += piece.len() as u64;
        if piece.len() % size != 0 {
            let (path, rest) = (wanted.file.display(), piece.len() % size);
            whole.cut(format!("{path}: {rest} bytes behind the last record of {size}"));
        }
        if piece.len() < length {
            break;
        }
    }
    Ok(())
}

/// The type with a name, and its size in bytes.
fn type_wanted<'d>(whole: &FileTypes<'_, 'd>, name: &[u8]) -> Outcome<(ctfd::Type<'d>, usize)> {
    let catalog = whole.names.catalog;
    let number = whole.names.types_of_name(name)?.into_iter().next().unwrap_or(0);
    let size = catalog.size(number).and_then(|size| usize::try_from(size).ok());
    match (catalog.get(number), size) {
        (Some(of), Some(size @ 1..)) => Ok((of, size)),
        _ => {
            let shown = printable(name);
            Err(Failure::Refused(format!("{shown} has no size: no records are of it")))
        }
    }
}

fn count_of(written: &str) -> Outcome<u64> {
    if written.starts_with('-') && number(&written[1..]).is_some() {
        return Ok(0);
    }
    number(written).ok_or_else(|| {
        let shown = printable(written.as_bytes());
        Failure::Refused(format!("{shown} is no number of records"))
    })
}

/// A file that is read in pieces.
struct Pieces<'p> {
    path: &'p Path,
    file: File,
}

impl<'p> Pieces<'p> {
    fn open(path: &'p Path, start: u64) -> Outcome<Pieces<'p>> {
        let mut made = Pieces { path, file: File::open(path).map_err(|e| read_failure(path, &e))? };
        made.file.seek(SeekFrom::Start(start)).map_err(|error| read_failure(path, &error))?;
        Ok(made)
    }

    /// Refuses a file with fewer records than were asked for.
    fn judge(&self, start: u64, count: u64, size: usize) -> Outcome<()> {
        let about = self.file.metadata().map_err(|error| read_failure(self.path, &error))?;
        let length = about.len().saturating_sub(start);
        if !about.is_file() || u128::from(length) >= u128::from(count) * size as u128 {
            return Ok(());
        }
        Err(Failure::Refused(format!(
            "{}: {length} bytes are there from {start} on, and {count} records of {size} are asked \
             for",
            self.path.display()
        )))
    }

    /// The next bytes; fewer than `length` only at the end of the file.
    fn next(&mut self, length: usize) -> Outcome<Vec<u8>> {
        let mut piece = Vec::new();
        let read = (&mut self.file).take(length as u64).read_to_end(&mut piece);
        read.map_err(|error| read_failure(self.path, &error))?;
        Ok(piece)
    }
}

fn read_failure(path: &Path, error: &std::io::Error) -> Failure {
    Failure::Refused(format!("{}: {}", path.display(), reason(error)))
}
