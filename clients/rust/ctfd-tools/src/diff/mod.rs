//! `ctfd-diff`: the differences between two programs or libraries, and which of them break.

mod baseline;
mod candidates;
mod changes;
mod chosen;
mod complete;
mod differences;
mod exported;
mod guard;
mod headers;
mod members;
mod open;
mod options;
mod packages;
mod report;
mod side;
mod structure;
mod suppressions;
mod symbol_changes;
mod type_names;

use crate::interrupts;
use crate::standard;
use crate::types::failure::{Failure, Outcome};
use crate::types::output::{self, Output, TitledOutput};
use crate::types::warn_by;
use chosen::Chosen;
use ctfd_read::inputs::Options;
use open::{with_file, OpenFile};
use options::{Words, NAME};
use packages::{Side, UnpackedPackage};
use report::Tally;
use std::ffi::OsString;
use std::io::Write;
use std::path::Path;
use std::process::ExitCode;

const SAME: u8 = 0;
const COMPATIBLE: u8 = 1;
const TROUBLE: u8 = 2;
const BREAKING: u8 = 4;
/// Values of `Difference::what` for what was not compared.
const UNTOLD: &str = "untold";
const UNCOMPARED: [&str; 2] = [UNTOLD, "undefined"];

/// Runs the command, and returns its exit status.
pub fn main(words: Vec<OsString>) -> ExitCode {
    let mut words = Words::parse(words);
    interrupts::watch();
    if standard::is_output_closed() {
        warn_by(NAME, standard::CLOSED);
        return ExitCode::from(TROUBLE);
    }
    let mut output = Output::new();
    let status = run(&mut words, &mut output);
    let written = output.flush().map_err(Failure::from);
    match status.and_then(|status| written.map(|()| status)) {
        Ok(status) => ExitCode::from(status),
        Err(Failure::Unwritten(error)) => output::lost(NAME, TROUBLE, &error),
        Err(Failure::Unknown(said) | Failure::Refused(said)) => {
            warn_by(NAME, &said);
            ExitCode::from(TROUBLE)
        }
    }
}

/// Compares the two files or packages, and returns the exit status.
fn run(words: &mut Words, output: &mut Output) -> Outcome<u8> {
    let chosen = Chosen::new(words)?;
    words.reading.has_sources = chosen.has_sources();
    let mut tally = Tally::default();
    if packages::has_libraries(&words.old) || packages::has_libraries(&words.new) {
        compare_packages(words, &chosen, output, &mut tally)?;
    } else {
        baseline::judge(words)?;
        if !words.has_baseline || words.old.exists() {
            let read = |path| Read::of(path, &words.reading);
            compare(words, [read(&words.old), read(&words.new)], &chosen, output, &mut tally)?;
        }
        if words.is_updated {
            baseline::write(words)?;
        }
    }
    if words.has_verdict {
        output.flush()?;
        writeln!(output, "{}", if words.is_json { tally.json() } else { tally.text() })?;
    }
    Ok(tally.status)
}

/// A file, how it is read, and the package that it was unpacked from.
struct Read<'r> {
    path: &'r Path,
    reading: &'r Options,
    unpacked: Option<&'r UnpackedPackage>,
    /// Whether it is a library of a package or folder, of which only the exports are compared.
    is_library: bool,
}

impl<'r> Read<'r> {
    fn of(path: &'r Path, reading: &'r Options) -> Read<'r> {
        Read { path, reading, unpacked: None, is_library: false }
    }

    fn of_library(
        path: &'r Path,
        reading: &'r Options,
        unpacked: Option<&'r UnpackedPackage>,
    ) -> Read<'r> {
        Read { path, reading, unpacked, is_library: true }
    }
}

fn compare(
    words: &Words,
    [old, new]: [Read<'_>; 2],
    chosen: &Chosen,
    output: &mut dyn Write,
    tally: &mut Tally,
) -> Outcome<()> {
    with_file(&old, words.parent_of_old(), |old| {
        with_file(&new, words.parent_of_new(), |new| match are_one(words, old, new)? {
            true => Ok(()),
            false => report::tell(words, chosen, output, tally, (old, new)),
        })
    })
}

/// Compares the libraries of two packages or folders. A library that cannot be compared is
/// reported, and the others are compared.
fn compare_packages(
    words: &Words,
    chosen: &Chosen,
    output: &mut Output,
    tally: &mut Tally,
) -> Outcome<()> {
    let sides = packages::sides(words)?;
    let reading = |side: &Side| Options {
        folders: side.folders.iter().chain(&words.reading.folders).cloned().collect(),
        ..words.reading.clone()
    };
    let readings = sides.each_ref().map(reading);
    let [old, new] = &sides;
    for pair in packages::pairs(old, new) {
        let (Some(one), Some(other)) = pair else {
            tally.tell_library(words, pair, output)?;
            continue;
        };
        let files = [
            Read::of_library(&one.path, &readings[0], old.unpacked.as_ref()),
            Read::of_library(&other.path, &readings[1], new.unpacked.as_ref()),
        ];
        let mut titled = TitledOutput::new(output, Some(packages::title(words, one)));
        match compare(words, files, chosen, &mut titled, tally) {
            Err(Failure::Unknown(said) | Failure::Refused(said)) => {
                output.flush()?;
                tally.leave_out();
                let unpacked = sides.iter().filter_map(|side| side.unpacked.as_ref());
                let said = unpacked.fold(said, |said, unpacked| unpacked.with_package_name(&said));
                warn_by(NAME, &format!("{}: not compared: {said}", one.printable_name()));
            }
            done => done?,
        }
    }
    Ok(())
}

/// Whether both files have the same bytes and the same parent, so that nothing differs.
fn are_one(words: &Words, old: &OpenFile<'_, '_>, new: &OpenFile<'_, '_>) -> Outcome<bool> {
    let is_of_one = words.parent_of_old() == words.parent_of_new();
    Ok(is_of_one && old.image.all()? == new.image.all()?)
}
