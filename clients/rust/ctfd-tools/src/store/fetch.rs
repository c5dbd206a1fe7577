//! `ctfd-store fetch`: asks stores for the types of a build, as the other commands do, and writes
//! them to a file. Calls of libctf run it.

use super::build_id::BuildId;
use super::options::{Fetching, NAME};
use crate::elsewhere;
use crate::output;
use crate::types::failure::{Failure, Outcome};
use crate::types::open::display_path;
use crate::types::warn_by;
use ctfd_read::debuggee::Debuggee;
use ctfd_read::image::Image;
use std::path::Path;

/// The exit status if no store has the build.
const ABSENT: u8 = 1;

/// Writes the types of a build. If no store has it, says so and writes nothing. Returns the exit
/// status.
pub fn run(words: &Fetching) -> Outcome<u8> {
    let stores = elsewhere::of(words.stores.as_deref());
    if !stores.is_there() {
        return Err(Failure::Refused("name a store by CTFD_STORE or --store".to_owned()));
    }
    output::judge_input(&words.build, &[&words.output])?;
    output::judge(&words.output)?;
    let id = id_of(&words.build)?;
    match stores.find(&id.bytes())? {
        Some(found) => {
            output::write(&words.output, found.all()?).map(|()| 0).map_err(Failure::from)
        }
        None => {
            warn_by(NAME, &format!("{id}: no store has this build"));
            Ok(ABSENT)
        }
    }
}

/// The build-id that the digits are, even if a file has this name; else the build-id of a program.
fn id_of(word: &Path) -> Outcome<BuildId> {
    let digits = word.to_str().map(str::to_ascii_lowercase).unwrap_or_default();
    if let Some(id) = BuildId::of_digits(&digits) {
        return Ok(id);
    }
    let program = Image::open(word)?;
    if !program.is_elf() {
        let why = format!("{}: neither a build-id nor an ELF file", display_path(word));
        return Err(Failure::Refused(why));
    }
    let id = BuildId::of_bytes(Debuggee::of(&program)?.build_id());
    Ok(id.map_err(|error| error.of(display_path(word)))?)
}
