//! Baselines: files with what an earlier build of a library exported, and its types.
//!
//! A baseline is the library without code and data. Its exports and its debug information,
//! compressed, answer all that can be asked of the library.

use super::options::Words;
use crate::output::{self, with_sections};
use crate::types::failure::{Failure, Outcome};
use crate::types::open::display_path;
use ctfd_read::baseline::{debug_sections, has_code, OF_EXPORTS};
use ctfd_read::image::Image;
use std::path::Path;

/// Refuses `--update` without `--baseline`, and a missing baseline without `--update`.
pub fn judge(words: &Words) -> Outcome<()> {
    if words.is_updated && !words.has_baseline {
        let said = "--update goes with --baseline, which names the file that is written";
        return Err(Failure::Refused(said.to_owned()));
    }
    if words.is_updated && words.old.exists() {
        judge_old(words)?;
    }
    if words.has_baseline && !words.is_updated && !words.old.exists() {
        return Err(Failure::Refused(format!(
            "{}: there is no baseline yet: --update writes it",
            display_path(&words.old)
        )));
    }
    Ok(())
}

/// Refuses to write over the new file itself, or over another program or library.
fn judge_old(words: &Words) -> Outcome<()> {
    let refused = |why: &str| Err(Failure::Refused(format!("{}: {why}", display_path(&words.old))));
    let real = |path: &Path| path.canonicalize().unwrap_or_else(|_| path.to_owned());
    if real(&words.old) == real(&words.new) {
        return refused("it is the file itself, which --update would write over");
    }
    let image = Image::open(&words.old)?;
    match image.is_elf() && has_code(&image)? {
        true => refused("it is a program or library, and no baseline: --update writes over none"),
        false => Ok(()),
    }
}

/// Writes the baseline of the new file.
pub fn write(words: &Words) -> Outcome<()> {
    let image = Image::open(&words.new)?;
    let Some(sections) = debug_sections(&image, &words.reading.folders)? else {
        return Ok(output::write(&words.old, image.all()?)?);
    };
    let sections: Vec<(&str, &[u8])> =
        sections.iter().map(|(name, bytes)| (*name, bytes.as_slice())).collect();
    let mut options = vec!["--discard-all".to_owned(), "--compress-debug-sections=zlib".to_owned()];
    options.extend(OF_EXPORTS.map(|name| format!("--only-section={name}")));
    let made = with_sections("--baseline", &words.new, &options, &sections, &words.old)?;
    Ok(output::write(&words.old, &made)?)
}
