//! `--watch`: evaluates expressions again and again, and prints what has changed.

use super::options::Watch;
use super::{Answers, Failure, Shower};
use ctfd_read::error::{refuse, Result};
use std::io::Write as _;

/// Prints the answers that differ from the last ones, as often as wanted. Returns whether the last
/// answers had no refusal; fails once the process has ended.
pub fn watch(shower: &mut Shower<'_, '_>, watch: &Watch) -> std::result::Result<bool, Failure> {
    let mut before: Vec<Option<Answers>> = Vec::new();
    let mut count = 0;
    loop {
        let found = shower.answers();
        shower.judge_process()?;
        let mut is_whole = true;
        for (number, answers) in found.into_iter().enumerate() {
            is_whole &= answers.is_ok();
            if before.len() <= number {
                before.push(None);
            }
            if before[number].as_ref() != Some(&answers) {
                shower.show_change(number, &answers)?;
                before[number] = Some(answers);
            }
        }
        shower.output.flush()?;
        count += 1;
        if watch.count == Some(count) {
            return Ok(is_whole);
        }
        std::thread::sleep(watch.pause);
    }
}

impl Shower<'_, '_> {
    /// Fails if the process has ended: its answers are worth nothing then.
    fn judge_process(&self) -> Result<()> {
        match self.printer.target.has_ended() {
            true => refuse(format!("{} has ended", self.printer.target.name())),
            false => Ok(()),
        }
    }
}
