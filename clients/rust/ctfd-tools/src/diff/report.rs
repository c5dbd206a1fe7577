//! The report on two files, and the verdict.

use super::changes::Sides;
use super::chosen::{Choice, Chosen};
use super::complete::incomparable;
use super::differences::{Change, Difference, Fate};
use super::guard;
use super::open::OpenFile;
use super::options::{Words, NAME};
use super::packages;
use super::side::Side;
use super::suppressions::{SymbolChange, SymbolNamed};
use super::symbol_changes::{self, Symbols};
use super::{BREAKING, COMPATIBLE, SAME, TROUBLE, UNCOMPARED, UNTOLD};
use crate::types::catalog::Number;
use crate::types::failure::{Failure, Outcome};
use crate::types::json::Object;
use crate::types::listing::{definition, Manner};
use crate::types::text::printable;
use crate::types::warn_by;
use ctfd_read::exports::Exports;
use ctfd_read::opening::Origin;
use std::io::Write;

const NO_SOURCES: &str =
    "it does not record in which source files its types are defined, which the choice by headers \
     needs: name a file with debug information";

/// Counts of reported changes, and the resulting exit status.
#[derive(Clone, Copy, Debug, Default)]
pub struct Tally {
    breaking: usize,
    compatible: usize,
    /// How many lines reported that something was not compared.
    uncompared: usize,
    /// The exit status.
    pub status: u8,
}

impl Tally {
    fn add(&mut self, change: &Change) {
        match change.breaks() {
            true => self.breaking += 1,
            false => self.compatible += 1,
        }
        let is_untold = change.said.iter().any(|one| one.what == UNTOLD);
        self.uncompared += usize::from(is_untold);
        let status = if change.breaks() { BREAKING } else { COMPATIBLE };
        self.status = self.status.max(status).max(if is_untold { TROUBLE } else { SAME });
    }

    /// Counts something that could not be compared.
    pub fn leave_out(&mut self) {
        self.uncompared += 1;
        self.status = self.status.max(TROUBLE);
    }

    /// Reports a library that only one side has.
    pub fn tell_library(
        &mut self,
        words: &Words,
        (old, new): packages::Pair<'_>,
        output: &mut dyn Write,
    ) -> Outcome<()> {
        let Some(library) = old.or(new) else { return Ok(()) };
        let name = library.name.as_bytes();
        let label = format!("library {}", printable(name));
        let change = match old {
            Some(_) => {
                let said = Difference::breaking("removed", "removed").of(name);
                Change::new(label, "library", Fate::Removed, vec![said])
            }
            None => {
                let said = Difference::harmless("added", "added").of(name);
                Change::new(label, "library", Fate::Added, vec![said])
            }
        };
        let is_left_out = words.is_breaking && !change.breaks() || !words.names.is_empty();
        if !is_left_out {
            self.add(&change);
            match (words.is_json, words.has_verdict) {
                (true, _) => writeln!(output, "{}", change.json(None))?,
                (false, true) => writeln!(output, "{}", change.with_verdict())?,
                (false, false) => writeln!(output, "{}", change.lines())?,
            }
        }
        Ok(())
    }

    /// The verdict as a line of text.
    pub fn text(&self) -> String {
        let sum = match (self.breaking, self.compatible) {
            (0, 0) => "nothing differs".to_owned(),
            (0, count) => {
                format!("{count} compatible: programs built for the old run with the new")
            }
            (count, 0) => format!("{count} break: programs built for the old break with the new"),
            (breaking, compatible) => format!(
                "{breaking} break, {compatible} compatible: programs built for the old break with \
                 the new"
            ),
        };
        let rest = match self.uncompared {
            0 => String::new(),
            count => format!(", as far as was compared: {count} could not be"),
        };
        format!("verdict: {sum}{rest}")
    }

    /// The verdict as a JSON object.
    pub fn json(&self) -> String {
        let word = match self.status {
            SAME => "same",
            COMPATIBLE => "compatible",
            BREAKING => "breaking",
            _ => "unknown",
        };
        Object::default()
            .text("verdict", word.as_bytes())
            .field("breaking", self.breaking)
            .field("compatible", self.compatible)
            .field("uncompared", self.uncompared)
            .end()
    }
}

/// Reports the differences between two files.
pub fn tell(
    words: &Words,
    chosen: &Chosen,
    output: &mut dyn Write,
    tally: &mut Tally,
    (old, new): (&OpenFile<'_, '_>, &OpenFile<'_, '_>),
) -> Outcome<()> {
    let exports = match words.is_all {
        true => (None, None),
        false => (old.exports()?, new.exports()?),
    };
    let soname = |one: &Option<Exports<'_>>| one.as_ref().map_or(Vec::new(), |e| e.soname.to_vec());
    let sonames = (soname(&exports.0), soname(&exports.1));
    let lacks_old = chosen.needs_old() && old.sources.is_unknown();
    let lacks_new = chosen.needs_new() && new.sources.is_unknown();
    if lacks_old || lacks_new {
        let path = if lacks_old { old.path() } else { new.path() };
        return Err(Failure::Refused(format!("{path}: {NO_SOURCES}")));
    }
    let paths = [old.image.path(), new.image.path()];
    let sources = [old.sources, new.sources];
    let choice = Choice::new(chosen, paths, [&sonames.0, &sonames.1], sources);
    if choice.leaves_out_all() {
        return Ok(());
    }
    let report = Report { words, choice: &choice, output, tally, left: Vec::new() };
    report.on(old, new, exports)
}

/// A report on two files.
struct Report<'r> {
    words: &'r Words,
    choice: &'r Choice<'r>,
    output: &'r mut dyn Write,
    tally: &'r mut Tally,
    /// Lines on what was not compared.
    left: Vec<String>,
}

impl Report<'_> {
    fn on(
        mut self,
        old: &OpenFile<'_, '_>,
        new: &OpenFile<'_, '_>,
        exports: (Option<Exports<'_>>, Option<Exports<'_>>),
    ) -> Outcome<()> {
        if old.catalog().is_ilp32() != new.catalog().is_ilp32() {
            self.left.push("the pointers of the two differ in size".to_owned());
        }
        for (path, origin) in [(old.path(), old.handed.origin), (new.path(), new.handed.origin)] {
            let has_warning = !origin.warning().is_empty() && origin != Origin::Guessed;
            self.left.extend(has_warning.then(|| format!("{path}: {}", origin.warning())));
        }
        let (beyond_old, beyond_new) = (old.beyond(), new.beyond());
        let (old_path, new_path) = (old.path(), new.path());
        let lost = ((&*old_path, &*beyond_old.losses), (&*new_path, &*beyond_new.losses));
        self.left.extend(incomparable(lost.0, lost.1));
        let before = Side::new(old.names, &beyond_old, old.handed.ctf.len());
        let after = Side::new(new.names, &beyond_new, new.handed.ctf.len());
        let sides = Sides { before: &before, after: &after };
        match exports {
            (Some(were), Some(are)) => {
                let (found, cut) = guard::changes(sides, &were, &are, self.choice);
                self.left.extend(cut.map(str::to_owned));
                found.into_iter().try_for_each(|change| self.tell(&sides, change))?;
            }
            (None, None) => self.all(&sides, old, new)?,
            (were, _) => {
                let path = if were.is_some() { &new_path } else { &old_path };
                let line = "it exports no function with known types: all types are compared";
                warn_by(NAME, &format!("{path}: {line}"));
                self.all(&sides, old, new)?;
            }
        }
        for (path, cuts) in [(old_path, before.cut()), (new_path, after.cut())] {
            self.left.extend(cuts.iter().map(|cut| format!("{path}: {cut}")));
        }
        self.end()
    }

    /// Prints what was not compared.
    fn end(self) -> Outcome<()> {
        for line in &self.left {
            self.output.flush()?;
            warn_by(NAME, line);
        }
        if !self.left.is_empty() {
            self.tally.uncompared += self.left.len();
            self.tally.status = self.tally.status.max(TROUBLE);
        }
        Ok(())
    }

    /// Compares all types, then all symbols.
    fn all(
        &mut self,
        sides: &Sides<'_, '_, '_>,
        old: &OpenFile<'_, '_>,
        new: &OpenFile<'_, '_>,
    ) -> Outcome<()> {
        for mut change in sides.changes() {
            let pair = change.pair.unwrap_or_default();
            if !self.choice.leaves_out_pair(sides, &change.label, pair) {
                self.choice.prune(sides, pair, &mut change.said);
                self.tell(sides, change)?;
            }
        }
        let were = Symbols::of(old.catalog(), old.handed);
        let are = Symbols::of(new.catalog(), new.handed);
        if were.is_empty() != are.is_empty() {
            let path = if were.is_empty() { old.path() } else { new.path() };
            self.left.push(format!(
                "{path}: it has no types of functions and objects, so they are not compared"
            ));
        }
        for change in symbol_changes::changes(&were, &are) {
            if !self.choice.leaves_out_named(&symbol_of(&change)) {
                self.tell(sides, change)?;
            }
        }
        Ok(())
    }

    /// Reports a change, if it is selected.
    fn tell(&mut self, sides: &Sides<'_, '_, '_>, mut change: Change) -> Outcome<()> {
        if !self.choice.has(change.label.as_bytes()) {
            return Ok(());
        }
        if self.words.is_breaking {
            let is_left = |one: &&Difference| UNCOMPARED.contains(&one.what) && !one.breaks;
            let left = change.said.iter().filter(is_left);
            self.left.extend(left.map(|one| format!("{}: {}", change.label, one.text)));
            change = change.breaking();
        }
        if change.said.is_empty() {
            return Ok(());
        }
        self.tally.add(&change);
        let full = change.pair.filter(|_| self.words.is_in_full).map(|pair| both(sides, pair));
        match (self.words.is_json, self.words.has_verdict) {
            (true, _) => writeln!(self.output, "{}", change.json(full.as_ref()))?,
            (false, true) => writeln!(self.output, "{}", change.with_verdict())?,
            (false, false) => writeln!(self.output, "{}", change.lines())?,
        }
        if let (Some([was, is]), false) = (full, self.words.is_json) {
            write!(self.output, "{}{}", with_sign('-', &was), with_sign('+', &is))?;
        }
        Ok(())
    }
}

/// The symbol of a change; its version is not known.
fn symbol_of(change: &Change) -> SymbolNamed<'_> {
    let name = change.said.first().map_or(&[][..], |one| one.name.as_slice());
    let change_kind = match change.fate {
        Fate::Added => SymbolChange::Added,
        Fate::Removed => SymbolChange::Deleted,
        Fate::Changed => SymbolChange::OfType,
    };
    let is_function = change.kind == "function";
    SymbolNamed { name, version: &[], is_function, change: change_kind }
}

/// Both types of a pair in full; empty for a missing one.
fn both(sides: &Sides<'_, '_, '_>, (old, new): (Number, Number)) -> [String; 2] {
    let manner = Manner { has_places: true, ..Manner::PLAIN };
    let written = |side: &Side<'_, '_>, number: Number| match number {
        0 => String::new(),
        _ => definition(side.catalog, number, manner),
    };
    [written(sides.before, old), written(sides.after, new)]
}

/// The lines of a text, indented and with a sign before each.
fn with_sign(sign: char, text: &str) -> String {
    text.lines().map(|line| format!("    {sign} {line}").trim_end().to_owned() + "\n").collect()
}
