//! The selection of the types and symbols to report: those with wanted names, unless they are left
//! out.

use super::changes::Sides;
use super::differences::Difference;
use super::headers::Headers;
use super::options::Words;
use super::structure::Pair;
use super::suppressions::{has_sections, FileNames, Suppressions, SymbolChange, SymbolNamed};
use crate::types::failure::Outcome;
use crate::types::open::display_path;
use crate::types::text::{patterns_of, Meaning};
use ctfd_read::declared::SourceFiles;
use ctfd_read::error::{reason, Error};
use ctfd_read::exports::{Export, ExportKind};
use std::path::Path;

/// The selection of a command line.
pub struct Chosen {
    wanted: Option<Meaning>,
    left_out: Meaning,
    suppressions: Suppressions,
    headers: [Option<Headers>; 2],
}

impl Chosen {
    /// The selection: wanted names or patterns (all names if none are given), without those in
    /// suppression files, and without types that the public headers do not define.
    pub fn new(words: &Words) -> Outcome<Chosen> {
        let wanted = Meaning::of(words.names.iter().flat_map(|name| patterns_of(name)));
        let mut left_out = Vec::new();
        let mut suppressions = Suppressions::default();
        for path in &words.suppressed {
            let refused = |error| Error(format!("{}: {}", display_path(path), reason(&error)));
            let bytes = std::fs::read(path).map_err(refused)?;
            match has_sections(&bytes) {
                true => suppressions.add(path, &bytes)?,
                false => left_out.extend(listed_patterns(&bytes)),
            }
        }
        let wanted = (!words.names.is_empty()).then_some(wanted);
        let headers = [Headers::of(&words.headers[0])?, Headers::of(&words.headers[1])?];
        Ok(Chosen { wanted, left_out: Meaning::of(left_out), suppressions, headers })
    }

    /// Whether the selection depends on the source files in which types are defined.
    pub fn has_sources(&self) -> bool {
        self.headers.iter().any(Option::is_some) || self.suppressions.has_sources()
    }

    /// Whether it depends on the source files of the old types.
    pub fn needs_old(&self) -> bool {
        self.headers[0].is_some() || self.suppressions.has_sources()
    }

    /// Whether it depends on the source files of the new types.
    pub fn needs_new(&self) -> bool {
        self.headers[0].is_none() && self.headers[1].is_some()
    }

    /// Whether the name of a type or symbol is left out.
    fn leaves_out(&self, label: &[u8]) -> bool {
        is_meant(label, &self.left_out)
    }
}

/// The selection for two files.
pub struct Choice<'c> {
    chosen: &'c Chosen,
    names: FileNames,
    sources: [&'c SourceFiles; 2],
}

impl<'c> Choice<'c> {
    /// The selection for two files, by their paths and sonames, and the source files of their
    /// types.
    pub fn new(
        chosen: &'c Chosen,
        paths: [&Path; 2],
        sonames: [&[u8]; 2],
        sources: [&'c SourceFiles; 2],
    ) -> Choice<'c> {
        Choice { chosen, names: FileNames::new(paths, sonames), sources }
    }

    /// Whether the two files are left out altogether.
    pub fn leaves_out_all(&self) -> bool {
        self.names.are_left_out(&self.chosen.suppressions)
    }

    /// Whether a change of a symbol is left out.
    pub fn leaves_out_symbol(&self, label: &[u8], one: &Export<'_>, change: SymbolChange) -> bool {
        let is_function = one.kind == ExportKind::Function;
        let named = SymbolNamed { name: one.name, version: one.version, is_function, change };
        self.chosen.leaves_out(label)
            || self.chosen.suppressions.leaves_out_symbol(&named, &self.names)
    }

    /// The same for a symbol whose version is not known.
    pub fn leaves_out_named(&self, named: &SymbolNamed<'_>) -> bool {
        self.chosen.suppressions.leaves_out_symbol(named, &self.names)
    }

    /// Whether a pair of types is left out, with all types that only it leads to.
    pub fn leaves_out_pair(&self, sides: &Sides<'_, '_, '_>, label: &str, pair: Pair) -> bool {
        let suppressions = &self.chosen.suppressions;
        self.is_hidden(sides, pair)
            || self.chosen.leaves_out(label.as_bytes())
            || suppressions.leaves_out_type(sides.before, pair.0, self.sources[0], &self.names)
    }

    /// Whether the public headers do not define a pair of types.
    pub fn is_hidden(&self, sides: &Sides<'_, '_, '_>, pair: Pair) -> bool {
        match &self.chosen.headers {
            [Some(headers), _] => headers.hide(sides.before, pair.0, self.sources[0]),
            [None, Some(headers)] => headers.hide(sides.after, pair.1, self.sources[1]),
            [None, None] => false,
        }
    }

    /// Removes the differences of a pair of types that are left out.
    pub fn prune(&self, sides: &Sides<'_, '_, '_>, pair: Pair, said: &mut Vec<Difference>) {
        let suppressions = &self.chosen.suppressions;
        suppressions.prune(sides.before, pair.0, self.sources[0], &self.names, said);
    }

    /// Whether changes of a type or symbol are reported.
    pub fn has(&self, label: &[u8]) -> bool {
        let is_wanted = self.chosen.wanted.as_ref().is_none_or(|wanted| is_meant(label, wanted));
        is_wanted && !self.chosen.leaves_out(label)
    }
}

/// The patterns of a file, which has a name or pattern on each line. `#` begins a comment.
fn listed_patterns(bytes: &[u8]) -> Vec<Vec<u8>> {
    let without_comment = |line: &'_ [u8]| {
        let end = line.iter().position(|&byte| byte == b'#').unwrap_or(line.len());
        line[..end].trim_ascii().to_vec()
    };
    let lines = bytes.split(|&byte| matches!(byte, b'\n' | b'\r')).map(without_comment);
    lines.filter(|line| !line.is_empty()).flat_map(|line| patterns_of(&line)).collect()
}

/// Whether the name of a type or symbol matches, with or without the word before it.
fn is_meant(label: &[u8], meaning: &Meaning) -> bool {
    let word = label.iter().position(|&byte| byte == b' ').map_or(0, |blank| blank + 1);
    meaning.has(label) || meaning.has(&label[word..])
}

#[cfg(test)]
mod tests {
    use super::*;

    #[test]
    fn labels_are_meant_with_their_word_or_without() {
        let meaning =
            Meaning::of(patterns_of(b"total").into_iter().chain(patterns_of(b"struct s*")));
        for label in ["object total", "total", "struct state"] {
            assert!(is_meant(label.as_bytes(), &meaning), "{label}");
        }
        for label in ["object totals", "union state", "function struct"] {
            assert!(!is_meant(label.as_bytes(), &meaning), "{label}");
        }
    }
}
