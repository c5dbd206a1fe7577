//! Suppression files as libabigail has them: sections of properties that say what not to report.

use super::differences::Difference;
use super::headers::kind_of;
use super::side::Side;
use crate::types::catalog::Number;
use crate::types::failure::{Failure, Outcome};
use crate::types::open::display_path;
use crate::types::text::printable;
use ctfd::Kind;
use ctfd_read::declared::SourceFiles;
use regex::bytes::{Regex, RegexBuilder};
use std::path::Path;

const BARE: &str = "a section names nothing to suppress: give it a name, or leave it out";

/// The subject of a section.
#[derive(Clone, Copy, Debug, PartialEq, Eq)]
enum Subject {
    Type,
    Function,
    Variable,
    File,
}

impl Subject {
    fn of_word(word: &str) -> Option<Subject> {
        Some(match word {
            "suppress_type" => Subject::Type,
            "suppress_function" => Subject::Function,
            "suppress_variable" => Subject::Variable,
            "suppress_file" => Subject::File,
            _ => return None,
        })
    }
}

/// A condition on a text.
#[derive(Debug)]
enum Condition {
    Is(Vec<u8>),
    Has(Regex),
    HasNot(Regex),
}

impl Condition {
    fn meets(&self, text: &[u8]) -> bool {
        match self {
            Condition::Is(wanted) => wanted == text,
            Condition::Has(pattern) => pattern.is_match(text),
            Condition::HasNot(pattern) => !pattern.is_match(text),
        }
    }
}

/// An end of a range in a struct: an offset in bits, the start or end of a member, or the end of
/// the struct.
#[derive(Clone, Debug)]
enum Bound {
    Bit(u128),
    Member(String),
    Behind(String),
    End,
}

impl Bound {
    fn of(text: &str) -> Option<Bound> {
        let inside = |call: &str| text.strip_prefix(call)?.strip_prefix('(')?.strip_suffix(')');
        match text {
            "end" => Some(Bound::End),
            _ => match (inside("offset_of"), inside("offset_after")) {
                (Some(name), _) => Some(Bound::Member(name.trim().to_owned())),
                (_, Some(name)) => Some(Bound::Behind(name.trim().to_owned())),
                _ => text.parse().ok().map(Bound::Bit),
            },
        }
    }

    /// Its offset in bits in a struct; None if the struct has no such member.
    fn bit(&self, side: &Side<'_, '_>, number: Number) -> Option<u128> {
        match self {
            Bound::Bit(bit) => Some(*bit),
            Bound::End => Some(u128::MAX),
            Bound::Member(name) | Bound::Behind(name) => {
                let parts = side.parts(number);
                let (place, _) = parts.iter().find(|(place, _)| place.path == *name)?;
                let is_behind = matches!(self, Bound::Behind(_));
                Some(place.start + if is_behind { place.told.bits } else { 0 })
            }
        }
    }
}

/// What happened to a symbol, for sections to select.
#[derive(Clone, Copy, Debug, PartialEq, Eq)]
pub enum SymbolChange {
    Deleted,
    Added,
    /// Its type changed.
    OfType,
}

/// A symbol, for sections to select.
#[derive(Clone, Copy, Debug)]
pub struct SymbolNamed<'n> {
    pub name: &'n [u8],
    /// Its version, empty if it has none.
    pub version: &'n [u8],
    pub is_function: bool,
    pub change: SymbolChange,
}

/// A section; it applies if all of its conditions are met.
#[derive(Debug)]
struct Rule {
    subject: Subject,
    names: Vec<Condition>,
    files: Vec<Condition>,
    sonames: Vec<Condition>,
    versions: Vec<Condition>,
    sources: Vec<Condition>,
    /// The files whose types are still reported.
    kept_sources: Option<Vec<Vec<u8>>>,
    kind: Option<Vec<Kind>>,
    change: Option<SymbolChange>,
    ranges: Vec<(Bound, Bound)>,
    enumerators: Vec<Vec<u8>>,
    has_size_change: bool,
}

impl Rule {
    fn new(subject: Subject) -> Rule {
        Rule {
            subject,
            names: Vec::new(),
            files: Vec::new(),
            sonames: Vec::new(),
            versions: Vec::new(),
            sources: Vec::new(),
            kept_sources: None,
            kind: None,
            change: None,
            ranges: Vec::new(),
            enumerators: Vec::new(),
            has_size_change: false,
        }
    }

    /// Adds a property. The error says what is wrong with it.
    fn take(&mut self, name: &str, value: &str) -> Result<(), String> {
        let is = || Condition::Is(value.as_bytes().to_vec());
        let has = || pattern(value).map(Condition::Has);
        let has_not = || pattern(value).map(Condition::HasNot);
        let is_of_type = self.subject == Subject::Type;
        let is_of_symbol = matches!(self.subject, Subject::Function | Subject::Variable);
        match name {
            "label" | "drop" | "drop_artifact" => {}
            "file_name_regexp" => self.files.push(has()?),
            "file_name_not_regexp" => self.files.push(has_not()?),
            "soname_regexp" => self.sonames.push(has()?),
            "soname_not_regexp" => self.sonames.push(has_not()?),
            "name" | "symbol_name" if is_of_type || is_of_symbol => self.names.push(is()),
            "name_regexp" | "symbol_name_regexp" => self.names.push(has()?),
            "name_not_regexp" | "symbol_name_not_regexp" => self.names.push(has_not()?),
            "symbol_version" if is_of_symbol => self.versions.push(is()),
            "symbol_version_regexp" if is_of_symbol => self.versions.push(has()?),
            "change_kind" if is_of_symbol => self.change = change_of(value)?,
            "source_location_not_in" if is_of_type => {
                self.kept_sources = Some(value_patterns(value))
            }
            "source_location_not_regexp" if is_of_type => self.sources.push(has_not()?),
            "type_kind" if is_of_type => self.kind = Some(kinds_of(value)?),
            "has_size_change" if is_of_type => self.has_size_change = value == "yes",
            "changed_enumerators" if is_of_type => self.enumerators.extend(value_patterns(value)),
            "has_data_member_inserted_at" if is_of_type => self.ranges.push(place(value)?),
            "has_data_member_inserted_between" | "has_data_members_inserted_between"
                if is_of_type =>
            {
                self.ranges.extend(ranges(value)?);
            }
            _ => return Err(format!("the property {name} is not read: leave its section out")),
        }
        Ok(())
    }

    /// Whether it has no conditions, and would suppress everything.
    fn is_bare(&self) -> bool {
        let conditions = [&self.names, &self.files, &self.sonames, &self.versions, &self.sources];
        conditions.iter().all(|listed| listed.is_empty())
            && self.kept_sources.is_none()
            && self.kind.is_none()
            && self.change.is_none()
            && !self.is_of_parts()
    }

    /// Whether it suppresses only some differences of a type.
    fn is_of_parts(&self) -> bool {
        !self.ranges.is_empty() || !self.enumerators.is_empty()
    }

    fn is_about_files(&self, paths: &[&[u8]], sonames: &[&[u8]]) -> bool {
        let is_met = |conditions: &[Condition], texts: &[&[u8]]| {
            conditions.iter().all(|one| texts.iter().any(|text| one.meets(text)))
        };
        is_met(&self.files, paths) && is_met(&self.sonames, sonames)
    }

    fn is_about_type(&self, side: &Side<'_, '_>, number: Number, sources: &SourceFiles) -> bool {
        let record = side.catalog.record(number);
        if self.kind.as_ref().is_some_and(|kinds| !kinds.contains(&record.tag)) {
            return false;
        }
        let label = side.names.label(number);
        let name = label.split_once(' ').filter(|_| record.is_tagged());
        let name = name.map_or(label.as_str(), |(_, name)| name);
        let kind = kind_of(record.kind);
        let mut files = sources.of_type(kind, name.as_bytes()).peekable();
        let has_source = files.peek().is_some();
        let files: Vec<&[u8]> = files.collect();
        let is_kept = |listed: &Vec<Vec<u8>>| {
            !has_source || files.iter().any(|file| listed.iter().any(|one| one == file))
        };
        let is_elsewhere = |one: &Condition| has_source && files.iter().all(|file| one.meets(file));
        self.names.iter().all(|one| one.meets(name.as_bytes()))
            && !self.kept_sources.as_ref().is_some_and(is_kept)
            && self.sources.iter().all(is_elsewhere)
    }

    fn is_about_symbol(&self, one: &SymbolNamed<'_>) -> bool {
        let subject = if one.is_function { Subject::Function } else { Subject::Variable };
        self.subject == subject
            && self.change.is_none_or(|change| change == one.change)
            && self.names.iter().all(|name| name.meets(one.name))
            && self.versions.iter().all(|version| version.meets(one.version))
    }

    /// Whether it suppresses a difference of a type.
    fn covers(&self, said: &Difference, ranges: &[(u128, u128)]) -> bool {
        if said.what == "size" {
            return self.has_size_change;
        }
        let is_of_enum = self.enumerators.contains(&said.name);
        is_of_enum || ranges.iter().any(|&(from, to)| said.is_between(from, to))
    }
}

fn pattern(value: &str) -> Result<Regex, String> {
    let made = RegexBuilder::new(value).unicode(false).build(); // of bytes, like names
    made.map_err(|_| format!("{value} is no regular expression"))
}

fn value_patterns(value: &str) -> Vec<Vec<u8>> {
    value.split(',').map(|one| one.trim().as_bytes().to_vec()).collect()
}

fn kinds_of(value: &str) -> Result<Vec<Kind>, String> {
    Ok(match value {
        "struct" | "class" => vec![Kind::Struct],
        "union" => vec![Kind::Union],
        "enum" => vec![Kind::Enum],
        "typedef" => vec![Kind::Typedef],
        "builtin" => vec![Kind::Integer, Kind::Float],
        _ => return Err(format!("type_kind {value} is not read: leave its section out")),
    })
}

fn change_of(value: &str) -> Result<Option<SymbolChange>, String> {
    Ok(match value {
        "all" => None,
        "function-subtype-change" | "variable-subtype-change" => Some(SymbolChange::OfType),
        "added-function" | "added-variable" => Some(SymbolChange::Added),
        "deleted-function" | "deleted-variable" => Some(SymbolChange::Deleted),
        _ => return Err(format!("change_kind {value} is not read: leave its section out")),
    })
}

fn place(value: &str) -> Result<(Bound, Bound), String> {
    let bound = Bound::of(value).ok_or_else(|| format!("{value} is no place in a struct"))?;
    Ok((bound.clone(), bound))
}

/// Parses `{a, b}`, or `{{a, b}, {c, d}}`.
fn ranges(value: &str) -> Result<Vec<(Bound, Bound)>, String> {
    let wrong = || format!("{value} is no range of a struct: write {{8, end}}");
    let plain: String = value.chars().filter(|letter| !letter.is_whitespace()).collect();
    let inside = plain.strip_prefix('{').and_then(|text| text.strip_suffix('}'));
    let inside = inside.ok_or_else(wrong)?;
    let inside = inside.strip_prefix('{').and_then(|text| text.strip_suffix('}')).unwrap_or(inside);
    let range = |text: &str| {
        let (from, to) = text.split_once(',')?;
        Some((Bound::of(from)?, Bound::of(to)?))
    };
    inside.split("},{").map(|text| range(text).ok_or_else(wrong)).collect()
}

/// The sections of all suppression files.
#[derive(Debug, Default)]
pub struct Suppressions {
    rules: Vec<Rule>,
}

/// Whether a suppression file has sections.
pub fn has_sections(bytes: &[u8]) -> bool {
    let lines = bytes.split(|&byte| byte == b'\n').map(<[u8]>::trim_ascii);
    let mut lines = lines.filter(|line| !line.is_empty() && !line.starts_with(b"#"));
    lines.next().is_some_and(|line| line.starts_with(b"[suppress_"))
}

impl Suppressions {
    /// Adds the sections of a file.
    pub fn add(&mut self, path: &Path, bytes: &[u8]) -> Outcome<()> {
        let text = String::from_utf8_lossy(bytes);
        for (number, line) in text.lines().enumerate() {
            let line = line.trim();
            let refused = |why: String| {
                let place = format!("{}:{}", display_path(path), number + 1);
                Failure::Refused(format!("{place}: {}", printable(why.as_bytes())))
            };
            if line.is_empty() || line.starts_with(['#', ';']) {
                continue;
            }
            let is_section = line.starts_with('[');
            if is_section && self.rules.last().is_some_and(Rule::is_bare) {
                return Err(refused(BARE.to_owned()));
            }
            if let Some(word) = line.strip_prefix('[').and_then(|line| line.strip_suffix(']')) {
                let subject = Subject::of_word(word.trim());
                let why = || refused(format!("the section [{word}] is not read: leave it out"));
                self.rules.push(Rule::new(subject.ok_or_else(why)?));
                continue;
            }
            let both = line.split_once('=').zip(self.rules.last_mut());
            let why =
                || refused("a line has a property as in `name = x`, below [suppress_type]".into());
            let ((name, value), rule) = both.ok_or_else(why)?;
            rule.take(name.trim(), value.trim()).map_err(refused)?;
        }
        match self.rules.last().is_some_and(Rule::is_bare) {
            true => Err(Failure::Refused(format!("{}: {BARE}", display_path(path)))),
            false => Ok(()),
        }
    }

    /// Whether a section depends on the source files in which types are defined.
    pub fn has_sources(&self) -> bool {
        self.rules.iter().any(|rule| rule.kept_sources.is_some() || !rule.sources.is_empty())
    }

    /// Whether two files of these names are left out altogether.
    fn is_file_left_out(&self, paths: &[&[u8]], sonames: &[&[u8]]) -> bool {
        let mut of_files = self.rules.iter().filter(|rule| rule.subject == Subject::File);
        of_files.any(|rule| rule.is_about_files(paths, sonames))
    }

    fn about<'s>(
        &'s self,
        subject: Subject,
        names: &'s FileNames,
    ) -> impl Iterator<Item = &'s Rule> {
        self.rules.iter().filter(move |rule| {
            let (paths, sonames) = (names.paths(), names.sonames());
            rule.subject == subject && rule.is_about_files(&paths, &sonames)
        })
    }

    /// Whether a type of the old file is left out, with all types that only it leads to.
    pub fn leaves_out_type(
        &self,
        side: &Side<'_, '_>,
        number: Number,
        sources: &SourceFiles,
        names: &FileNames,
    ) -> bool {
        let mut rules = self.about(Subject::Type, names).filter(|rule| !rule.is_of_parts());
        rules.any(|rule| rule.is_about_type(side, number, sources))
    }

    /// Removes the differences of a type that are left out.
    pub fn prune(
        &self,
        side: &Side<'_, '_>,
        number: Number,
        sources: &SourceFiles,
        names: &FileNames,
        said: &mut Vec<Difference>,
    ) {
        for rule in self.about(Subject::Type, names).filter(|rule| rule.is_of_parts()) {
            if !rule.is_about_type(side, number, sources) {
                continue;
            }
            let range = |(from, to): &(Bound, Bound)| {
                Some((from.bit(side, number)?, to.bit(side, number)?))
            };
            let ranges: Vec<(u128, u128)> = rule.ranges.iter().filter_map(range).collect();
            said.retain(|one| !rule.covers(one, &ranges));
        }
    }

    /// Whether a symbol is left out.
    pub fn leaves_out_symbol(&self, one: &SymbolNamed<'_>, names: &FileNames) -> bool {
        let subject = if one.is_function { Subject::Function } else { Subject::Variable };
        self.about(subject, names).any(|rule| rule.is_about_symbol(one))
    }
}

/// The names and sonames of the two files, for sections to select.
#[derive(Clone, Debug, Default)]
pub struct FileNames {
    paths: Vec<Vec<u8>>,
    sonames: Vec<Vec<u8>>,
}

impl FileNames {
    /// The names of two files.
    pub fn new(paths: [&Path; 2], sonames: [&[u8]; 2]) -> FileNames {
        use std::os::unix::ffi::OsStrExt as _;
        let name = |path: &Path| path.file_name().unwrap_or_default().as_bytes().to_vec();
        FileNames { paths: paths.map(name).to_vec(), sonames: sonames.map(<[u8]>::to_vec).to_vec() }
    }

    fn paths(&self) -> Vec<&[u8]> {
        self.paths.iter().map(Vec::as_slice).collect()
    }

    fn sonames(&self) -> Vec<&[u8]> {
        self.sonames.iter().map(Vec::as_slice).collect()
    }

    /// Whether the two files are left out altogether.
    pub fn are_left_out(&self, suppressions: &Suppressions) -> bool {
        suppressions.is_file_left_out(&self.paths(), &self.sonames())
    }
}

#[cfg(test)]
mod tests {
    use super::*;

    fn read(text: &str) -> Outcome<Suppressions> {
        let mut made = Suppressions::default();
        made.add(Path::new("known.abignore"), text.as_bytes()).map(|()| made)
    }

    #[test]
    fn symbols_are_left_out_by_name_version_and_change() {
        let text = "# known\n[suppress_function]\n  name_regexp = ^old_\n  symbol_version = V1\n\
                    change_kind = deleted-function\n";
        let Ok(made) = read(text) else { panic!("it is not read") };
        let one = SymbolNamed {
            name: b"old_way",
            version: b"V1",
            is_function: true,
            change: SymbolChange::Deleted,
        };
        let is_left_out = |one| made.leaves_out_symbol(&one, &FileNames::default());
        assert!(is_left_out(one));
        assert!(!is_left_out(SymbolNamed { version: b"V2", ..one }));
        assert!(!is_left_out(SymbolNamed { is_function: false, ..one }));
        assert!(!is_left_out(SymbolNamed { change: SymbolChange::OfType, ..one }));
        assert!(!is_left_out(SymbolNamed { name: b"new_way", ..one }));
    }

    #[test]
    fn what_is_not_read_is_refused_with_its_line() {
        for (text, place) in [
            ("[suppress_type]\nname = a\nreach_kind = direct\n", "known.abignore:3: "),
            ("[suppress_all]\n", "known.abignore:1: "),
            ("[suppress_type]\nname_regexp = (\n", "known.abignore:2: "),
            ("[suppress_type]\nhas_data_member_inserted_between = 3\n", "known.abignore:2: "),
        ] {
            match read(text) {
                Err(Failure::Refused(said)) => assert!(said.starts_with(place), "{said}"),
                _ => panic!("{text} is not refused"),
            }
        }
    }

    #[test]
    fn ranges_are_pairs_of_places() {
        assert!(matches!(ranges("{ 8, end }").as_deref(), Ok([(Bound::Bit(8), Bound::End)])));
        let several = ranges("{{0, 7}, {offset_of(a), offset_after(b)}}");
        assert!(matches!(several.as_deref(), Ok([_, (Bound::Member(_), Bound::Behind(_))])));
    }
}
