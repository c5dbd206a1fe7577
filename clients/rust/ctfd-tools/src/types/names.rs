//! Names of types as a person uses them, and the types that names and patterns match.

use super::catalog::{Catalog, Number};
use super::declare::declaration;
use super::failure::{Failure, Outcome};
use super::text::{patterns_of, printable, Meaning};
use ctfd_read::nearest::suggestion;
use std::collections::{BTreeSet, HashMap};

/// The names of a catalog's types: a tag, a name, or the typedef of a type without a tag.
pub struct Names<'c, 'd> {
    pub catalog: &'c Catalog<'d>,
    typedefs: HashMap<Number, Vec<Number>>,
}

impl<'c, 'd> Names<'c, 'd> {
    /// The names of all types of a catalog.
    pub fn new(catalog: &'c Catalog<'d>) -> Names<'c, 'd> {
        let mut typedefs: HashMap<Number, Vec<Number>> = HashMap::new();
        for number in catalog.all() {
            if catalog.kind(number) == ctfd::Kind::Typedef {
                let named = catalog.resolve(number);
                if catalog.record(named).is_tagged() {
                    typedefs.entry(named).or_default().push(number);
                }
            }
        }
        Names { catalog, typedefs }
    }

    /// Whether a type has a name, or a typedef names it; else only its place identifies it.
    pub fn has_name(&self, number: Number) -> bool {
        !self.catalog.record(number).name.is_empty() || self.typedefs.contains_key(&number)
    }

    /// The typedefs of a struct, union or enum.
    pub fn typedefs(&self, number: Number) -> &[Number] {
        self.typedefs.get(&number).map(Vec::as_slice).unwrap_or_default()
    }

    /// The name of a type in output.
    pub fn label(&self, number: Number) -> String {
        let record = self.catalog.record(number);
        let name = printable(&record.name);
        if !record.is_tagged() {
            return match name.is_empty() {
                true => self.spelling(number),
                false => name.into_owned(),
            };
        }
        if !name.is_empty() {
            return format!("{} {name}", record.word());
        }
        match self.typedefs.get(&number) {
            Some(typedefs) => printable(&self.catalog.record(typedefs[0]).name).into_owned(),
            None => format!("{} (anon {number})", record.word()),
        }
    }

    /// A type spelled as in C.
    pub fn spelling(&self, number: Number) -> String {
        declaration(self.catalog, number, b"")
    }

    /// Whether `meets` accepts one of a type's names: those of its typedefs, and its tag with or
    /// without the word.
    fn is_called(&self, number: Number, meets: impl Fn(&[u8]) -> bool) -> bool {
        self.calls(number).iter().any(|name| meets(name))
    }

    fn calls(&self, number: Number) -> Vec<std::borrow::Cow<'_, [u8]>> {
        let record = self.catalog.record(number);
        let typedefs = self.typedefs.get(&number).map(Vec::as_slice).unwrap_or_default();
        let mut names: Vec<std::borrow::Cow<'_, [u8]>> =
            typedefs.iter().map(|&one| self.catalog.record(one).name.as_slice().into()).collect();
        if !record.name.is_empty() {
            names.push(record.name.as_slice().into());
            if record.is_tagged() {
                names.push(record.tag_name().into());
            }
        }
        names
    }

    /// The types that a pattern matches; fails if there are none.
    pub fn matching(
        &self,
        patterns: &[Vec<u8>],
        among: impl Iterator<Item = Number>,
    ) -> Outcome<Vec<Number>> {
        let meaning = Meaning::of(patterns.iter().flat_map(|one| patterns_of(one)));
        let found: Vec<Number> =
            among.filter(|&n| self.is_called(n, |name| meaning.has(name))).collect();
        match found.is_empty() {
            true => Err(self.nothing(patterns)),
            false => Ok(found),
        }
    }

    /// The types with a name; for a typedef of a struct, union or enum also that type.
    pub fn types_of_name(&self, name: &[u8]) -> Outcome<BTreeSet<Number>> {
        let names = [name.to_vec()];
        Ok(self.matching(&names, self.catalog.all())?.into_iter().collect())
    }

    /// The failure that no type matches, with the nearest name.
    fn nothing(&self, patterns: &[Vec<u8>]) -> Failure {
        let shown: Vec<_> = patterns.iter().map(|one| printable(one)).collect();
        let advice = match patterns {
            [one] => {
                let known = self.catalog.all().flat_map(|n| self.calls(n));
                suggestion(&printable(one), known.map(|name| printable(&name).into_owned()))
            }
            _ => String::new(),
        };
        Failure::Unknown(format!("no type is called {}{advice}", shown.join(" or ")))
    }
}
