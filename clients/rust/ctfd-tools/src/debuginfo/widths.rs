//! Declared types of bit-fields, in place of the narrow ones that CTF has for them.

use crate::types::catalog::{is_renaming, Catalog, Number};
use ctfd::Kind;
use std::cell::RefCell;
use std::collections::HashMap;

/// What a type of full width has in common with a narrow one: its kind, its name, and the type that
/// it refers to, or its size.
type Key<'c> = (Kind, &'c [u8], u64);

/// The types of full width for narrow ones.
pub struct Widths<'c, 'd> {
    catalog: &'c Catalog<'d>,
    known: HashMap<Key<'c>, Number>,
    wide: RefCell<HashMap<Number, Number>>,
}

/// Whether a type resolves to an integer with fewer bits than its storage.
pub fn is_narrow(catalog: &Catalog<'_>, number: Number) -> bool {
    let end = catalog.resolve(number);
    let record = catalog.record(end);
    let bits = record.encoding.map_or(0, |lies| u64::from(lies.bits));
    record.kind == Kind::Integer && bits > 0 && bits < 8 * catalog.size(end).unwrap_or(0)
}

impl<'c, 'd> Widths<'c, 'd> {
    /// The types of full width in a catalog.
    pub fn new(catalog: &'c Catalog<'d>) -> Widths<'c, 'd> {
        let mut known: HashMap<Key<'c>, Number> = HashMap::new();
        for number in catalog.all() {
            let record = catalog.record(number);
            let is_kind = matches!(record.kind, Kind::Integer | Kind::Enum);
            if !(is_kind || is_renaming(record.kind)) || is_narrow(catalog, number) {
                continue;
            }
            let inner = match is_kind {
                true => catalog.size(number).unwrap_or(0),
                false => record.of.into(),
            };
            let one = known.entry((record.kind, &record.name, inner)).or_insert(number);
            if record.is_root && !catalog.record(*one).is_root {
                *one = number;
            }
        }
        Widths { catalog, known, wide: RefCell::new(HashMap::new()) }
    }

    /// The type of full width for a narrow one; the type itself if there is none.
    pub fn full_width(&self, number: Number) -> Number {
        if number == 0 || !is_narrow(self.catalog, number) {
            return number;
        }
        let mut layers = Vec::new();
        let mut at = number;
        let mut found = loop {
            if let Some(&known) = self.wide.borrow().get(&at) {
                break known;
            }
            let record = self.catalog.record(at);
            if !is_renaming(record.kind) {
                break self.of_integer(at);
            }
            layers.push(at);
            at = record.of;
        };
        self.wide.borrow_mut().insert(at, found);
        for layer in layers.into_iter().rev() {
            let record = self.catalog.record(layer);
            let key: Key<'_> = (record.kind, &record.name, found.into());
            found = self.known.get(&key).copied().unwrap_or(layer);
            self.wide.borrow_mut().insert(layer, found);
        }
        found
    }

    fn of_integer(&self, number: Number) -> Number {
        let record = self.catalog.record(number);
        let size = self.catalog.size(number).unwrap_or(0);
        let of_enum = record.name.strip_prefix(b"enum ");
        let declared = of_enum.and_then(|name| self.known.get(&(Kind::Enum, name, size)));
        let declared = declared.or_else(|| self.known.get(&(Kind::Integer, &record.name, size)));
        declared.copied().unwrap_or(number)
    }
}
