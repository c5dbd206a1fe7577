//! Types of a catalog in C, with a cache.
//!
//! `declare` does this for one type at a time. Here every type on the way is kept, since a command
//! that looks at all types writes most of them again and again.

use crate::types::catalog::{is_qualifier, Catalog, Number};
use crate::types::declare;
use crate::types::json::word_of;
use crate::types::text::{printable, shorten, usual};
use ctfd::Kind;
use ctfd_read::beyond::Beyond;
use std::cell::RefCell;
use std::collections::HashMap;
use std::rc::Rc;

const QUALIFIERS: [&str; 3] = ["volatile", "const", "restrict"];

/// A declaration in its parts: `base left NAME right`, as `const int (*NAME)[2]`.
#[derive(Clone)]
struct Declaration {
    base: String,
    left: String,
    right: String,
    /// The kind of the type without qualifiers, which decides whether a star needs brackets; None
    /// for void.
    kind: Option<Kind>,
    /// The same for the element of an array, to which the array's qualifiers apply.
    element: Option<Kind>,
}

/// The types of a catalog in C, with the names that gcc gives to base types.
pub struct TypeNames<'n, 'd> {
    catalog: &'n Catalog<'d>,
    beyond: &'n Beyond,
    written: RefCell<HashMap<Number, Rc<Declaration>>>,
    names: RefCell<HashMap<Number, Rc<str>>>,
}

impl<'n, 'd> TypeNames<'n, 'd> {
    /// The types of a catalog. `beyond` has what the file records that CTF cannot represent.
    pub fn new(catalog: &'n Catalog<'d>, beyond: &'n Beyond) -> TypeNames<'n, 'd> {
        TypeNames { catalog, beyond, written: RefCell::default(), names: RefCell::default() }
    }

    /// A type in C, without a name.
    pub fn name(&self, number: Number) -> Rc<str> {
        if let Some(known) = self.names.borrow().get(&number) {
            return known.clone();
        }
        let made = self.declaration_of(number);
        let is_closed = made.right.starts_with(')'); // as in "(*const)()"
        let left = if is_closed { made.left.trim_end() } else { &made.left };
        let name: Rc<str> = format!("{} {left}{}", made.base, made.right).trim_end().into();
        self.names.borrow_mut().insert(number, name.clone());
        name
    }

    /// The parts of a type's declaration.
    fn declaration_of(&self, mut number: Number) -> Rc<Declaration> {
        let mut layers = Vec::new();
        let mut made = loop {
            if let Some(known) = self.written.borrow().get(&number) {
                break known.clone();
            }
            let kind = self.catalog.kind(number);
            if !matches!(kind, Kind::Pointer | Kind::Array) && !is_qualifier(kind) {
                break Rc::new(self.end(number));
            }
            layers.push(number);
            number = self.catalog.record(number).of;
        };
        let mut known = self.written.borrow_mut();
        known.insert(number, made.clone());
        for layer in layers.into_iter().rev() {
            made = Rc::new(self.around(layer, &made));
            known.insert(layer, made.clone());
        }
        made
    }

    /// The declaration of a type that is neither pointer, array nor qualifier.
    fn end(&self, number: Number) -> Declaration {
        let record = self.catalog.record(number);
        let kind = (number != 0).then_some(record.kind);
        if kind == Some(Kind::Function) {
            let named = |number| shorten(declare::base(self.catalog, number));
            let made = declare::declarator_by(self.catalog, number, &named, false);
            let base = made.spelling();
            let (left, right) = (shorten(made.left), shorten(made.right));
            return Declaration { base, left, right, kind, element: kind };
        }
        let name = printable(&record.name);
        let base = match (kind, record.word()) {
            (None, _) => "void".to_owned(),
            (Some(Kind::Integer | Kind::Float), _) => usual(&name).to_owned(),
            (_, "") => name.into_owned(),
            (_, word) if name.is_empty() => format!("{word} {{...}}"),
            (_, word) => format!("{word} {name}"),
        };
        let base = if base.is_empty() { "(anon)".to_owned() } else { shorten(base) };
        Declaration { base, left: String::new(), right: String::new(), kind, element: kind }
    }

    /// Adds a pointer, array or qualifier to the declaration of the type that it refers to.
    fn around(&self, number: Number, inside: &Declaration) -> Declaration {
        let record = self.catalog.record(number);
        let kind = Some(record.kind);
        let Declaration { left, right, .. } = inside;
        match record.kind {
            Kind::Array => {
                let known = self.beyond.elements.get(&number).copied();
                let elements = known.unwrap_or(record.elements.into());
                let right = shorten(format!("[{elements}]{right}"));
                Declaration { right, kind, ..inside.clone() }
            }
            Kind::Pointer => {
                let is_bound = matches!(inside.kind, Some(Kind::Array | Kind::Function));
                let (left, right) = match is_bound {
                    true => (format!("{left}(*"), format!("){right}")),
                    false => (format!("{left}*"), right.clone()),
                };
                Declaration { base: inside.base.clone(), left, right, kind, element: kind }
            }
            qualifier => with_qualifier(word_of(qualifier), inside),
        }
    }
}

/// Adds a qualifier to a declaration, unless it is there already: after the star of a pointer, else
/// at the front.
fn with_qualifier(word: &str, inside: &Declaration) -> Declaration {
    if inside.element == Some(Kind::Pointer) {
        let behind = inside.left.rfind('*').map_or(0, |star| star + 1);
        let (stars, own) = inside.left.split_at(behind);
        let own = own.split_whitespace().filter(|one| *one != word).chain([word]);
        let left = format!("{stars}{} ", own.collect::<Vec<_>>().join(" "));
        return Declaration { left, ..inside.clone() };
    }
    let words: Vec<&str> = inside.base.split(' ').collect();
    let is_other = |one: &&str| !QUALIFIERS.contains(one);
    let count = words.iter().position(is_other).unwrap_or(words.len());
    let front = words[..count].iter().copied().filter(|one| *one != word);
    let kept = std::iter::once(word).chain(front).chain(words[count..].iter().copied());
    Declaration { base: kept.collect::<Vec<_>>().join(" "), ..inside.clone() }
}
