//! C's declarations of types, or of something with a type.
//!
//! Declarators are written from the inside out, as types are followed. They are cut at a depth and
//! at a number of steps: a function may take a pointer to itself, and a hostile one may take many.

use super::catalog::{is_qualifier, Catalog, Number, Signature};
use super::text::printable;
use ctfd::Kind;

const DEEPEST: usize = 4;
const STEPS: i32 = 4096;
const CUT: &str = "/* .. */";

/// A function that names the base type of a declaration.
pub type Naming<'n> = dyn Fn(Number) -> String + 'n;

/// A declaration in its parts: `qualifiers base left name right`, as in `const int (* f )(void)`.
#[derive(Clone, Debug)]
pub struct Declarator {
    /// The qualifiers of the base.
    pub qualifiers: Vec<&'static str>,
    /// The base type: 0 for void.
    pub base: Number,
    /// The name of the base type.
    pub named: String,
    /// The text left of the declared name.
    pub left: String,
    /// The text right of the declared name.
    pub right: String,
}

impl Declarator {
    /// The base type with its qualifiers.
    pub fn spelling(&self) -> String {
        let mut made = String::with_capacity(32);
        for word in &self.qualifiers {
            made += word;
            made.push(' ');
        }
        made += &self.named;
        made
    }

    /// The declaration of a name, or of the type alone if the name is empty.
    pub fn around(&self, name: &str) -> String {
        let is_closed = name.is_empty() && self.right.starts_with(')'); // as in "(*const)()"
        let left = if is_closed { self.left.trim_end() } else { &self.left };
        let made = format!("{} {left}{name}{}", self.spelling(), self.right);
        made.trim_end().to_owned()
    }

    /// Whether it declares a pointer, or something that contains some.
    pub fn has_star(&self) -> bool {
        self.left.contains('*')
    }
}

/// The name of a type that is neither pointer, array, function nor qualifier.
pub fn base(catalog: &Catalog<'_>, number: Number) -> String {
    if number == 0 {
        return "void".to_owned();
    }
    let record = catalog.record(number);
    let name = printable(&record.name);
    match record.word() {
        "" if name.is_empty() => "(anon)".to_owned(),
        "" => name.into_owned(),
        word if name.is_empty() => format!("{word} {{...}}"),
        word => format!("{word} {name}"),
    }
}

/// C's declaration of a name with a type, in full.
pub fn declaration(catalog: &Catalog<'_>, number: Number, name: &[u8]) -> String {
    declarator(catalog, number, 0).around(&printable(name))
}

/// C's declaration of an object, which may be an array of unknown length.
pub fn object(catalog: &Catalog<'_>, number: Number, name: &[u8]) -> String {
    let named = |one| base(catalog, one);
    let maker = Maker { catalog, named: &named, is_open: true };
    maker.declarator(number, 0, 0, &mut STEPS.clone()).around(&printable(name))
}

/// C's declaration of a function.
pub fn function(catalog: &Catalog<'_>, signature: &Signature, name: &[u8]) -> String {
    let named = |one| base(catalog, one);
    let maker = Maker { catalog, named: &named, is_open: false };
    let arguments = maker.arguments(signature, 0, &mut STEPS.clone());
    let returns = declarator(catalog, signature.returns, 0);
    returns.around(&format!("{}({arguments})", printable(name)))
}

/// The parts of the declaration of a type, or of a pointer to it with so many stars.
pub fn declarator(catalog: &Catalog<'_>, number: Number, stars: usize) -> Declarator {
    let named = |one| base(catalog, one);
    let maker = Maker { catalog, named: &named, is_open: false };
    maker.declarator(number, stars, 0, &mut STEPS.clone())
}

/// The same with other names for base types. With `is_open`, an array without elements has an
/// unknown length, where C allows that.
pub fn declarator_by(
    catalog: &Catalog<'_>,
    number: Number,
    named: &Naming<'_>,
    is_open: bool,
) -> Declarator {
    Maker { catalog, named, is_open }.declarator(number, 0, 0, &mut STEPS.clone())
}

/// Makes the declarators of one declaration, which share the remaining steps.
struct Maker<'m, 'd> {
    catalog: &'m Catalog<'d>,
    named: &'m Naming<'m>,
    is_open: bool,
}

impl Maker<'_, '_> {
    fn declarator(
        &self,
        number: Number,
        stars: usize,
        depth: usize,
        budget: &mut i32,
    ) -> Declarator {
        let (mut left, mut right) = (String::new(), String::new());
        let mut qualifiers: Vec<&'static str> = Vec::new();
        let mut of_pointer: Vec<&'static str> = Vec::new(); // of the next pointer
        if stars != 0 {
            left = "*".repeat(stars);
            self.enclose(number, &mut left, &mut right);
        }
        let mut number = number;
        loop {
            *budget -= 1;
            let record = self.catalog.record(number);
            match record.kind {
                Kind::Pointer => {
                    number = record.of;
                    left.insert(0, '*');
                    of_pointer.clear();
                    self.enclose(number, &mut left, &mut right);
                }
                Kind::Array => {
                    let is_unknown = self.is_open && record.elements == 0 && !right.ends_with(']');
                    right += &match is_unknown {
                        true => "[]".to_owned(),
                        false => format!("[{}]", record.elements),
                    };
                    number = record.of;
                }
                Kind::Function => {
                    let signature = self.catalog.signature(number);
                    right += &format!("({})", self.arguments(signature, depth, budget));
                    number = signature.returns;
                }
                kind if is_qualifier(kind) => {
                    let word = word_of(kind);
                    number = record.of;
                    let is_of_pointer = self.catalog.kind(self.element(number)) == Kind::Pointer;
                    let listed = if is_of_pointer { &mut of_pointer } else { &mut qualifiers };
                    if !listed.contains(&word) {
                        listed.push(word);
                        if is_of_pointer {
                            left.insert_str(0, &format!("{word} "));
                        }
                    }
                }
                _ => break,
            }
        }
        Declarator { qualifiers, base: number, named: (self.named)(number), left, right }
    }

    /// Adds brackets around the stars of a pointer to an array or a function.
    fn enclose(&self, to: Number, left: &mut String, right: &mut String) {
        let to = self.without_qualifiers(to);
        if matches!(self.catalog.kind(to), Kind::Array | Kind::Function) {
            left.insert(0, '(');
            right.push(')');
        }
    }

    fn without_qualifiers(&self, mut number: Number) -> Number {
        while is_qualifier(self.catalog.kind(number)) {
            number = self.catalog.record(number).of;
        }
        number
    }

    /// The type to which a qualifier of a type applies: for an array, its element's.
    fn element(&self, mut number: Number) -> Number {
        for _ in 0..STEPS {
            number = self.without_qualifiers(number);
            if self.catalog.kind(number) != Kind::Array {
                break;
            }
            number = self.catalog.record(number).of;
        }
        number
    }

    fn arguments(&self, signature: &Signature, depth: usize, budget: &mut i32) -> String {
        if depth >= DEEPEST || *budget <= 0 {
            return CUT.to_owned();
        }
        if signature.is_open && signature.arguments.is_empty() {
            return String::new(); // not known, as after `int f()`
        }
        let maker = Maker { is_open: false, ..*self };
        let mut listed: Vec<String> = Vec::new();
        for &argument in &signature.arguments {
            if *budget <= 0 {
                listed.push(CUT.to_owned());
                return listed.join(", ");
            }
            listed.push(maker.declarator(argument, 0, depth + 1, budget).around(""));
        }
        if signature.is_open {
            listed.push("...".to_owned());
        }
        match listed.is_empty() {
            true => "void".to_owned(),
            false => listed.join(", "),
        }
    }
}

fn word_of(qualifier: Kind) -> &'static str {
    match qualifier {
        Kind::Volatile => "volatile",
        Kind::Const => "const",
        _ => "restrict",
    }
}
