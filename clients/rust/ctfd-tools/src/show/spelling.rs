//! Types before values, spelled as in gdb 13.
//!
//! gdb has one spelling for each of C's integers, whatever the compiler wrote, and blanks on both
//! sides of a pointer's qualifiers.

use super::target::Target;
use super::value_type::{Signature, ValueType};
use crate::types::catalog::{is_qualifier, Catalog, Number};
use crate::types::declare::{self, Declarator};
use ctfd::Kind;

const INTEGERS: [(&str, &str); 6] = [
    ("short int", "short"),
    ("short unsigned int", "unsigned short"),
    ("long int", "long"),
    ("long unsigned int", "unsigned long"),
    ("long long int", "long long"),
    ("long long unsigned int", "unsigned long long"),
];
const QUALIFIED: [(&str, &str); 3] =
    [("*const", "* const"), ("*volatile", "* volatile"), ("*restrict", "* restrict")];

/// The name of a base type in gdb.
fn base_name(name: String) -> String {
    let atomic = name.strip_prefix("_Atomic(").and_then(|rest| rest.strip_suffix(')'));
    let is_plain = |inner: &&str| !inner.contains(['(', ')', '*', '[']);
    if let Some(inner) = atomic.filter(is_plain) {
        return format!("_Atomic {}", base_name(inner.to_owned()));
    }
    INTEGERS.iter().find(|(known, _)| *known == name).map_or(name, |(_, own)| (*own).to_owned())
}

fn gdb_name(catalog: &Catalog<'_>, number: Number) -> String {
    base_name(declare::base(catalog, number))
}

impl Target<'_> {
    /// A type as gdb writes it.
    pub fn spelling(&self, of: &ValueType) -> String {
        let text = self.declarator(of).around("");
        QUALIFIED.iter().fold(text, |text, (tight, wide)| text.replace(tight, wide))
    }

    fn declarator(&self, of: &ValueType) -> Declarator {
        let (mut left, mut right) = (String::new(), String::new());
        let mut qualifiers = Vec::new();
        let mut of = of;
        let named = loop {
            match of {
                ValueType::Pointer(to) => {
                    self.point(to, &mut left, &mut right);
                    of = to;
                }
                ValueType::Qualifier(word, inner) => {
                    match **inner {
                        ValueType::Pointer(_) => left.insert_str(0, &format!("{word} ")),
                        _ => qualifiers.push(*word),
                    }
                    of = inner;
                }
                ValueType::Array(contents, count) => {
                    right += &format!("[{count}]");
                    of = contents;
                }
                ValueType::Function(signature) => {
                    right += &format!("({})", self.arguments(signature));
                    of = &signature.returns;
                }
                ValueType::Basic(basic) => break basic.name.to_owned(),
                ValueType::Dictionary { number: 0, .. } => break "void".to_owned(),
                ValueType::Dictionary { home, number } => {
                    let mut made = self.with_base(*home, *number, left, right);
                    made.qualifiers.extend(qualifiers);
                    made.qualifiers.sort_unstable(); // const comes before volatile
                    return made;
                }
            }
        };
        Declarator { qualifiers, base: 0, named, left, right }
    }

    /// Adds a star on the left, with brackets if it points to an array or a function.
    fn point(&self, to: &ValueType, left: &mut String, right: &mut String) {
        left.insert(0, '*');
        if self.has_brackets(to) {
            left.insert(0, '(');
            right.push(')');
        }
    }

    fn arguments(&self, signature: &Signature) -> String {
        let listed = signature.arguments.iter();
        let mut listed: Vec<String> = listed.map(|one| self.declarator(one).around("")).collect();
        match (listed.is_empty(), signature.is_open) {
            (true, true) => return String::new(), // not known, as after `int f()`
            (true, false) => return "void".to_owned(),
            (false, true) => listed.push("...".to_owned()),
            (false, false) => {}
        }
        listed.join(", ")
    }

    /// A declarator that continues with a type of a dictionary.
    fn with_base(&self, home: usize, number: Number, left: String, right: String) -> Declarator {
        let catalog = self.catalog(home);
        let called = |one| gdb_name(catalog, one);
        let mut made = declare::declarator_by(catalog, number, &called, false);
        made.left += &left;
        made.right.insert_str(0, &right);
        made
    }

    /// Whether the star of a pointer to a type is in brackets.
    fn has_brackets(&self, to: &ValueType) -> bool {
        match to {
            ValueType::Array(..) | ValueType::Function(_) => true,
            ValueType::Dictionary { home, number } if *number != 0 => {
                let catalog = self.catalog(*home);
                let mut number = *number;
                while is_qualifier(catalog.kind(number)) {
                    number = catalog.record(number).of;
                }
                matches!(catalog.kind(number), Kind::Array | Kind::Function)
            }
            _ => false,
        }
    }
}
