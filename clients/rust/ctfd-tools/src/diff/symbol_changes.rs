//! Differences between the functions and objects of two programs.

use super::differences::{Change, Datum, Difference, Fate};
use crate::types::catalog::Catalog;
use crate::types::catalog::SymbolAnswer;
use crate::types::declare;
use crate::types::symbol_lists::{symbols_with_types, SymbolWithType};
use crate::types::text::{printable, shorten, usual};
use ctfd_read::opening::LibraryInput;
use std::collections::HashMap;

/// A symbol's declaration in C, and the word for its kind.
struct SymbolDeclaration {
    kind: &'static str,
    text: String,
}

impl SymbolDeclaration {
    fn of(catalog: &Catalog<'_>, one: &SymbolWithType) -> SymbolDeclaration {
        let (kind, text) = match &one.answer {
            SymbolAnswer::Function(signature) => {
                ("function", declare::function(catalog, signature, &one.name))
            }
            SymbolAnswer::Object(of) => ("object", declare::declaration(catalog, *of, &one.name)),
        };
        SymbolDeclaration { kind, text: shorten(with_usual_names(&text)) }
    }
}

/// The declarations in C of the symbols with known types, by name.
#[derive(Default)]
pub struct Symbols {
    names: Vec<Vec<u8>>,
    declared: HashMap<Vec<u8>, SymbolDeclaration>,
}

impl Symbols {
    /// The symbols of a dictionary; `handed` is the library's input for it.
    pub fn of(catalog: &Catalog<'_>, handed: &LibraryInput<'_>) -> Symbols {
        let mut made = Symbols::default();
        for one in symbols_with_types(catalog, handed) {
            let declared = SymbolDeclaration::of(catalog, &one);
            made.names.push(one.name.clone());
            made.declared.insert(one.name, declared);
        }
        made
    }

    /// Whether no symbol has a known type.
    pub fn is_empty(&self) -> bool {
        self.names.is_empty()
    }

    fn iter(&self) -> impl Iterator<Item = (&Vec<u8>, &SymbolDeclaration)> {
        self.names.iter().map(|name| (name, &self.declared[name]))
    }
}

/// A declaration with the names that gcc gives to integers.
fn with_usual_names(text: &str) -> String {
    let is_of_word = |letter: char| letter.is_alphanumeric() || letter == '_';
    let mut made = String::with_capacity(text.len());
    let mut rest = text;
    while !rest.is_empty() {
        let length = base_length(rest, &is_of_word);
        if length != 0 {
            made += usual(&rest[..length]);
            rest = &rest[length..];
            continue;
        }
        let word = rest.find(|letter| !is_of_word(letter)).unwrap_or(rest.len());
        let length = word.max(rest.chars().next().map_or(1, char::len_utf8));
        made += &rest[..length];
        rest = &rest[length..];
    }
    made
}

/// The length of the integer's name at the start of a text, such as `unsigned long`; 0 if there is
/// none. The text must begin at the start of a word.
fn base_length(text: &str, is_of_word: &dyn Fn(char) -> bool) -> usize {
    const FIRST: [&str; 4] = ["unsigned", "signed", "long", "short"];
    let mut length = 0;
    loop {
        let from = match length {
            0 => 0,
            _ if text[length..].starts_with(' ') => length + 1,
            _ => return length,
        };
        let end = text[from..].find(|letter| !is_of_word(letter));
        let end = end.map_or(text.len(), |end| from + end);
        let word = &text[from..end];
        if length != 0 && word == "char" {
            return 0; // `signed char` has no other name
        }
        if !FIRST.contains(&word) && (length == 0 || word != "int") {
            return length;
        }
        length = end;
    }
}

/// The changes; none if one of the two has no symbols.
pub fn changes(old: &Symbols, new: &Symbols) -> Vec<Change> {
    let mut made = Vec::new();
    if old.is_empty() || new.is_empty() {
        return made;
    }
    for (name, was) in old.iter() {
        let text = Datum::text(&was.text);
        match new.declared.get(name) {
            None => {
                let said = Difference::breaking("removed", "removed").from(text, Datum::Nothing);
                made.push(change(name, was.kind, Fate::Removed, said));
            }
            Some(now) if now.text != was.text => {
                let both = format!("{} -> {}", was.text, now.text);
                let said =
                    Difference::breaking("signature", both).from(text, Datum::text(&now.text));
                made.push(change(name, was.kind, Fate::Changed, said));
            }
            Some(_) => {}
        }
    }
    for (name, now) in new.iter().filter(|(name, _)| !old.declared.contains_key(*name)) {
        let said = Difference::harmless("added", format!("added: {}", now.text));
        let said = said.from(Datum::Nothing, Datum::text(&now.text));
        made.push(change(name, now.kind, Fate::Added, said));
    }
    made
}

fn change(name: &[u8], kind: &'static str, fate: Fate, said: Difference) -> Change {
    let label = format!("{kind} {}", printable(name));
    Change::new(label, kind, fate, vec![said.of(name)])
}

#[cfg(test)]
mod tests {
    use super::with_usual_names;

    #[test]
    fn integers_have_the_names_that_gcc_gives_them() {
        for (told, wanted) in [
            ("unsigned long f(short)", "long unsigned int f(short int)"),
            ("long unsigned int f(void)", "long unsigned int f(void)"),
            ("signed char f(signed)", "signed char f(int)"),
            ("longest long_long(unsigned, struct s)", "longest long_long(unsigned int, struct s)"),
            ("unsigned long long  x", "long long unsigned int  x"),
        ] {
            assert_eq!(with_usual_names(told), wanted);
        }
    }
}
