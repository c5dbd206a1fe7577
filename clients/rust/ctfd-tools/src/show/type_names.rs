//! Parses the names of types in casts: `struct node *`, `int (*)[4]`, `void (*)(int)`.

use super::parser::Parser;
use super::syntax::{Derivation, TypeName};
use super::tokens::Token;
use ctfd_read::error::{refuse, Result};

const QUALIFIERS: [&str; 3] = ["const", "volatile", "restrict"];

fn qualifier(token: &Token) -> Option<&'static str> {
    let Token::Name(name) = token else { return None };
    QUALIFIERS.into_iter().find(|word| word.as_bytes() == name)
}

impl Parser<'_> {
    /// Parses a type: the words of its base, and what is derived from it.
    pub fn type_name(&mut self) -> Result<TypeName> {
        let (mut words, mut derived): (Vec<Vec<u8>>, Vec<Derivation>) = (Vec::new(), Vec::new());
        while let Some(Token::Name(word)) = self.next() {
            match self.next().and_then(qualifier) {
                Some(qualifier) => derived.push(Derivation::Qualifier(qualifier)),
                None => words.push(word.clone()),
            }
            self.take()?;
        }
        if words.is_empty() {
            return refuse("a type is wanted");
        }
        self.deeper(|parser| parser.declarator(&mut derived))?;
        Ok(TypeName { base: words.join(&b' '), derived })
    }

    /// Parses the derivations of a type: stars, then what follows the brackets, then what is inside
    /// them.
    fn declarator(&mut self, derived: &mut Vec<Derivation>) -> Result<()> {
        while self.takes("*") {
            derived.push(Derivation::Pointer);
            while let Some(word) = self.next().and_then(qualifier) {
                derived.push(Derivation::Qualifier(word));
                self.take()?;
            }
        }
        let mut inner = Vec::new();
        let is_nested = self.is_next("(")
            && self.ahead(1).is_some_and(|token| matches!(token, Token::Sign("*" | "(" | "[")));
        if is_nested {
            self.expect("(")?;
            self.deeper(|parser| parser.declarator(&mut inner))?;
            self.expect(")")?;
        }
        let mut behind = Vec::new();
        loop {
            if self.takes("[") {
                behind.push(Derivation::Array(self.count()?));
                self.expect("]")?;
            } else if self.takes("(") {
                behind.push(self.deeper(Self::function)?);
            } else {
                break;
            }
        }
        derived.extend(behind.into_iter().rev());
        derived.extend(inner);
        Ok(())
    }

    fn count(&mut self) -> Result<u64> {
        match self.take()? {
            Token::Whole(literal) => Ok(literal.value),
            _ => refuse("an array in a type has a number of elements"),
        }
    }

    /// Parses the arguments of a function, after the opening bracket.
    fn function(&mut self) -> Result<Derivation> {
        let (mut arguments, mut is_open) = (Vec::new(), false);
        while !self.takes(")") {
            if self.takes(".") {
                self.expect(".")?;
                self.expect(".")?;
                is_open = true;
            } else {
                arguments.push(self.type_name()?);
            }
            if !self.is_next(")") {
                self.expect(",")?;
            }
        }
        let is_open = is_open || arguments.is_empty();
        let is_void = |one: &TypeName| one.base == b"void" && one.derived.is_empty();
        if arguments.len() == 1 && is_void(&arguments[0]) {
            arguments.clear();
        }
        Ok(Derivation::Function { arguments, is_open })
    }
}
