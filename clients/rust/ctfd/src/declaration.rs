//! Declarations in C.

use crate::names::show;
use crate::types::{Kind, Type};
use std::fmt;

/// The declaration of a name with a type, from [`Type::declare`]. Its `Display` form is C, such as
/// `int (*handler)()` or `char text[16]`.
#[derive(Clone, Debug)]
pub struct Declaration<'d> {
    of: Option<Type<'d>>,
    name: Vec<u8>,
}

impl<'d> Declaration<'d> {
    pub(crate) fn new(of: Option<Type<'d>>, name: &[u8]) -> Declaration<'d> {
        Declaration { of, name: name.to_vec() }
    }

    /// The type that the declaration begins with, the qualifiers before it, and the text after it,
    /// which contains the name.
    fn parts(&self) -> (Option<Type<'d>>, Vec<u8>, Vec<u8>) {
        let (mut front, mut made, mut at) = (Vec::new(), self.name.clone(), self.of);
        let mut of_pointer = Vec::new(); // qualifiers of the next pointer
        while let Some(t) = at {
            let kind = t.kind();
            let next = match kind {
                Kind::Pointer => t.reference(),
                Kind::Array => t.array().map(|array| array.contents),
                Kind::Function => t.returns(),
                Kind::Volatile | Kind::Const | Kind::Restrict => t.reference(),
                _ => break,
            };
            let Ok(next) = next else { break };
            match kind {
                Kind::Pointer => {
                    point(&mut made, next);
                    of_pointer.clear();
                }
                Kind::Array => {
                    let count = t.array().map_or(0, |array| array.count);
                    made.extend(format!("[{count}]").bytes());
                }
                Kind::Function => made.extend(b"()"),
                _ if element_of(next).map(Type::kind) != Some(Kind::Pointer) => {
                    front.extend(word_of(kind));
                    front.push(b' ');
                }
                _ if of_pointer.contains(&kind) => {}
                _ => {
                    of_pointer.push(kind);
                    qualify(&mut made, kind, next);
                }
            }
            at = next;
        }
        (at, front, made)
    }
}

/// Puts a star in front, and parentheses around it if the pointer is to an array or a function.
fn point(made: &mut Vec<u8>, to: Option<Type<'_>>) {
    made.insert(0, b'*');
    let kind = past_qualifiers(to).map(Type::kind);
    if kind == Some(Kind::Array) || kind == Some(Kind::Function) {
        made.insert(0, b'(');
        made.push(b')');
    }
}

fn word_of(qualifier: Kind) -> &'static [u8] {
    match qualifier {
        Kind::Volatile => b"volatile",
        Kind::Const => b"const",
        _ => b"restrict",
    }
}

/// Puts a qualifier of a pointer in front of the text; the star of the pointer comes before it.
fn qualify(made: &mut Vec<u8>, kind: Kind, of: Option<Type<'_>>) {
    let rest = std::mem::take(made);
    made.extend(word_of(kind));
    if !rest.is_empty() || past_qualifiers(of).map(Type::kind) == Some(Kind::Array) {
        made.push(b' ');
    }
    made.extend(rest);
}

/// The type that a qualifier applies to: of an array its elements, since C has no qualified arrays.
fn element_of(of: Option<Type<'_>>) -> Option<Type<'_>> {
    let mut element = past_qualifiers(of);
    while let Some(array) = element.filter(|t| t.kind() == Kind::Array) {
        element = past_qualifiers(array.array().ok()?.contents);
    }
    element
}

/// The type without its qualifiers; `None` for no type.
fn past_qualifiers(mut of: Option<Type<'_>>) -> Option<Type<'_>> {
    while let Some(t) = of {
        match t.kind() {
            Kind::Volatile | Kind::Const | Kind::Restrict => of = t.reference().ok().flatten(),
            _ => return of,
        }
    }
    None
}

impl fmt::Display for Declaration<'_> {
    fn fmt(&self, to: &mut fmt::Formatter<'_>) -> fmt::Result {
        let (base, front, made) = self.parts();
        show(&front, to)?;
        match base {
            Some(base) => write!(to, "{base}")?,
            None => write!(to, "void")?,
        }
        if !made.is_empty() {
            write!(to, " ")?;
        }
        show(&made, to)
    }
}
