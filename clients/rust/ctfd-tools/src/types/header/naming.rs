//! Names of types in a header: their own if C allows it and no other type has it.

use super::Header;
use crate::types::catalog::{Number, Record};
use ctfd::Kind;
use std::cell::RefCell;
use std::collections::HashMap;

const KEYWORDS: &str = "\
    auto break case char const continue default do double else enum extern float for goto if inline \
    int long register restrict return short signed sizeof static struct switch typedef union \
    unsigned void volatile while asm typeof _Alignas _Alignof _Atomic _Bool _Complex _Generic \
    _Imaginary _Noreturn _Static_assert _Thread_local __auto_type __builtin_va_list __int128 \
    __float128 _Float128 _Float64 _Float32 _Float64x _Float32x _Float16 __bf16 __fp16 __float80 \
    __ibm128 _Decimal32 _Decimal64 _Decimal128 __func__ linux unix i386";

/// A name that a compiler accepts; None for others.
pub(super) fn identifier(name: &[u8]) -> Option<&str> {
    let is_letter = |byte: u8| byte == b'_' || byte.is_ascii_alphabetic();
    let is_plain = name.first().copied().is_some_and(is_letter)
        && name.iter().all(|&byte| is_letter(byte) || byte.is_ascii_digit());
    let name = std::str::from_utf8(name).ok().filter(|_| is_plain)?;
    (!KEYWORDS.split(' ').any(|word| word == name)).then_some(name)
}

pub(super) fn comment(said: &str) -> String {
    format!("/* {} */", said.replace("*/", "* /").replace("/*", "/ *"))
}

impl Header<'_, '_> {
    /// The name in C of a struct, union, enum, typedef or number.
    pub(super) fn name(&self, number: Number) -> String {
        if let Some(known) = self.names.borrow().get(&number) {
            return known.clone();
        }
        let made = self.new_name(number);
        self.names.borrow_mut().insert(number, made.clone());
        made
    }

    fn new_name(&self, number: Number) -> String {
        let record = self.record(number);
        if matches!(record.kind, Kind::Integer | Kind::Float) {
            if record.name == b"void" && self.catalog.size(number).unwrap_or(0) == 0 {
                return "void".to_owned();
            }
            let alike = self.forms.alike(record, number);
            if let Some(alike) = alike.filter(|alike| alike.name.as_bytes() == record.name) {
                return alike.name.replace("complex", "_Complex");
            }
        }
        match record.word() {
            "" => self.free(&self.ordinary, number),
            word => format!("{word} {}", self.free(&self.tags, number)),
        }
    }

    /// The type's own name if it is free. A forward and the type that it declares share their name.
    fn free(&self, taken: &RefCell<HashMap<String, Number>>, number: Number) -> String {
        let record = self.record(number);
        let name = match identifier(&record.name) {
            Some(name) => name.to_owned(),
            None => format!("ctfd_{number}"),
        };
        let mut taken = taken.borrow_mut();
        let other = *taken.entry(name.clone()).or_insert(number);
        if other != number && !self.is_same(record, self.record(other)) {
            return format!("{name}__{number}");
        }
        if self.record(other).kind == Kind::Forward && record.kind != Kind::Forward {
            taken.insert(name.clone(), number); // a second definition gets another
        }
        name
    }

    fn is_same(&self, one: &Record<'_>, other: &Record<'_>) -> bool {
        if one.kind == Kind::Forward || other.kind == Kind::Forward {
            return one.tag == other.tag;
        }
        one.kind == Kind::Typedef && other.kind == Kind::Typedef && one.of == other.of
    }
}
