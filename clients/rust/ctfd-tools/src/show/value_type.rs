//! The types of values: those of dictionaries, and those that expressions derive from them.

use crate::types::catalog::Number;
use ctfd::Model;
use std::rc::Rc;

/// The class of one of C's own types.
#[derive(Clone, Copy, Debug, PartialEq, Eq)]
pub enum Class {
    /// An integer.
    Integer { is_signed: bool },
    /// A character.
    Character { is_signed: bool },
    /// True or false.
    Boolean,
    /// A floating-point number.
    Float,
}

/// One of C's own types, which expressions can use without a dictionary.
#[derive(Clone, Copy, Debug, PartialEq, Eq)]
pub struct Basic {
    /// Its name in gdb.
    pub name: &'static str,
    /// Its size in bytes.
    pub size: u64,
    pub class: Class,
}

const fn integer(name: &'static str, size: u64, is_signed: bool) -> Basic {
    Basic { name, size, class: Class::Integer { is_signed } }
}

/// The type of most results.
pub const INT: Basic = integer("int", 4, true);
/// `int` without a sign.
pub const UNSIGNED: Basic = integer("unsigned int", 4, false);
/// An integer of 64 bits, even if `long` is smaller.
pub const LONG_LONG: Basic = integer("long long", 8, true);
/// The same without a sign.
pub const UNSIGNED_LONG_LONG: Basic = integer("unsigned long long", 8, false);
pub const DOUBLE: Basic = Basic { name: "double", size: 8, class: Class::Float };
pub const FLOAT: Basic = Basic { name: "float", size: 4, class: Class::Float };
pub const CHAR: Basic =
    Basic { name: "char", size: 1, class: Class::Character { is_signed: true } };

/// `long` or `unsigned long`.
pub fn long_integer(model: Model, is_signed: bool) -> Basic {
    let size = pointer_size(model);
    integer(if is_signed { "long" } else { "unsigned long" }, size, is_signed)
}

/// The size of a pointer in bytes.
pub fn pointer_size(model: Model) -> u64 {
    match model {
        Model::Lp64 => 8,
        Model::Ilp32 => 4,
    }
}

/// One of C's own types, by the name that dictionaries have for it; None for other names.
pub fn basic_of(name: &[u8], model: Model) -> Option<Basic> {
    let character =
        |name, is_signed| Basic { name, size: 1, class: Class::Character { is_signed } };
    Some(match name {
        b"char" => CHAR,
        b"signed char" => character("signed char", true),
        b"unsigned char" => character("unsigned char", false),
        b"short int" => integer("short", 2, true),
        b"short unsigned int" => integer("unsigned short", 2, false),
        b"int" => INT,
        b"unsigned int" => UNSIGNED,
        b"long int" => long_integer(model, true),
        b"long unsigned int" => long_integer(model, false),
        b"long long int" => LONG_LONG,
        b"long long unsigned int" => UNSIGNED_LONG_LONG,
        b"float" => FLOAT,
        b"double" => DOUBLE,
        b"_Bool" => Basic { name: "_Bool", size: 1, class: Class::Boolean },
        _ => return None,
    })
}

/// The type of a value. `home` is the index of the source whose dictionary has the type.
#[derive(Clone, Debug)]
pub enum ValueType {
    /// A type of a dictionary; the number 0 is void.
    Dictionary { home: usize, number: Number },
    /// A pointer, which a dictionary need not have.
    Pointer(Rc<ValueType>),
    /// An array of so many.
    Array(Rc<ValueType>, u64),
    /// A type with a qualifier from a cast.
    Qualifier(&'static str, Rc<ValueType>),
    /// A function, from a symbol or a cast.
    Function(Rc<Signature>),
    /// One of C's own types.
    Basic(Basic),
}

/// What a function takes and returns.
#[derive(Clone, Debug)]
pub struct Signature {
    pub returns: ValueType,
    pub arguments: Vec<ValueType>,
    /// Whether it takes further arguments.
    pub is_open: bool,
}

impl ValueType {
    /// A pointer to this type.
    pub fn pointer(self) -> ValueType {
        ValueType::Pointer(Rc::new(self))
    }

    /// An array of `count` of this type.
    pub fn array(self, count: u64) -> ValueType {
        ValueType::Array(Rc::new(self), count)
    }

    /// This type with a qualifier.
    pub fn with_qualifier(self, word: &'static str) -> ValueType {
        ValueType::Qualifier(word, Rc::new(self))
    }

    /// No type.
    pub const VOID: ValueType = ValueType::Dictionary { home: 0, number: 0 };
}

impl From<Signature> for ValueType {
    fn from(signature: Signature) -> ValueType {
        ValueType::Function(Rc::new(signature))
    }
}

impl From<Basic> for ValueType {
    fn from(basic: Basic) -> ValueType {
        ValueType::Basic(basic)
    }
}

/// The shape of a type: what it is after typedefs and qualifiers.
#[derive(Clone, Debug)]
pub enum Shape {
    /// No value.
    Void,
    /// An integer.
    Integer(Integer),
    /// A floating-point number: its size in bytes, and its encoding in the dictionary.
    Float { size: u64, encoding: u8 },
    /// An enum of a dictionary.
    Enum { home: usize, number: Number },
    /// A pointer to a type.
    Pointer(ValueType),
    /// An array of so many.
    Array(ValueType, u64),
    /// A function.
    Function,
    /// A struct or union of a dictionary.
    Aggregate { home: usize, number: Number },
    /// A type that is only declared, or unknown.
    Incomplete,
}

/// The properties of an integer.
#[derive(Clone, Copy, Debug)]
pub struct Integer {
    /// The size of its storage in bytes.
    pub size: u64,
    /// Its width in bits.
    pub bits: u64,
    /// Whether it may be negative.
    pub is_signed: bool,
    pub is_character: bool,
    pub is_boolean: bool,
    /// Whether it fills its storage, unlike a bit-field's.
    pub is_whole: bool,
}

impl Integer {
    /// Whether it is a character of one byte, as in plain texts.
    pub fn is_letter(&self) -> bool {
        self.is_character && self.size == 1 && self.is_whole
    }
}

impl Basic {
    /// Its shape.
    pub fn shape(self) -> Shape {
        let integer = |is_signed, is_character, is_boolean| {
            Shape::Integer(Integer {
                size: self.size,
                bits: 8 * self.size,
                is_signed,
                is_character,
                is_boolean,
                is_whole: true,
            })
        };
        match self.class {
            Class::Integer { is_signed } => integer(is_signed, false, false),
            Class::Character { is_signed } => integer(is_signed, true, false),
            Class::Boolean => integer(false, false, true),
            Class::Float => {
                let encoding = if self.size == 4 { SINGLE } else { DOUBLE_ENCODING };
                Shape::Float { size: self.size, encoding }
            }
        }
    }
}

/// The encoding of `float` in the format.
pub const SINGLE: u8 = 1;
/// The encoding of `double`.
pub const DOUBLE_ENCODING: u8 = 2;
/// The encodings of complex numbers, each with that of its two parts.
pub const COMPLEX: [(u8, u8); 2] = [(3, SINGLE), (4, DOUBLE_ENCODING)];
/// The encoding of a complex number of the x87's format.
pub const EXTENDED_COMPLEX: u8 = 5;
/// The encoding of the x87's format of 80 bits.
pub const EXTENDED: u8 = 6;
