//! The syntax tree of an expression.

use super::tokens::Literal;
use super::value_type::Basic;

/// The name of a type: the words of its base, and the types derived from that.
#[derive(Clone, Debug, PartialEq)]
pub struct TypeName {
    /// The words, without qualifiers: `struct node`.
    pub base: Vec<u8>,
    /// The derivations in order, the outermost last.
    pub derived: Vec<Derivation>,
}

/// A type derived from another.
#[derive(Clone, Debug, PartialEq)]
pub enum Derivation {
    /// A pointer to the type.
    Pointer,
    /// The type with a qualifier.
    Qualifier(&'static str),
    /// An array of so many.
    Array(u64),
    /// A function that returns the type.
    Function { arguments: Vec<TypeName>, is_open: bool },
}

/// An operator between two numbers or pointers.
#[derive(Clone, Copy, Debug, PartialEq, Eq)]
pub enum Operator {
    Times,
    Over,
    Modulo,
    Plus,
    Minus,
    Left,
    Right,
    Below,
    Above,
    NotAbove,
    NotBelow,
    Equal,
    Other,
    BitAnd,
    BitXor,
    BitOr,
    Repeat,
}

/// A prefix of an operand.
#[derive(Clone, Debug, PartialEq)]
pub enum Prefix {
    /// `*`
    Follow,
    /// `&`
    Address,
    /// `-`
    Minus,
    /// `+`
    Plus,
    /// `!`
    Not,
    /// `~`
    Complement,
    /// `sizeof`
    Size,
    /// `(TYPE)`
    Cast(TypeName),
}

/// A postfix of an operand.
#[derive(Clone, Debug, PartialEq)]
pub enum Postfix {
    /// `.NAME` and `->NAME`
    Member(Vec<u8>),
    /// `[EXPRESSION]`
    Element(Expression),
}

/// An expression.
#[derive(Clone, Debug, PartialEq)]
pub enum Expression {
    Whole(Literal),
    Point(f64, Basic),
    Character(i128),
    /// A function or a variable.
    Name(Vec<u8>),
    Register(Vec<u8>),
    /// The size of a type.
    SizeOf(TypeName),
    /// An operand with its prefixes, in order.
    Prefixes(Vec<Prefix>, Box<Expression>),
    /// An operand with its postfixes, in order.
    Steps(Box<Expression>, Vec<Postfix>),
    Binary(Operator, Box<Expression>, Box<Expression>),
    /// `&&`: the second operand is evaluated if the first is not 0.
    And(Box<Expression>, Box<Expression>),
    /// `||`
    Or(Box<Expression>, Box<Expression>),
    /// `A ? B : C`
    Choice(Box<Expression>, Box<Expression>, Box<Expression>),
}
