//! Parses expressions of C, with gdb's operator `@`.
//!
//! ```text
//! CHOICE  = BINARY [ '?' CHOICE ':' CHOICE ]
//! BINARY  = UNARY { OPERATOR UNARY }, by the precedence of C
//! UNARY   = ('*' | '&' | '-' | '+' | '!' | '~' | 'sizeof') UNARY | '(' TYPE ')' UNARY
//!         | 'sizeof' '(' TYPE ')' | POSTFIX
//! POSTFIX = PRIMARY { '.' NAME | '->' NAME | '[' CHOICE ']' }
//! PRIMARY = NUMBER | CHARACTER | NAME | $REGISTER | 'NAME' | '(' CHOICE ')'
//! ```

use super::syntax::{Expression, Operator, Postfix, Prefix, TypeName};
use super::tokens::{tokens, Token};
use crate::types::text::printable;
use ctfd_read::error::{refuse, Error, Result};

/// The deepest nesting of brackets, and the most operators of an expression.
const DEEPEST: usize = 64;
const MOST_OPERATORS: usize = 1000;
/// Words that begin a type, but no value.
const TYPE_WORDS: [&[u8]; 13] = [
    b"struct",
    b"union",
    b"enum",
    b"const",
    b"volatile",
    b"restrict",
    b"unsigned",
    b"signed",
    b"char",
    b"short",
    b"int",
    b"long",
    b"void",
];
/// The binary operators by precedence, the lowest first.
const RANKS: [&[(&str, Operator)]; 9] = [
    &[("|", Operator::BitOr)],
    &[("^", Operator::BitXor)],
    &[("&", Operator::BitAnd)],
    &[("==", Operator::Equal), ("!=", Operator::Other)],
    &[
        ("<", Operator::Below),
        (">", Operator::Above),
        ("<=", Operator::NotAbove),
        (">=", Operator::NotBelow),
    ],
    &[("<<", Operator::Left), (">>", Operator::Right)],
    &[("@", Operator::Repeat)],
    &[("+", Operator::Plus), ("-", Operator::Minus)],
    &[("*", Operator::Times), ("/", Operator::Over), ("%", Operator::Modulo)],
];

/// What the parser has to know of names: a name in brackets may be that of a type or of a value.
pub trait Names {
    /// Whether there is a function or variable with this name.
    fn is_symbol(&self, name: &[u8]) -> bool;

    /// Whether there is a type with this name.
    fn is_type(&self, name: &[u8]) -> bool;
}

/// Parses an expression.
pub fn parse(expression: &[u8], names: &dyn Names) -> Result<Expression> {
    let mut parser = Parser::new(expression, names)?;
    if parser.tokens.is_empty() {
        return refuse("there is no expression");
    }
    let made = parser.choice()?;
    match parser.next() {
        None => Ok(made),
        Some(_) => Err(parser.unexpected_token()),
    }
}

/// Parses the name of a type.
pub fn parse_type(name: &[u8], names: &dyn Names) -> Result<TypeName> {
    let mut parser = Parser::new(name, names)?;
    let made = parser.type_name()?;
    match parser.next() {
        None => Ok(made),
        Some(_) => Err(parser.unexpected_token()),
    }
}

/// A parser with the tokens of an expression.
pub struct Parser<'p> {
    expression: &'p [u8],
    tokens: Vec<(usize, Token)>,
    at: usize,
    depth: usize,
    operators: usize,
    names: &'p dyn Names,
}

impl<'p> Parser<'p> {
    fn new(expression: &'p [u8], names: &'p dyn Names) -> Result<Parser<'p>> {
        let tokens = tokens(expression)?;
        Ok(Parser { expression, tokens, at: 0, depth: 0, operators: 0, names })
    }

    /// The next token.
    pub fn next(&self) -> Option<&Token> {
        self.ahead(0)
    }

    /// The token `count` places after the next.
    pub fn ahead(&self, count: usize) -> Option<&Token> {
        self.tokens.get(self.at + count).map(|(_, token)| token)
    }

    /// Whether a sign is next.
    pub fn is_next(&self, sign: &str) -> bool {
        self.next().is_some_and(|token| token.is(sign))
    }

    /// Consumes the next token; fails if there is none.
    pub fn take(&mut self) -> Result<Token> {
        let token = self.next().cloned();
        self.at += 1;
        token.ok_or_else(|| Error("the expression is not complete".to_owned()))
    }

    /// Consumes a sign, if it is next. Returns whether it was.
    pub fn takes(&mut self, sign: &str) -> bool {
        let is_next = self.is_next(sign);
        self.at += usize::from(is_next);
        is_next
    }

    /// Consumes a sign; fails if it is not next.
    pub fn expect(&mut self, sign: &str) -> Result<()> {
        if self.takes(sign) {
            return Ok(());
        }
        match self.tokens.get(self.at) {
            Some(_) => {
                let rest = self.rest();
                refuse(format!("{sign} is wanted before '{rest}'"))
            }
            None => refuse(format!("{sign} is wanted at the end")),
        }
    }

    /// The text that is not consumed yet.
    fn rest(&self) -> String {
        let at = self.tokens.get(self.at).map_or(self.expression.len(), |(at, _)| *at);
        printable(self.expression[at..].trim_ascii()).into_owned()
    }

    /// The error for a token that does not belong there.
    pub fn unexpected_token(&self) -> Error {
        let rest = self.rest();
        Error(match self.next() {
            Some(Token::Sign("(")) if self.at != 0 => {
                format!("what is '{rest}'? Functions are not called, since the program goes on")
            }
            Some(Token::Sign(sign)) if sign.ends_with('=') || matches!(*sign, "++" | "--") => {
                format!("what is '{rest}'? Nothing is written to the program")
            }
            _ => format!("what is '{rest}'?"),
        })
    }

    /// Calls `read` one level deeper; fails if that is too deep.
    pub fn deeper<T>(&mut self, read: impl FnOnce(&mut Self) -> Result<T>) -> Result<T> {
        self.depth += 1;
        if self.depth > DEEPEST {
            return refuse(format!("it goes deeper than {DEEPEST}"));
        }
        let made = read(self)?;
        self.depth -= 1;
        Ok(made)
    }

    fn count_operator(&mut self) -> Result<()> {
        self.operators += 1;
        match self.operators > MOST_OPERATORS {
            true => refuse(format!("it has more than {MOST_OPERATORS} operators")),
            false => Ok(()),
        }
    }

    pub fn choice(&mut self) -> Result<Expression> {
        let condition = self.or()?;
        if !self.takes("?") {
            return Ok(condition);
        }
        self.deeper(|parser| {
            let first = parser.choice()?;
            parser.expect(":")?;
            let second = parser.choice()?;
            Ok(Expression::Choice(condition.into(), first.into(), second.into()))
        })
    }

    fn or(&mut self) -> Result<Expression> {
        let mut made = self.and()?;
        while self.takes("||") {
            self.count_operator()?;
            made = Expression::Or(made.into(), self.and()?.into());
        }
        Ok(made)
    }

    fn and(&mut self) -> Result<Expression> {
        let mut made = self.binary(0)?;
        while self.takes("&&") {
            self.count_operator()?;
            made = Expression::And(made.into(), self.binary(0)?.into());
        }
        Ok(made)
    }

    /// Parses operators of this precedence and higher.
    fn binary(&mut self, rank: usize) -> Result<Expression> {
        let Some(known) = RANKS.get(rank) else { return self.unary() };
        let mut made = self.binary(rank + 1)?;
        while let Some(&(_, operator)) = known.iter().find(|(sign, _)| self.is_next(sign)) {
            self.at += 1;
            self.count_operator()?;
            made = Expression::Binary(operator, made.into(), self.binary(rank + 1)?.into());
        }
        Ok(made)
    }

    /// Parses an operand with its prefixes. These are collected in a loop, not by recursion, since
    /// there may be many.
    fn unary(&mut self) -> Result<Expression> {
        let mut prefixes = Vec::new();
        let operand = loop {
            let prefix = match self.next() {
                Some(Token::Sign("*")) => Prefix::Follow,
                Some(Token::Sign("&")) => Prefix::Address,
                Some(Token::Sign("-")) => Prefix::Minus,
                Some(Token::Sign("+")) => Prefix::Plus,
                Some(Token::Sign("!")) => Prefix::Not,
                Some(Token::Sign("~")) => Prefix::Complement,
                Some(Token::Sign("--")) => {
                    prefixes.push(Prefix::Minus);
                    Prefix::Minus
                }
                Some(Token::Sign("&&")) => return Err(self.unexpected_token()),
                Some(Token::Name(name)) if name == b"sizeof" => {
                    self.at += 1;
                    if !self.is_cast(true) {
                        prefixes.push(Prefix::Size);
                        continue;
                    }
                    break Expression::SizeOf(self.type_in_brackets()?);
                }
                Some(Token::Sign("(")) if self.is_cast(false) => {
                    prefixes.push(Prefix::Cast(self.type_in_brackets()?));
                    continue;
                }
                _ => break self.postfix()?,
            };
            self.at += 1;
            prefixes.push(prefix);
        };
        Ok(match prefixes.is_empty() {
            true => operand,
            false => Expression::Prefixes(prefixes, operand.into()),
        })
    }

    fn type_in_brackets(&mut self) -> Result<TypeName> {
        self.expect("(")?;
        let made = self.type_name()?;
        self.expect(")")?;
        Ok(made)
    }

    /// Whether a type in brackets is next. A single name is one if there is a type and no value of
    /// this name, or if an operand follows, which is not needed after `sizeof`.
    fn is_cast(&self, is_size: bool) -> bool {
        let (Some(Token::Sign("(")), Some(Token::Name(first))) = (self.next(), self.ahead(1))
        else {
            return false;
        };
        if TYPE_WORDS.contains(&&first[..]) {
            return true;
        }
        let mut end = 2;
        while matches!(self.ahead(end), Some(Token::Name(_))) {
            end += 1;
        }
        if end > 2 {
            return true;
        }
        let is_known = || !self.names.is_symbol(first) && self.names.is_type(first);
        match (self.ahead(2), self.ahead(3)) {
            (Some(Token::Sign("*")), Some(Token::Sign(")" | "*"))) => true,
            (Some(Token::Sign("*")), Some(Token::Name(word))) if word == b"const" => true,
            (Some(Token::Sign("(" | "[")), Some(_)) => is_known(),
            (Some(Token::Sign(")")), _) if is_size => is_known(),
            (Some(Token::Sign(")")), Some(Token::Sign("+" | "-" | "*" | "&" | "("))) => is_known(),
            (Some(Token::Sign(")")), Some(Token::Sign("~" | "!"))) => true,
            (Some(Token::Sign(")")), Some(Token::Sign(_)) | None) => false,
            (Some(Token::Sign(")")), Some(_)) => true,
            _ => false,
        }
    }

    fn postfix(&mut self) -> Result<Expression> {
        let operand = self.primary()?;
        let mut steps = Vec::new();
        loop {
            if self.takes(".") || self.takes("->") {
                match self.take()? {
                    Token::Name(name) | Token::QuotedName(name) => {
                        steps.push(Postfix::Member(name))
                    }
                    _ => {
                        self.at -= 1;
                        return refuse(format!("a member is wanted before '{}'", self.rest()));
                    }
                }
            } else if self.takes("[") {
                steps.push(Postfix::Element(self.deeper(Self::choice)?));
                self.expect("]")?;
            } else {
                break;
            }
        }
        Ok(match steps.is_empty() {
            true => operand,
            false => Expression::Steps(operand.into(), steps),
        })
    }

    fn primary(&mut self) -> Result<Expression> {
        match self.take()? {
            Token::Whole(literal) => Ok(Expression::Whole(literal)),
            Token::Point(number, of) => Ok(Expression::Point(number, of)),
            Token::Character(code) => Ok(Expression::Character(code)),
            Token::Name(name) | Token::QuotedName(name) => Ok(Expression::Name(name)),
            Token::Register(name) => Ok(Expression::Register(name)),
            Token::Sign("(") => {
                let made = self.deeper(Self::choice)?;
                self.expect(")")?;
                Ok(made)
            }
            Token::Sign(sign) => refuse(format!("'{sign}' is no operand")),
        }
    }
}
