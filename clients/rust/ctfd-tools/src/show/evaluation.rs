//! Evaluates expressions in an address space.

use super::arithmetic::Sign;
use super::operand::{Operand, Scalar};
use super::parser::{parse, parse_type, Names};
use super::syntax::{Derivation, Expression, Postfix, Prefix, TypeName};
use super::target::Target;
use super::tokens::Literal;
use super::value_type::{
    long_integer, Basic, Shape, Signature, ValueType, CHAR, INT, LONG_LONG, UNSIGNED,
    UNSIGNED_LONG_LONG,
};
use crate::types::text::printable;
use ctfd_read::error::{refuse, Result};

impl Names for Target<'_> {
    fn is_symbol(&self, name: &[u8]) -> bool {
        self.has_symbol(name)
    }

    fn is_type(&self, name: &[u8]) -> bool {
        Target::is_type(self, name)
    }
}

impl Target<'_> {
    /// Evaluates an expression.
    pub fn evaluate(&self, expression: &[u8]) -> Result<Operand> {
        self.value_of(&parse(expression, self)?)
    }

    /// The type with a name.
    pub fn type_of(&self, name: &[u8]) -> Result<ValueType> {
        self.type_of_name(&parse_type(name, self)?)
    }

    fn value_of(&self, expression: &Expression) -> Result<Operand> {
        match expression {
            Expression::Whole(literal) => {
                Ok(Operand::of_integer(self.type_of_literal(*literal), literal.value.into()))
            }
            Expression::Point(number, of) => {
                Ok(Operand::Number { of: (*of).into(), value: Scalar::Point(*number) })
            }
            Expression::Character(code) => Ok(Operand::of_integer(CHAR, *code)),
            Expression::Name(name) => self.symbol(name),
            Expression::Register(name) => refuse(format!(
                "${}: registers are not read, since nothing is stopped for them: gdb has them",
                printable(name)
            )),
            Expression::SizeOf(name) => self.size_operand(&self.type_of_name(name)?),
            Expression::Prefixes(prefixes, operand) => self.apply_prefixes(prefixes, operand),
            Expression::Steps(operand, steps) => {
                steps.iter().try_fold(self.value_of(operand)?, |operand, step| match step {
                    Postfix::Member(name) => self.member(&operand, name),
                    Postfix::Element(index) => self.element(&operand, &self.value_of(index)?),
                })
            }
            Expression::Binary(operator, left, right) => {
                self.binary(*operator, &self.value_of(left)?, &self.value_of(right)?)
            }
            Expression::And(left, right) => {
                let is_so = self.truth(left)? && self.truth(right)?;
                Ok(Operand::of_integer(INT, is_so.into()))
            }
            Expression::Or(left, right) => {
                let is_so = self.truth(left)? || self.truth(right)?;
                Ok(Operand::of_integer(INT, is_so.into()))
            }
            Expression::Choice(condition, first, second) => {
                self.value_of(if self.truth(condition)? { first } else { second })
            }
        }
    }

    fn truth(&self, expression: &Expression) -> Result<bool> {
        self.is_true(&self.value_of(expression)?)
    }

    /// Applies prefixes to an operand, the last one first.
    fn apply_prefixes(&self, prefixes: &[Prefix], operand: &Expression) -> Result<Operand> {
        prefixes.iter().rev().try_fold(self.value_of(operand)?, |operand, prefix| match prefix {
            Prefix::Follow => self.dereference(&operand),
            Prefix::Address => self.address_of(&operand),
            Prefix::Minus => self.unary_sign(&operand, Sign::Minus),
            Prefix::Plus => self.unary_sign(&operand, Sign::Plus),
            Prefix::Complement => self.unary_sign(&operand, Sign::Complement),
            Prefix::Not => Ok(Operand::of_integer(INT, (!self.is_true(&operand)?).into())),
            Prefix::Cast(name) => self.cast(&self.type_of_name(name)?, &operand),
            Prefix::Size => match &operand {
                Operand::Memory { of, .. } if self.is_bit_field(of) => {
                    refuse("a bit-field has no size of its own")
                }
                Operand::Memory { of, .. }
                | Operand::Number { of, .. }
                | Operand::Code { of, .. } => self.size_operand(of),
                Operand::Untyped { why, .. } => refuse(why.clone()),
            },
        })
    }

    fn size_operand(&self, of: &ValueType) -> Result<Operand> {
        let size = match self.shape(of) {
            Shape::Void | Shape::Function => Some(1), // as in gdb and gcc
            _ => self.size(of),
        };
        match size {
            Some(size) => Ok(Operand::of_integer(long_integer(self.model, false), size.into())),
            None => refuse(format!("{} has no size", self.spelling(of))),
        }
    }

    /// The first of C's types that can hold a literal.
    fn type_of_literal(&self, literal: Literal) -> Basic {
        let Literal { value, is_decimal, is_unsigned, longs } = literal;
        let (signed, unsigned) = (long_integer(self.model, true), long_integer(self.model, false));
        let may_be_unsigned = is_unsigned || !is_decimal;
        let candidates = [
            (INT, 0, 31, false),
            (UNSIGNED, 0, 32, true),
            (signed, 1, 8 * signed.size - 1, false),
            (unsigned, 1, 8 * signed.size, true),
            (LONG_LONG, 2, 63, false),
        ];
        let fits = |&&(_, rank, bits, without_sign): &&(Basic, usize, u64, bool)| {
            let is_allowed = if without_sign { may_be_unsigned } else { !is_unsigned };
            rank >= longs && is_allowed && (bits == 64 || value >> bits == 0)
        };
        candidates.iter().find(fits).map_or(UNSIGNED_LONG_LONG, |candidate| candidate.0)
    }

    fn type_of_name(&self, name: &TypeName) -> Result<ValueType> {
        let base = self.find(&name.base)?;
        name.derived.iter().try_fold(base, |of, step| {
            Ok(match step {
                Derivation::Pointer => of.pointer(),
                Derivation::Qualifier(word) => of.with_qualifier(word),
                Derivation::Array(count) => of.array(*count),
                Derivation::Function { arguments, is_open } => {
                    let arguments = arguments.iter().map(|one| self.type_of_name(one));
                    let arguments = arguments.collect::<Result<Vec<ValueType>>>()?;
                    Signature { returns: of, arguments, is_open: *is_open }.into()
                }
            })
        })
    }
}
