//! Operators on numbers and pointers, whose results have the types that gdb gives them.

use super::operand::{Operand, Scalar};
use super::syntax::Operator;
use super::target::Target;
use super::value_type::{
    long_integer, Basic, Class, Shape, ValueType, DOUBLE, FLOAT, INT, LONG_LONG, UNSIGNED,
    UNSIGNED_LONG_LONG,
};
use ctfd_read::error::{refuse, Result};

/// An operand for arithmetic.
enum Term {
    Whole(Basic, i128),
    Point(Basic, f64),
    Pointer(ValueType, i128),
}

impl Target<'_> {
    /// The result of an operator.
    pub fn binary(&self, operator: Operator, left: &Operand, right: &Operand) -> Result<Operand> {
        if operator == Operator::Repeat {
            return self.values_in_row(left, right);
        }
        let (left, right) = (self.term(left)?, self.term(right)?);
        match (left, right) {
            (Term::Pointer(of, left), Term::Pointer(other, right)) => {
                self.of_pointers(operator, (&of, left), (&other, right))
            }
            (Term::Pointer(of, left), Term::Whole(_, right)) => {
                self.of_pointer(operator, &of, left, right)
            }
            (Term::Whole(_, left), Term::Pointer(of, right)) => match operator {
                Operator::Plus => self.of_pointer(operator, &of, right, left),
                _ => comparison(operator, left, right).map_or_else(no_pointers, Ok),
            },
            (Term::Whole(of, left), Term::Whole(other, right)) => {
                self.of_whole(operator, (of, left), (other, right))
            }
            (Term::Pointer(..), _) | (_, Term::Pointer(..)) => no_pointers(),
            (left, right) => of_points(operator, &left, &right),
        }
    }

    fn term(&self, operand: &Operand) -> Result<Term> {
        let (of, value) = self.rvalue(operand)?;
        match (self.shape(&of), value) {
            (Shape::Pointer(_), Scalar::Whole(number)) => Ok(Term::Pointer(of, number)),
            (_, Scalar::Whole(number)) => Ok(Term::Whole(self.promotion(&of), number)),
            (Shape::Float { size: 4, .. }, Scalar::Point(number)) => Ok(Term::Point(FLOAT, number)),
            (_, Scalar::Point(number)) => Ok(Term::Point(DOUBLE, number)),
        }
    }

    /// The type of an integer operand: at least as wide as `int`.
    fn promotion(&self, of: &ValueType) -> Basic {
        let (size, is_signed) = match self.shape(of) {
            Shape::Integer(integer) => (integer.size, integer.is_signed),
            Shape::Enum { home, number } => {
                let values = self.catalog(home).values(number);
                (4, values.iter().any(|one| one.value < 0))
            }
            _ => (4, true),
        };
        match size {
            0..=3 => INT,
            4 => basic(INT, UNSIGNED, is_signed),
            _ => self.widest(is_signed),
        }
    }

    /// The first type with 64 bits: `long` or `long long`.
    fn widest(&self, is_signed: bool) -> Basic {
        let one = long_integer(self.model, is_signed);
        match one.size {
            8 => one,
            _ => basic(LONG_LONG, UNSIGNED_LONG_LONG, is_signed),
        }
    }

    /// The type of the result of two integers.
    fn common(&self, one: Basic, other: Basic) -> Basic {
        let (first, second) = (is_signed(one), is_signed(other));
        let is_signed = match one.size.cmp(&other.size) {
            std::cmp::Ordering::Greater => first,
            std::cmp::Ordering::Less => second,
            std::cmp::Ordering::Equal => first && second,
        };
        match one.size.max(other.size) {
            8 => self.widest(is_signed),
            _ => basic(INT, UNSIGNED, is_signed),
        }
    }

    fn of_whole(
        &self,
        operator: Operator,
        (one, left): (Basic, i128),
        (other, right): (Basic, i128),
    ) -> Result<Operand> {
        let is_shift = matches!(operator, Operator::Left | Operator::Right);
        let of = if is_shift { one } else { self.common(one, other) };
        let (first, second) =
            (truncate_to(of, left), if is_shift { right } else { truncate_to(of, right) });
        if let Some(found) = comparison(operator, first, second) {
            return Ok(found);
        }
        let value = match operator {
            Operator::Times => first.wrapping_mul(second),
            Operator::Over | Operator::Modulo if second == 0 => {
                return refuse("division by zero");
            }
            Operator::Over => first / second,
            Operator::Modulo => first % second,
            Operator::Plus => first + second,
            Operator::Minus => first - second,
            Operator::Left | Operator::Right => shift(operator, of, first, second)?,
            Operator::BitAnd => first & second,
            Operator::BitOr => first | second,
            _ => first ^ second,
        };
        Ok(Operand::of_integer(of, truncate_to(of, value)))
    }

    fn of_pointer(
        &self,
        operator: Operator,
        of: &ValueType,
        number: i128,
        count: i128,
    ) -> Result<Operand> {
        if let Some(found) = comparison(operator, number, count) {
            return Ok(found);
        }
        let count = match operator {
            Operator::Plus => count,
            Operator::Minus => count.wrapping_neg(),
            _ => return no_pointers(),
        };
        self.offset_pointer(of, number, count)?.map_or_else(no_pointers, Ok)
    }

    fn of_pointers(
        &self,
        operator: Operator,
        (of, left): (&ValueType, i128),
        (other, right): (&ValueType, i128),
    ) -> Result<Operand> {
        if let Some(found) = comparison(operator, left, right) {
            return Ok(found);
        }
        let (Shape::Pointer(to), Shape::Pointer(other), Operator::Minus) =
            (self.shape(of), self.shape(other), operator)
        else {
            return no_pointers();
        };
        let step = self.step(&to)?;
        if step != self.step(&other)? {
            return refuse("the two pointers are to types of other sizes");
        }
        Ok(Operand::of_integer(long_integer(self.model, true), (left - right) / i128::from(step)))
    }

    /// The result of `@`: as many values in a row as `right` says, beginning with `left`, which
    /// must be in memory.
    fn values_in_row(&self, left: &Operand, right: &Operand) -> Result<Operand> {
        let Operand::Memory { of, address, bit: 0 } = left else {
            return refuse("only what lies in memory is followed by more of its kind, as *p@4");
        };
        let count = self.number(right)?;
        let count =
            u64::try_from(count).ok().filter(|count| (1..=u64::from(u32::MAX)).contains(count));
        match count {
            Some(count) if !self.is_bit_field(of) => {
                let of = of.clone().array(count);
                Ok(Operand::Memory { of, address: *address, bit: 0 })
            }
            _ => refuse("behind @ is wanted how many there are, from 1 on"),
        }
    }

    /// Whether a value is not 0.
    pub fn is_true(&self, operand: &Operand) -> Result<bool> {
        let (_, value) = self.rvalue(operand)?;
        Ok(value != Scalar::Whole(0) && value != Scalar::Point(0.0))
    }

    /// The result of `-`, `+` or `~`.
    pub fn unary_sign(&self, operand: &Operand, sign: Sign) -> Result<Operand> {
        match (self.term(operand)?, sign) {
            (Term::Whole(of, number), sign) => {
                let value = match sign {
                    Sign::Minus => -number,
                    Sign::Plus => number,
                    Sign::Complement => !number,
                };
                Ok(Operand::of_integer(of, truncate_to(of, value)))
            }
            (Term::Point(of, number), Sign::Minus) => Ok(point(of, -number)),
            (Term::Point(of, number), Sign::Plus) => Ok(point(of, number)),
            (Term::Pointer(of, number), Sign::Plus) => Ok(Operand::of_integer(of, number)),
            (_, Sign::Complement) => refuse("~ is for whole numbers"),
            _ => no_pointers(),
        }
    }
}

/// A sign before an operand.
#[derive(Clone, Copy, Debug, PartialEq, Eq)]
pub enum Sign {
    /// `-`
    Minus,
    /// `+`
    Plus,
    /// `~`
    Complement,
}

fn no_pointers<T>() -> Result<T> {
    refuse("that is no operator for a pointer: cast it to a number, as (long) EXPR")
}

fn basic(signed: Basic, unsigned: Basic, is_signed: bool) -> Basic {
    if is_signed {
        signed
    } else {
        unsigned
    }
}

fn is_signed(of: Basic) -> bool {
    matches!(of.class, Class::Integer { is_signed: true })
}

/// A number converted to a type; it wraps around if it does not fit.
pub fn truncate_to(of: Basic, number: i128) -> i128 {
    match (of.size, is_signed(of)) {
        (8, true) => (number as i64).into(),
        (8, false) => (number as u64).into(),
        (_, true) => (number as i32).into(),
        (_, false) => (number as u32).into(),
    }
}

/// The result of a comparison; None for another operator.
fn comparison<T: PartialOrd>(operator: Operator, left: T, right: T) -> Option<Operand> {
    let is_so = match operator {
        Operator::Equal => left == right,
        Operator::Other => left != right,
        Operator::Below => left < right,
        Operator::Above => left > right,
        Operator::NotAbove => left <= right,
        Operator::NotBelow => left >= right,
        _ => return None,
    };
    Some(Operand::of_integer(INT, is_so.into()))
}

fn shift(operator: Operator, of: Basic, number: i128, count: i128) -> Result<i128> {
    let width = 8 * i128::from(of.size);
    if !(0..width).contains(&count) {
        return refuse(format!("{} has {width} bits, and is shifted by {count}", of.name));
    }
    Ok(match operator {
        Operator::Left => number << count,
        _ => number >> count,
    })
}

fn point(of: Basic, number: f64) -> Operand {
    let number = if of == FLOAT { f64::from(number as f32) } else { number };
    Operand::Number { of: of.into(), value: Scalar::Point(number) }
}

/// The result of an operator on two numbers, at least one of which is floating-point.
fn of_points(operator: Operator, left: &Term, right: &Term) -> Result<Operand> {
    let of = match (left, right) {
        (Term::Point(one, _), Term::Point(other, _)) if one.size < other.size => *other,
        (Term::Point(one, _), _) | (_, Term::Point(one, _)) => *one,
        _ => DOUBLE,
    };
    let number = |one: &Term| match one {
        Term::Whole(_, number) | Term::Pointer(_, number) => *number as f64,
        Term::Point(_, number) => *number,
    };
    let (first, second) = (number(left), number(right));
    if let Some(found) = comparison(operator, first, second) {
        return Ok(found);
    }
    Ok(point(
        of,
        match operator {
            Operator::Times => first * second,
            Operator::Over => first / second,
            Operator::Plus => first + second,
            Operator::Minus => first - second,
            _ => return refuse("that is an operator for whole numbers"),
        },
    ))
}
