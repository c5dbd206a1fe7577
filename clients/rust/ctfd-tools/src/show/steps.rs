//! Operators that lead from one operand to another: dereferences, members, elements, addresses and
//! casts.

use super::operand::{Operand, Scalar};
use super::reading::Leaf;
use super::target::Target;
use super::value_type::{pointer_size, Shape, ValueType, DOUBLE_ENCODING, SINGLE};
use crate::types::catalog::Number as TypeNumber;
use crate::types::text::printable;
use ctfd_read::error::{refuse, Error, Result};
use ctfd_read::nearest::suggestion;

/// A number with its type.
type Number = (ValueType, Scalar);

impl Target<'_> {
    /// The value of an operand: a number or pointer, read from memory. An array or function becomes
    /// a pointer.
    pub fn rvalue(&self, operand: &Operand) -> Result<Number> {
        let (of, address, bit) = match operand {
            Operand::Number { of, value } => return Ok((of.clone(), *value)),
            Operand::Code { .. } | Operand::Untyped { .. } => {
                return self.rvalue(&self.address_of(operand)?);
            }
            Operand::Memory { of, address, bit } => (of, *address, *bit),
        };
        let pointer = |to: ValueType| Ok((to.pointer(), Scalar::Whole(address.into())));
        match self.shape(of) {
            Shape::Array(contents, _) => pointer(contents),
            Shape::Function => pointer(of.clone()),
            Shape::Integer(_) | Shape::Enum { .. } | Shape::Pointer(_) | Shape::Float { .. } => {
                Ok((of.clone(), self.scalar(of, address, bit)?))
            }
            _ => refuse(format!("{} is no number and no pointer", self.spelling(of))),
        }
    }

    /// The number in memory.
    fn scalar(&self, of: &ValueType, address: u64, bit: u64) -> Result<Scalar> {
        let memory = self.read(address, self.span(of, bit))?;
        let shape = self.shape(of);
        match (self.leaf(of, &memory, bit), shape) {
            (_, Shape::Integer(integer)) if integer.size > 8 => {
                let spelled = self.spelling(of);
                refuse(format!("{spelled} has more than 64 bits, which is not computed with"))
            }
            (Leaf::Whole(number), _) => Ok(Scalar::Whole(number)),
            (Leaf::Enumerator(_, number), _) => Ok(Scalar::Whole(number.into())),
            (Leaf::Bits(bits), Shape::Float { size: 4, encoding: SINGLE }) => {
                Ok(Scalar::Point(f32::from_bits(bits as u32).into()))
            }
            (Leaf::Bits(bits), Shape::Float { size: 8, encoding: DOUBLE_ENCODING }) => {
                Ok(Scalar::Point(f64::from_bits(bits as u64)))
            }
            (Leaf::Bits(_), _) => {
                let spelled = self.spelling(of);
                refuse(format!("{spelled} is not computed with, but double and float are"))
            }
            _ => refuse("its memory can't be read"),
        }
    }

    /// The value of an integer operand, such as an address or a count.
    pub fn number(&self, operand: &Operand) -> Result<i128> {
        match self.rvalue(operand)?.1 {
            Scalar::Whole(number) => Ok(number),
            Scalar::Point(_) => refuse("a number without a point is wanted there"),
        }
    }

    /// The target of a pointer.
    pub fn dereference(&self, operand: &Operand) -> Result<Operand> {
        if let Operand::Code { .. } = operand {
            return Ok(operand.clone());
        }
        let (of, value) = self.rvalue(operand)?;
        let (Shape::Pointer(to), Scalar::Whole(number)) = (self.shape(&of), value) else {
            return refuse("only a pointer can be followed: cast it, as (TYPE *) EXPR");
        };
        let address = self.wrap_address(number);
        Ok(match self.without_qualifiers(&to) {
            of @ ValueType::Function(_) => Operand::Code { of, address },
            _ => Operand::Memory { of: to, address, bit: 0 },
        })
    }

    /// An address truncated to the size of a pointer.
    pub fn wrap_address(&self, number: i128) -> u64 {
        match pointer_size(self.model) {
            4 => u64::from(number as u32),
            _ => number as u64,
        }
    }

    /// A pointer to an operand in memory.
    pub fn address_of(&self, operand: &Operand) -> Result<Operand> {
        match operand {
            Operand::Code { of, address } => {
                Ok(Operand::of_integer(of.clone().pointer(), (*address).into()))
            }
            Operand::Untyped { address, .. } => {
                Ok(Operand::of_integer(ValueType::VOID.pointer(), (*address).into()))
            }
            Operand::Number { .. } => refuse("only what lies in memory has an address"),
            Operand::Memory { of, bit, .. } if *bit != 0 || self.is_bit_field(of) => {
                refuse("a bit-field has no address")
            }
            Operand::Memory { of, address, .. } => {
                Ok(Operand::of_integer(of.clone().pointer(), (*address).into()))
            }
        }
    }

    /// A member of a struct or union, or of the one that a pointer points to.
    pub fn member(&self, operand: &Operand, name: &[u8]) -> Result<Operand> {
        let mut whole = match operand {
            Operand::Memory { .. } => operand.clone(),
            _ => self.dereference(operand)?,
        };
        if let Operand::Memory { of, .. } = &whole {
            if matches!(self.shape(of), Shape::Pointer(_) | Shape::Array(..)) {
                whole = self.dereference(&whole)?;
            }
        }
        let Operand::Memory { of, address, bit } = &whole else {
            return refuse("a function is no struct and no union");
        };
        let Shape::Aggregate { home, number } = self.shape(of) else {
            return refuse(format!("{} is no struct and no union", self.spelling(of)));
        };
        let (offset, to) = self.field(home, number, name)?;
        let bits = bit + offset;
        let address = self.wrap_address(i128::from(*address) + i128::from(bits / 8));
        Ok(Operand::Memory { of: to, address, bit: bits % 8 })
    }

    /// The offset of a member in bits, and its type; also for members of unnamed members.
    fn field(&self, home: usize, number: TypeNumber, name: &[u8]) -> Result<(u64, ValueType)> {
        let catalog = self.catalog(home);
        if let Some((offset, number)) = catalog.field(number, name) {
            return Ok((offset, ValueType::Dictionary { home, number }));
        }
        let known = self.member_names(home, number);
        let shown = printable(name);
        let near = suggestion(&shown, known.into_iter());
        Err(Error(format!("there is no member named {shown}{near}")))
    }

    /// The names of the members of a struct or union, including those of unnamed members.
    fn member_names(&self, home: usize, number: TypeNumber) -> Vec<String> {
        let catalog = self.catalog(home);
        let (mut made, mut todo) = (Vec::new(), vec![number]);
        while let Some(number) = todo.pop() {
            for part in catalog.members(number) {
                match part.name.is_empty() {
                    true => todo.push(catalog.resolve(part.of)),
                    false => made.push(printable(part.name).into_owned()),
                }
            }
        }
        made
    }

    /// How many bytes a pointer to a type moves by one step.
    pub fn step(&self, to: &ValueType) -> Result<u64> {
        match self.shape(to) {
            Shape::Void | Shape::Function => Ok(1),
            _ => match self.size(to) {
                Some(size) if size != 0 => Ok(size),
                _ => refuse(format!("{} has no size", self.spelling(to))),
            },
        }
    }

    /// A pointer moved by `count` elements; None if the type is no pointer.
    pub fn offset_pointer(
        &self,
        of: &ValueType,
        number: i128,
        count: i128,
    ) -> Result<Option<Operand>> {
        let Shape::Pointer(to) = self.shape(of) else { return Ok(None) };
        let step = i128::from(self.step(&to)?);
        let address = self.wrap_address(number.wrapping_add(count.wrapping_mul(step)));
        Ok(Some(Operand::of_integer(of.clone(), address.into())))
    }

    /// An element of an array, or at a pointer.
    pub fn element(&self, operand: &Operand, index: &Operand) -> Result<Operand> {
        let count = self.number(index)?;
        let (of, value) = self.rvalue(operand)?;
        let pointer = match value {
            Scalar::Whole(number) => self.offset_pointer(&of, number, count)?,
            Scalar::Point(_) => None,
        };
        match pointer {
            Some(pointer) => self.dereference(&pointer),
            None => refuse("only a pointer or an array has elements: cast it, as (TYPE *) EXPR"),
        }
    }

    /// A number or pointer converted to another type.
    pub fn cast(&self, to: &ValueType, operand: &Operand) -> Result<Operand> {
        if let Shape::Float { size, encoding } = self.shape(to) {
            let (_, value) = self.rvalue(operand)?;
            let number = match value {
                Scalar::Whole(number) => number as f64,
                Scalar::Point(number) => number,
            };
            return match (size, encoding) {
                (4, SINGLE) => Ok(point(to, f64::from(number as f32))),
                (8, DOUBLE_ENCODING) => Ok(point(to, number)),
                _ => refuse(format!("there is no cast to {}", self.spelling(to))),
            };
        }
        let (_, value) = self.rvalue(operand)?;
        let number = match value {
            Scalar::Whole(number) => number,
            Scalar::Point(number) => number as i128,
        };
        match self.shape(to) {
            Shape::Integer(integer) if integer.is_boolean => {
                let is_true = value != Scalar::Whole(0) && value != Scalar::Point(0.0);
                Ok(Operand::of_integer(to.clone(), is_true.into()))
            }
            Shape::Integer(integer) if integer.size <= 8 => Ok(Operand::of_integer(
                to.clone(),
                super::reading::sign_extend(number as u128, integer),
            )),
            Shape::Enum { .. } => Ok(Operand::of_integer(to.clone(), (number as i32).into())),
            Shape::Pointer(_) => {
                Ok(Operand::of_integer(to.clone(), self.wrap_address(number).into()))
            }
            _ => refuse(format!(
                "there is no cast to {}: cast to a pointer to it",
                self.spelling(to)
            )),
        }
    }
}

fn point(of: &ValueType, number: f64) -> Operand {
    Operand::Number { of: of.clone(), value: Scalar::Point(number) }
}
