//! How gcc lays out C's types on x86: by the rules of the System V interface, and its own
//! attributes.
//!
//! The layout depends on a type's size, its alignment, and whether it is placed as a number, which
//! i386 aligns less within structs. All is in bytes, unless noted.

/// Flags of an integer's encoding.
pub const SIGNED: u8 = 1;
pub const CHARACTER: u8 = 2;
pub const BOOLEAN: u8 = 4;
/// The alignment of the attribute `aligned` without a number, in bits.
const BIGGEST: u128 = 8 * 16;
/// The greatest alignment of numbers within structs on i386, in bits.
const EASED: u128 = 32;

/// The size limit of a type; longer types get this size, which no real type has.
const LONGEST: u128 = u128::MAX >> 16;

/// The size and alignment of a type.
#[derive(Clone, Copy, Debug, PartialEq, Eq)]
pub struct Shape {
    pub size: u128,
    pub align: u128,
    /// Whether an attribute sets the alignment.
    pub is_by_user: bool,
    /// Whether the machine handles it as an integer or a double, and it is placed as one.
    pub is_number: bool,
}

impl Shape {
    /// A shape that is no number.
    pub const fn new(size: u128, align: u128) -> Shape {
        Shape { size, align, is_by_user: false, is_number: false }
    }

    /// The shape of a number whose alignment is its size.
    pub const fn number(size: u128) -> Shape {
        Shape { size, align: size, is_by_user: false, is_number: true }
    }

    /// The shape of an array, which is aligned and placed like its elements.
    pub fn times(self, count: u128) -> Shape {
        Shape { size: self.size.saturating_mul(count).min(LONGEST), ..self }
    }
}

/// A base type of the compiler.
#[derive(Clone, Copy, Debug)]
pub struct Basic {
    pub name: &'static str,
    pub shape: Shape,
    /// The flags of an integer; None for a float.
    pub flags: Option<u8>,
}

/// The base types of the compiler.
pub fn basics(is_ilp32: bool) -> Vec<Basic> {
    let long = if is_ilp32 { 4 } else { 8 };
    let character = SIGNED | CHARACTER;
    let mut integers = vec![
        ("char", 1, character),
        ("signed char", 1, character),
        ("unsigned char", 1, CHARACTER),
        ("short int", 2, SIGNED),
        ("short unsigned int", 2, 0),
        ("int", 4, SIGNED),
        ("unsigned int", 4, 0),
        ("long int", long, SIGNED),
        ("long unsigned int", long, 0),
        ("long long int", 8, SIGNED),
        ("long long unsigned int", 8, 0),
        ("_Bool", 1, BOOLEAN),
    ];
    if !is_ilp32 {
        integers.extend([("__int128", 16, SIGNED), ("__int128 unsigned", 16, 0)]);
    }
    let integers = integers.into_iter().map(|(name, size, flags)| Basic {
        name,
        shape: Shape::number(size),
        flags: Some(flags),
    });
    let floats = floats(is_ilp32).into_iter();
    let floats = floats.map(|(name, shape)| Basic { name, shape, flags: None });
    integers.chain(floats).collect()
}

/// The floats. On i386 a double is placed like an integer of its size.
fn floats(is_ilp32: bool) -> Vec<(&'static str, Shape)> {
    let (single, double) = (Shape::new(4, 4), Shape::number(8));
    let long = if is_ilp32 { Shape::new(12, 4) } else { Shape::new(16, 16) };
    let quad = Shape::new(16, 16);
    let mut made = vec![
        ("float", single),
        ("double", double),
        ("long double", long),
        ("complex float", single.times(2)),
        ("complex double", double.times(2)),
        ("complex long double", long.times(2)),
        ("_Float32", single),
        ("_Float64", double),
        ("_Float32x", double),
        ("_Float64x", long),
        ("_Float128", quad),
        ("__float128", quad),
        ("_Decimal32", Shape::new(4, 4)),
        ("_Decimal64", Shape::new(8, 8)),
        ("_Decimal128", quad),
    ];
    if !is_ilp32 {
        made.push(("_Float16", Shape::new(2, 2))); // on i386 gcc has it only with an option
    }
    made
}

/// The shape of a pointer.
pub fn pointer(is_ilp32: bool) -> Shape {
    Shape::number(if is_ilp32 { 4 } else { 8 })
}

/// The shape of an enum: an int; the shortest integer if it is packed; a longer one if needed.
pub fn enumeration(values: impl Iterator<Item = i32> + Clone, is_packed: bool) -> Shape {
    let low = i128::from(values.clone().min().unwrap_or(0));
    let high = i128::from(values.max().unwrap_or(0));
    let sizes: &[u32] = if is_packed { &[1, 2, 4, 8] } else { &[4, 8] };
    let fits = |size: &&u32| {
        let bits = 8 * **size;
        let most = 1i128 << if low < 0 { bits - 1 } else { bits };
        -(1i128 << (bits - 1)) <= low && high < most
    };
    Shape::number(sizes.iter().find(fits).map_or(16, |&size| size.into()))
}

/// A member to place.
#[derive(Clone, Copy, Debug)]
pub struct Field {
    pub is_named: bool,
    pub shape: Shape,
    /// Its width in bits, if it is a bit-field.
    pub width: Option<u64>,
}

/// The attributes of a struct or union.
#[derive(Clone, Copy, Debug, Default)]
pub struct Attributes {
    pub is_union: bool,
    pub is_packed: bool,
    /// The alignment that an attribute sets.
    pub aligned: Option<u128>,
}

/// The layout of a struct or union.
#[derive(Clone, Debug)]
pub struct Laid {
    /// The offset of each member in bits.
    pub places: Vec<u128>,
    /// The shape of the whole.
    pub shape: Shape,
}

/// Lays out a struct or union.
pub fn lay(fields: &[Field], is_ilp32: bool, attributes: Attributes) -> Laid {
    let align = 8 * attributes.aligned.unwrap_or(1);
    let mut growing = Growing {
        is_ilp32,
        attributes,
        align,
        known: align.max(BIGGEST),
        is_by_user: attributes.aligned.is_some(),
        at: 0,
        end: 0,
    };
    let places = fields.iter().map(|field| growing.place(field)).collect();
    Laid { places, shape: growing.shape() }
}

/// A struct or union while members are added. All numbers are in bits.
struct Growing {
    is_ilp32: bool,
    attributes: Attributes,
    align: u128,
    known: u128,
    is_by_user: bool,
    at: u128,
    end: u128,
}

/// The alignment of a member in bits, whether an attribute set it, and whether the member is placed
/// bit by bit.
struct Alignment {
    align: u128,
    is_by_user: bool,
    is_bits: bool,
}

impl Growing {
    /// Places a member, and returns its offset.
    fn place(&mut self, field: &Field) -> u128 {
        let is_packed = self.attributes.is_packed;
        if self.attributes.is_union {
            self.at = 0;
        }
        let Alignment { align, is_by_user, is_bits } = self.alignment(field);
        self.is_by_user |= is_by_user;
        self.at = self.at.div_ceil(align) * align;
        if let (true, false, Some(width @ 1..)) = (is_bits, is_packed, field.width) {
            let unit = self.alignment_in_struct(field.shape);
            let units = (self.at % unit + u128::from(width)).div_ceil(unit);
            if units > 8 * field.shape.size / unit {
                self.round_within(unit);
            }
        }
        let place = self.at;
        self.at += field.width.map_or(8 * field.shape.size, u128::from);
        self.end = self.end.max(self.at);
        self.raise(field, align);
        place
    }

    /// Goes to the next unit of a bit-field. gcc counts units from the last multiple of the
    /// greatest alignment that it knows for offsets, which differs if a type's alignment is
    /// greater.
    fn round_within(&mut self, align: u128) {
        let begins = self.at - self.at % self.known;
        self.at = begins + (self.at - begins).div_ceil(align) * align;
    }

    /// The alignment of a member. A bit-field as wide as an integer, at an offset that is aligned
    /// for it, is placed like that integer.
    fn alignment(&self, field: &Field) -> Alignment {
        let shape = field.shape;
        let (mut align, mut is_by_user, mut is_bits) = (1, false, false);
        let mut is_packed = self.attributes.is_packed;
        match field.width {
            None | Some(0) => {
                is_packed &= field.width.is_none();
                if 8 * shape.align > align {
                    (align, is_by_user) = (8 * shape.align, shape.is_by_user);
                }
            }
            Some(width) => {
                let is_whole = matches!(width, 8 | 16 | 32 | 64 | 128);
                let whole = if is_whole { u128::from(width) } else { 0 };
                is_bits = !is_whole || whole > 8 && is_packed || self.at % whole != 0;
                if !is_bits {
                    align = align.max(whole);
                }
            }
        }
        if is_packed {
            align = align.min(8);
        } else if !is_by_user {
            align = self.ease(shape, align);
        }
        Alignment { align, is_by_user, is_bits }
    }

    /// Raises the alignment of the whole for a member. A bit-field raises it only if it has a name,
    /// and then by its type.
    fn raise(&mut self, field: &Field, align: u128) {
        if field.width.is_none() {
            self.align = self.align.max(align);
        } else if field.is_named {
            let unit = self.alignment_in_struct(field.shape);
            let unit = if self.attributes.is_packed { unit.min(8) } else { unit };
            self.align = self.align.max(align).max(unit);
            self.is_by_user |= field.shape.is_by_user;
        }
    }

    fn alignment_in_struct(&self, shape: Shape) -> u128 {
        let align = 8 * shape.align;
        match shape.is_by_user {
            true => align,
            false => self.ease(shape, align),
        }
    }

    /// The alignment within structs: i386 aligns numbers to no more than 4 bytes there.
    fn ease(&self, shape: Shape, align: u128) -> u128 {
        match self.is_ilp32 && shape.is_number {
            true => align.min(EASED),
            false => align,
        }
    }

    fn shape(&self) -> Shape {
        let align = self.align / 8;
        let size = self.end.div_ceil(8).div_ceil(align) * align;
        let limit = if self.is_ilp32 { 8 } else { 16 };
        let is_number = matches!(size, 1 | 2 | 4 | 8 | 16) && size <= limit;
        Shape { size, align, is_by_user: self.is_by_user, is_number }
    }
}
