//! Types of C as records that refer to each other by number, before a dictionary is made of them.

use crate::declared::SourceFiles;
use ahash::AHasher;
use std::borrow::Cow;
use std::hash::{Hash, Hasher};

/// A name, usually borrowed from the debug information.
pub type Name<'a> = Cow<'a, [u8]>;

/// The kinds of CTF with their numbers, and `Atomic`, which CTF does not have.
#[derive(Clone, Copy, Debug, PartialEq, Eq, Hash)]
#[repr(u8)]
pub enum Kind {
    /// An unknown kind.
    Unknown,
    /// An integer.
    Integer,
    /// A floating-point number.
    Float,
    /// A pointer.
    Pointer,
    /// An array.
    Array,
    /// A function type.
    Function,
    /// A struct.
    Struct,
    /// A union.
    Union,
    /// An enum.
    Enum,
    /// A forward declaration of a struct, union or enum.
    Forward,
    /// A typedef.
    Typedef,
    /// `volatile`.
    Volatile,
    /// `const`.
    Const,
    /// `restrict`.
    Restrict,
    /// `_Atomic`, which CTF does not have.
    Atomic,
}

impl Kind {
    /// The kind with a number in CTF.
    pub fn of_number(number: u16) -> Option<Kind> {
        Some(match number {
            0 => Kind::Unknown,
            1 => Kind::Integer,
            2 => Kind::Float,
            3 => Kind::Pointer,
            4 => Kind::Array,
            5 => Kind::Function,
            6 => Kind::Struct,
            7 => Kind::Union,
            8 => Kind::Enum,
            9 => Kind::Forward,
            10 => Kind::Typedef,
            11 => Kind::Volatile,
            12 => Kind::Const,
            13 => Kind::Restrict,
            _ => return None,
        })
    }

    /// The kind that a forward declares, by its number; a struct for other numbers.
    pub fn of_forward(number: u64) -> Kind {
        match number {
            7 => Kind::Union,
            8 => Kind::Enum,
            _ => Kind::Struct,
        }
    }

    /// The name of the kind in the protocol.
    pub fn name(self) -> &'static str {
        match self {
            Kind::Unknown => "unknown",
            Kind::Integer => "integer",
            Kind::Float => "float",
            Kind::Pointer => "pointer",
            Kind::Array => "array",
            Kind::Function => "function",
            Kind::Forward => "forward",
            Kind::Typedef => "typedef",
            Kind::Atomic => "atomic",
            tagged => tagged.word(),
        }
    }

    /// Whether the kind has members.
    pub fn is_aggregate(self) -> bool {
        matches!(self, Kind::Struct | Kind::Union)
    }

    /// Whether the kind is a qualifier.
    pub fn is_qualifier(self) -> bool {
        matches!(self, Kind::Volatile | Kind::Const | Kind::Restrict | Kind::Atomic)
    }

    /// The keyword of C; empty if there is none.
    pub fn word(self) -> &'static str {
        match self {
            Kind::Struct => "struct",
            Kind::Union => "union",
            Kind::Enum => "enum",
            Kind::Volatile => "volatile",
            Kind::Const => "const",
            Kind::Restrict => "restrict",
            _ => "",
        }
    }
}

/// How an integer or a float is stored.
#[derive(Clone, Copy, Debug, Default, PartialEq, Eq, Hash)]
pub struct Encoding {
    /// For an integer, a sum of 1 (signed), 2 (character) and 4 (boolean); for a float, the number
    /// of its encoding in CTF.
    pub flags: u8,
    /// The offset of the value in its storage, in bits.
    pub offset: u8,
    /// The width of the value, in bits.
    pub bits: u64,
}

impl Encoding {
    /// Decodes a word of CTF: flags, offset and bits, the highest byte first.
    pub fn of_word(word: u32) -> Encoding {
        let [low, high, offset, flags] = word.to_le_bytes();
        Encoding { flags, offset, bits: u16::from_le_bytes([low, high]).into() }
    }
}

/// A member of a struct or union.
#[derive(Clone, Debug, PartialEq, Eq, Hash)]
pub struct Member<'a> {
    /// Its name; empty if it has none.
    pub name: Name<'a>,
    /// The number of its type; 0 is none.
    pub of: u32,
    /// Its offset in bits.
    pub offset: u64,
    /// The width in bits, for a bit-field.
    pub width: Option<u16>,
}

/// An enumerator of an enum.
#[derive(Clone, Debug, PartialEq, Eq, Hash)]
pub struct Enumerator<'a> {
    /// Its name; empty if it has none.
    pub name: Name<'a>,
    /// Its value.
    pub value: i128,
}

/// The list that a record has.
#[derive(Clone, Debug, Default, PartialEq, Eq, Hash)]
pub enum Parts<'a> {
    /// No list.
    #[default]
    None,
    /// The types of a function's arguments.
    Arguments(Box<[u32]>),
    /// The members of a struct or union.
    Members(Box<[Member<'a>]>),
    /// The enumerators of an enum.
    Values(Box<[Enumerator<'a>]>),
}

/// A type.
#[derive(Clone, Debug, PartialEq, Eq, Hash)]
pub struct Record<'a> {
    /// Its kind.
    pub kind: Kind,
    /// The kind that a forward declares; for other types, their own kind.
    pub tag: Kind,
    /// Whether look-ups by name find it.
    pub root: bool,
    /// Whether more arguments may follow.
    pub varargs: bool,
    /// The number of the type that it points to, renames, qualifies, returns or has as elements; 0
    /// is none.
    pub of: u32,
    /// The type of an array's index.
    pub index: u32,
    /// Its size in bytes, if the record has one.
    pub size: u64,
    /// The number of elements of an array.
    pub elements: u64,
    /// How an integer or a float is stored.
    pub encoding: Encoding,
    /// Its name; empty if it has none.
    pub name: Name<'a>,
    /// Its members, enumerators or arguments.
    pub parts: Parts<'a>,
}

impl<'a> Record<'a> {
    /// A record with a kind and a name, and nothing else.
    pub fn new(kind: Kind, name: Name<'a>) -> Record<'a> {
        Record {
            kind,
            tag: kind,
            root: true,
            varargs: false,
            of: 0,
            index: 0,
            size: 0,
            elements: 0,
            encoding: Encoding::default(),
            name,
            parts: Parts::None,
        }
    }

    /// A record for a type that is not known yet.
    pub fn unknown() -> Record<'a> {
        Record::new(Kind::Unknown, Cow::Borrowed(b""))
    }

    /// The arguments; empty unless it is a function.
    pub fn arguments(&self) -> &[u32] {
        match &self.parts {
            Parts::Arguments(listed) => listed,
            _ => &[],
        }
    }

    /// The members; empty unless it is a struct or union.
    pub fn members(&self) -> &[Member<'a>] {
        match &self.parts {
            Parts::Members(listed) => listed,
            _ => &[],
        }
    }

    /// The enumerators; empty unless it is an enum.
    pub fn values(&self) -> &[Enumerator<'a>] {
        match &self.parts {
            Parts::Values(listed) => listed,
            _ => &[],
        }
    }

    /// The numbers of the types that it refers to, including 0.
    pub fn references(&self) -> impl Iterator<Item = u32> + '_ {
        [self.of, self.index]
            .into_iter()
            .chain(self.arguments().iter().copied())
            .chain(self.members().iter().map(|member| member.of))
    }

    /// Maps the number of each type that it refers to.
    pub fn renumber(&mut self, mut to: impl FnMut(u32) -> u32) {
        self.of = to(self.of);
        self.index = to(self.index);
        match &mut self.parts {
            Parts::Arguments(listed) => listed.iter_mut().for_each(|n| *n = to(*n)),
            Parts::Members(listed) => listed.iter_mut().for_each(|one| one.of = to(one.of)),
            _ => {}
        }
    }

    /// A copy with mapped numbers.
    pub fn with_numbers(&self, to: impl FnMut(u32) -> u32) -> Record<'a> {
        let mut made = self.clone();
        made.renumber(to);
        made
    }

    /// Whether it is a forward declaration.
    pub fn is_forward(&self) -> bool {
        self.kind == Kind::Forward
    }

    /// Whether it is a struct or union with a name. In C each cycle of types contains one.
    pub fn is_named_aggregate(&self) -> bool {
        self.kind.is_aggregate() && !self.name.is_empty()
    }

    /// A hash of the record without the types that it refers to.
    pub fn shape(&self) -> u64 {
        let mut hasher = AHasher::new_with_keys(1, 2);
        self.hash_shape(&mut hasher);
        hasher.finish()
    }

    /// Hashes the record without the types that it refers to.
    pub fn hash_shape(&self, hasher: &mut impl Hasher) {
        let parts = (self.arguments().len(), self.members().len());
        (self.kind, self.tag, self.varargs, self.size, self.elements).hash(hasher);
        (self.encoding, &self.name, self.values(), parts).hash(hasher);
        for one in self.members() {
            (&one.name, one.offset, one.width).hash(hasher);
        }
    }

    /// Whether two records differ in nothing but the types that they refer to, and whether look-ups
    /// find them.
    pub fn has_shape_of(&self, other: &Record<'_>) -> bool {
        (self.kind, self.tag, self.varargs, self.size, self.elements, self.encoding)
            == (other.kind, other.tag, other.varargs, other.size, other.elements, other.encoding)
            && is_same(&self.name, &other.name)
            && self.values() == other.values()
            && self.arguments().len() == other.arguments().len()
            && self.members().len() == other.members().len()
            && self.members().iter().zip(other.members()).all(|(one, two)| {
                one.offset == two.offset && one.width == two.width && is_same(&one.name, &two.name)
            })
    }

    /// Its name as C has it, with struct, union or enum.
    pub fn tag_name(&self) -> String {
        let name = String::from_utf8_lossy(&self.name);
        match self.tag.word() {
            "" => name.into_owned(),
            _ if !matches!(self.kind, Kind::Struct | Kind::Union | Kind::Enum | Kind::Forward) => {
                name.into_owned()
            }
            word if name.is_empty() => format!("{word} (anon)"),
            word => format!("{word} {name}"),
        }
    }
}

/// Whether two names are equal. Usually they are at the same address.
pub fn is_same(one: &[u8], other: &[u8]) -> bool {
    std::ptr::eq(one, other) || one == other
}

/// The types of a file, numbered from 1, and the types of its symbols.
#[derive(Clone, Default)]
pub struct Table<'a> {
    /// The types; the first has number 1.
    pub records: Vec<Record<'a>>,
    /// The type of each considered object; 0 if it is not known.
    pub objects: Vec<u32>,
    /// The record of each considered function; `None` if it is not known.
    pub functions: Vec<Option<Record<'a>>>,
    /// The parts of the source that the types do not represent, one line for each loss.
    pub losses: Vec<String>,
    /// Whether pointers have 4 bytes, and not 8.
    pub is_ilp32: bool,
    /// The labels of a dictionary, each with the number of the last type that it covers.
    pub labels: Vec<(Name<'a>, u32)>,
    /// The number of the parent's types, which come first; they are of an unknown kind if the
    /// parent is missing.
    pub bases: u32,
    /// The name of the parent; empty if it has none.
    pub parent_name: Name<'a>,
    /// The label of the parent.
    pub parent_label: Name<'a>,
    /// Whether it refers to types of a parent that is missing.
    pub lacks_parent: bool,
    /// Whether some names are in the strings of its ELF file.
    pub has_outer_names: bool,
    /// Whether types were left out because a dictionary has no room for them.
    pub is_cut: bool,
    /// The source files that define the types, if they were asked for.
    pub sources: SourceFiles,
}

impl<'a> Table<'a> {
    /// The type with a number.
    pub fn get(&self, number: u32) -> &Record<'a> {
        &self.records[number as usize - 1]
    }

    /// The number of types.
    pub fn len(&self) -> u32 {
        self.records.len() as u32
    }

    /// Whether there are no types.
    pub fn is_empty(&self) -> bool {
        self.records.is_empty()
    }

    /// Adds a type. Returns its number.
    pub fn add(&mut self, record: Record<'a>) -> u32 {
        self.records.push(record);
        self.len()
    }

    /// Follows typedefs and qualifiers; 0 if they form a cycle.
    pub fn resolve(&self, mut number: u32) -> u32 {
        for _ in 0..self.records.len() {
            if number == 0 {
                return 0;
            }
            let record = self.get(number);
            if record.kind != Kind::Typedef && !record.kind.is_qualifier() {
                return number;
            }
            number = record.of;
        }
        0
    }

    /// The types of symbols.
    pub fn symbol_roots(&self) -> Vec<u32> {
        let told = self.functions.iter().flatten().flat_map(Record::references);
        self.objects.iter().copied().chain(told).filter(|&n| n != 0).collect()
    }

    /// For each number, including 0, whether one of the roots leads to it.
    pub fn reachable(&self, roots: impl IntoIterator<Item = u32>) -> Vec<bool> {
        let mut seen = vec![false; self.records.len() + 1];
        let mut todo: Vec<u32> = roots.into_iter().filter(|&root| root != 0).collect();
        while let Some(number) = todo.pop() {
            if !std::mem::replace(&mut seen[number as usize], true) {
                todo.extend(self.get(number).references().filter(|&n| n != 0 && !seen[n as usize]));
            }
        }
        seen
    }

    /// Keeps these types in this order, without labels and without a parent. Each reference, also
    /// of a symbol, is mapped by `to`. A function is dropped if a type in it is left out.
    pub fn choose(&mut self, order: &[u32], to: &[u32]) {
        let is_same_order = (0..).zip(to).all(|(n, &to)| n == to);
        let to = |n: u32| to[n as usize];
        self.labels.clear();
        self.bases = 0;
        self.parent_name = Cow::Borrowed(b"");
        self.parent_label = Cow::Borrowed(b"");
        self.arrange(order);
        if is_same_order {
            return;
        }
        self.records.iter_mut().for_each(|record| record.renumber(to));
        self.objects.iter_mut().for_each(|n| *n = to(*n));
        for told in &mut self.functions {
            if let Some(function) = told {
                if function.references().any(|n| n != 0 && to(n) == 0) {
                    *told = None;
                } else {
                    function.renumber(to);
                }
            }
        }
    }

    /// Puts the records with these numbers into this order. No number may occur twice.
    fn arrange(&mut self, order: &[u32]) {
        if order.is_sorted() {
            let (mut number, mut next) = (0, order.iter().peekable());
            self.records.retain(|_| {
                number += 1;
                next.next_if_eq(&&number).is_some()
            });
            return;
        }
        let mut old: Vec<Option<Record>> = self.records.drain(..).map(Some).collect();
        let taken = |&n: &u32| old[n as usize - 1].take().expect("a number stands here once");
        self.records.extend(order.iter().map(taken));
    }

    /// Keeps only these types, in this order. References to others become 0.
    pub fn keep(&mut self, order: &[u32]) {
        let mut to = vec![0; self.records.len() + 1];
        for (place, &number) in order.iter().enumerate() {
            to[number as usize] = place as u32 + 1;
        }
        self.choose(order, &to);
    }
}
