//! Where a function finds its arguments, by the calling convention of x86-64 (System V).
//!
//! CTF has the types of arguments, but not their locations; the convention gives them for the start
//! of a function. On i386 compilers call a file's static functions in ways of their own, and
//! options change how others are called, so no locations are given there.

use crate::types::catalog::{Catalog, Number, Record, Signature};
use ctfd::Kind;
use gimli::write::Expression;
use gimli::{Register, X86_64};
use std::cell::RefCell;
use std::collections::{BTreeMap, HashMap, HashSet};

const INTEGERS: [Register; 6] =
    [X86_64::RDI, X86_64::RSI, X86_64::RDX, X86_64::RCX, X86_64::R8, X86_64::R9];
const VECTORS: [Register; 8] = [
    X86_64::XMM0,
    X86_64::XMM1,
    X86_64::XMM2,
    X86_64::XMM3,
    X86_64::XMM4,
    X86_64::XMM5,
    X86_64::XMM6,
    X86_64::XMM7,
];
const WORD: u64 = 8;
const LONGEST_IN_REGISTERS: u64 = 2 * WORD;
/// The size limit of an argument, so that the offsets of arguments on the stack do not overflow.
const LONGEST: u64 = 1 << 40;
/// The most parts of a struct that are visited. A struct of 16 bytes has fewer bit-fields, but one
/// in a hostile dictionary may have any number.
const MOST_PARTS: usize = 1000;

/// The class of an eightbyte of an argument; of two classes, the later one wins.
#[derive(Clone, Copy, Debug, PartialEq, Eq, PartialOrd, Ord)]
enum Class {
    Vector,
    Integer,
    Memory,
}

/// How a type is passed: the class of each eightbyte, none if it is passed in memory, and its size
/// and alignment on the stack, in bytes.
#[derive(Clone, Debug)]
struct Passage {
    classes: Vec<Class>,
    size: u64,
    align: u64,
}

impl Passage {
    fn new(classes: &[Class], size: u64, align: u64) -> Passage {
        Passage { classes: classes.to_vec(), size, align }
    }

    fn count(&self, class: Class) -> usize {
        self.classes.iter().filter(|&&one| one == class).count()
    }
}

/// The location of an argument at its function's start.
pub enum Place {
    /// In registers, at the start only.
    Registers(Expression),
    /// On the stack, as long as the function runs.
    Stack(Expression),
}

/// How the types of a catalog are passed, with a cache.
pub struct Passing<'c, 'd> {
    catalog: &'c Catalog<'d>,
    known: RefCell<HashMap<Number, Option<Passage>>>,
}

impl<'c, 'd> Passing<'c, 'd> {
    /// An empty cache for a catalog.
    pub fn new(catalog: &'c Catalog<'d>) -> Passing<'c, 'd> {
        Passing { catalog, known: RefCell::new(HashMap::new()) }
    }

    /// The location of each argument; None from the first one on that is not known.
    pub fn places(&self, function: &Signature) -> Vec<Option<Place>> {
        let mut made: Vec<Option<Place>> = self.known_places(function);
        made.resize_with(function.arguments.len(), || None);
        made
    }

    fn known_places(&self, function: &Signature) -> Vec<Option<Place>> {
        let (mut integers, mut vectors) = (&INTEGERS[..], &VECTORS[..]);
        let (mut made, mut stack) = (Vec::new(), 0);
        match self.is_returned_in_memory(function.returns) {
            None => return made,
            Some(true) => integers = &integers[1..],
            Some(false) => {}
        }
        for &argument in &function.arguments {
            let known = self.of(argument).filter(|passed| passed.size <= LONGEST);
            let Some(passed) = known else { break };
            let (own, others) = (passed.count(Class::Integer), passed.count(Class::Vector));
            let fits = own <= integers.len() && others <= vectors.len();
            if fits && !passed.classes.is_empty() {
                let mut next = |class: &Class| {
                    let from = if *class == Class::Integer { &mut integers } else { &mut vectors };
                    let (first, rest) = (from[0], &from[1..]);
                    *from = rest;
                    first
                };
                let taken: Vec<Register> = passed.classes.iter().map(&mut next).collect();
                made.push(Some(Place::Registers(in_registers(&taken, passed.size))));
            } else {
                stack = u64::next_multiple_of(stack, passed.align);
                let mut place = Expression::new();
                place.op_fbreg(stack as i64);
                made.push(Some(Place::Stack(place)));
                stack += passed.size.next_multiple_of(WORD);
            }
        }
        made
    }

    /// How a type is passed; None if that is not known.
    fn of(&self, number: Number) -> Option<Passage> {
        let end = self.catalog.resolve(number);
        if let Some(known) = self.known.borrow().get(&end) {
            return known.clone();
        }
        let found = self.passage_of(end);
        self.known.borrow_mut().insert(end, found.clone());
        found
    }

    /// Whether the caller passes the address of the return value; None if that is not known.
    fn is_returned_in_memory(&self, returned: Number) -> Option<bool> {
        let end = self.catalog.resolve(returned);
        match self.catalog.record(end).is_aggregate() {
            true => self.of(end).map(|passed| passed.classes.is_empty()),
            false => Some(false),
        }
    }

    fn passage_of(&self, end: Number) -> Option<Passage> {
        let record = self.catalog.record(end);
        let size = self.catalog.size(end).unwrap_or(0);
        match record.kind {
            Kind::Array | Kind::Function | Kind::Pointer => {
                Some(Passage::new(&[Class::Integer], WORD, WORD))
            }
            Kind::Integer | Kind::Enum if size > 0 && size <= WORD => {
                Some(Passage::new(&[Class::Integer], size, WORD))
            }
            Kind::Integer if size == 2 * WORD => {
                Some(Passage::new(&[Class::Integer; 2], size, 2 * WORD))
            }
            Kind::Float => of_float(record, size),
            Kind::Struct | Kind::Union if size > 0 => self.of_aggregate(end, size),
            _ => None,
        }
    }

    fn of_aggregate(&self, number: Number, size: u64) -> Option<Passage> {
        if size <= LONGEST_IN_REGISTERS {
            let classes = self.classes(number)?;
            if !classes.values().any(|&one| one == Class::Memory) {
                let class = |place| classes.get(&place).copied().unwrap_or(Class::Vector);
                let listed: Vec<Class> = (0..size.div_ceil(WORD)).map(class).collect();
                return Some(Passage { classes: listed, size, align: WORD });
            }
        }
        Some(Passage { classes: Vec::new(), size, align: self.align(number) })
    }

    /// The class of each eightbyte of a struct, by its offset in eightbytes. None if it is not
    /// known, or if the struct has too many parts.
    fn classes(&self, number: Number) -> Option<BTreeMap<u64, Class>> {
        let mut found = BTreeMap::new();
        let mut waiting = vec![(number, 0u64)];
        for _ in 0..MOST_PARTS {
            let Some((one, offset)) = waiting.pop() else { return Some(found) };
            let end = self.catalog.resolve(one);
            let record = self.catalog.record(end);
            match record.kind {
                Kind::Struct | Kind::Union => {
                    let parts = self.catalog.members(end).iter();
                    let place = |at: u64| offset.saturating_add(at / 8);
                    waiting.extend(parts.map(|part| (part.of, place(part.offset))));
                }
                Kind::Array => {
                    let size = self.catalog.size(record.of)?;
                    if u64::from(record.elements) > LONGEST_IN_REGISTERS {
                        return None;
                    }
                    let elements = 0..u64::from(record.elements);
                    waiting.extend(elements.map(|place| {
                        (record.of, place.saturating_mul(size).saturating_add(offset))
                    }));
                }
                _ => self.add_classes(end, offset, &mut found)?,
            }
        }
        None
    }

    /// Adds the classes of a type that is no struct, union or array. None if they are not known.
    fn add_classes(
        &self,
        number: Number,
        mut offset: u64,
        found: &mut BTreeMap<u64, Class>,
    ) -> Option<()> {
        let record = self.catalog.record(number);
        let mut size = self.catalog.size(number).unwrap_or(0);
        let mut classes = match record.kind {
            Kind::Float => {
                let passed = of_float(record, size)?;
                if passed.classes.is_empty() {
                    vec![Class::Memory]
                } else {
                    passed.classes
                }
            }
            Kind::Integer | Kind::Enum | Kind::Pointer => {
                vec![Class::Integer; size.div_ceil(WORD).min(2) as usize]
            }
            _ => return None,
        };
        // A bit-field counts where its own bits begin, not where its storage does.
        if let (Kind::Integer, Some(lies)) = (record.kind, record.encoding) {
            if lies.bits > 0 && u64::from(lies.bits) < 8 * size {
                size = 1;
                offset = offset.saturating_add(u64::from(lies.offset) / 8);
            }
        }
        if size > 0 && offset % size.min(WORD) != 0 {
            classes = vec![Class::Memory];
        }
        for (place, class) in (offset / WORD..).zip(classes) {
            let known = found.entry(place).or_insert(class);
            *known = class.max(*known);
        }
        Some(())
    }

    /// The alignment of a type on the stack: 16 if it contains a number of 16 bytes, else 8.
    fn align(&self, number: Number) -> u64 {
        let (mut known, mut waiting) = (HashSet::new(), vec![number]);
        while let Some(one) = waiting.pop() {
            let end = self.catalog.resolve(one);
            if !known.insert(end) {
                continue;
            }
            let record = self.catalog.record(end);
            match record.kind {
                Kind::Struct | Kind::Union => {
                    waiting.extend(self.catalog.members(end).iter().map(|part| part.of));
                }
                Kind::Array => waiting.push(record.of),
                Kind::Float | Kind::Integer if self.catalog.size(end) == Some(2 * WORD) => {
                    return 2 * WORD;
                }
                _ => {}
            }
        }
        WORD
    }
}

/// The location of an argument in one register, or in one for each eightbyte.
fn in_registers(taken: &[Register], size: u64) -> Expression {
    let mut made = Expression::new();
    for (&register, before) in taken.iter().zip((0..).step_by(WORD as usize)) {
        made.op_reg(register);
        if taken.len() > 1 {
            made.op_piece(WORD.min(size - before));
        }
    }
    made
}

fn of_float(record: &Record<'_>, size: u64) -> Option<Passage> {
    let encoding = record.encoding.map_or(0, |lies| lies.encoding);
    match encoding {
        1 | 2 if size <= WORD => Some(Passage::new(&[Class::Vector], size, WORD)),
        3 => Some(Passage::new(&[Class::Vector], size, WORD)),
        4 => Some(Passage::new(&[Class::Vector; 2], size, WORD)),
        5 | 6 => Some(Passage::new(&[], size, 2 * WORD)),
        _ => None,
    }
}
