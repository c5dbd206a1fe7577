//! Descriptions of functions and objects in debug information, and the symbols that they belong to.

use crate::hashed::{Map, Set};
use crate::symbols::Symbol;
use crate::table::{Kind, Parts, Record};
use smallvec::SmallVec;
use std::borrow::Cow;

/// The return type and the arguments of a function.
pub struct Signature {
    of: u32,
    varargs: bool,
    arguments: Box<[u32]>,
}

impl Signature {
    /// The signature in the record of a function.
    pub fn of_record(record: Record<'_>) -> Signature {
        let arguments = match record.parts {
            Parts::Arguments(listed) => listed,
            _ => Box::default(),
        };
        Signature { of: record.of, varargs: record.varargs, arguments }
    }

    /// The record of a function with this signature, whose type numbers are mapped by `to`.
    pub fn record<'a>(&self, to: impl Fn(u32) -> u32) -> Record<'a> {
        let arguments = self.arguments.iter().map(|&n| to(n)).collect();
        Record {
            of: to(self.of),
            varargs: self.varargs,
            parts: Parts::Arguments(arguments),
            ..Record::new(Kind::Function, Cow::Borrowed(b""))
        }
    }
}

/// The type number of an object, or the signature of a function. `is_whole` is true for a
/// definition, and false for a declaration.
pub struct Description {
    pub of: u32,
    pub function: Option<Signature>,
    pub is_whole: bool,
}

impl Description {
    /// Maps the numbers of all its types.
    pub fn renumber(&mut self, to: impl Fn(u32) -> u32) {
        self.of = to(self.of);
        if let Some(function) = &mut self.function {
            function.of = to(function.of);
            function.arguments.iter_mut().for_each(|n| *n = to(*n));
        }
    }
}

/// A description with its name, which is numbered among the wanted names, and with its address, if
/// it has one. A function that the compiler divided also has `others`, the addresses of its parts,
/// one of which may be its beginning. `is_own` means that no other source file sees the name, so
/// the name alone does not identify it.
pub struct Statement {
    pub name: u32,
    pub place: Option<u64>,
    pub said: Description,
    pub others: Box<[u64]>,
    pub is_own: bool,
}

/// The number of names that no symbol has.
const UNWANTED: u32 = u32::MAX;
/// The index that stands for none.
const NOWHERE: u32 = u32::MAX;

/// How well a statement describes its name, best first: names that other files see come before
/// others, and definitions before declarations.
type Rank = (bool, bool);

impl Statement {
    fn rank(&self) -> Rank {
        (self.is_own, !self.said.is_whole)
    }

    fn has_address(&self) -> bool {
        self.place.is_some() || !self.others.is_empty()
    }
}

/// The statements of some units, without those that are no better than earlier ones: most functions
/// are declared in many units.
#[derive(Default)]
pub struct Statements {
    pub listed: Vec<Statement>,
    ranks: Map<u32, Rank>,
}

impl Statements {
    /// Adds statements.
    pub fn extend(&mut self, told: Vec<Statement>) {
        for one in told {
            let rank = one.rank();
            let is_best = match self.ranks.get_mut(&one.name) {
                Some(known) => rank < std::mem::replace(known, rank.min(*known)),
                None => self.ranks.insert(one.name, rank).is_none(),
            };
            if is_best || one.has_address() {
                self.listed.push(one);
            }
        }
    }
}

/// The names and addresses of the symbols whose types are wanted.
pub struct SymbolFilter<'w> {
    names: Map<&'w [u8], u32>,
    addresses: Set<u64>,
}

impl<'w> SymbolFilter<'w> {
    pub fn new(wanted: &'w [Symbol<'_>]) -> SymbolFilter<'w> {
        let mut names = Map::default();
        names.reserve(wanted.len());
        for one in wanted {
            let whole = without_version(&one.name);
            let bare = without_local_suffix(whole);
            let count = names.len() as u32;
            names.entry(whole).or_insert(count);
            if bare.len() < whole.len() {
                let count = names.len() as u32;
                names.entry(bare).or_insert(count);
            }
        }
        SymbolFilter { names, addresses: wanted.iter().map(|one| one.address).collect() }
    }

    /// The number of a name that is wanted; `UNWANTED` for another name at a wanted address; else
    /// `None`.
    pub fn number(&self, name: &[u8], place: Option<u64>) -> Option<u32> {
        let is_wanted = || place.is_some_and(|at| self.addresses.contains(&at));
        self.names.get(name).copied().or_else(|| is_wanted().then_some(UNWANTED))
    }
}

/// All statements so far, indexed by addresses and by the numbers of names.
#[derive(Default)]
pub struct Descriptions {
    said: Vec<LinkedStatement>,
    by_address: Map<u64, Chain>,
    by_part: Map<u64, SmallVec<[u32; 2]>>,
    by_name: Vec<Best>,
}

/// A statement, and the index of the next one with the same address.
struct LinkedStatement {
    name: u32,
    next: u32,
    description: Description,
}

/// The indexes of the first and the last statement with an address.
struct Chain {
    first: u32,
    last: u32,
}

/// The index of the best statement for a name.
#[derive(Clone, Copy)]
struct Best {
    place: u32,
    is_own: bool,
}

impl Descriptions {
    /// Adds a statement. For each name the best statement counts, whichever comes first.
    pub fn tell(&mut self, told: Statement) {
        let place = self.said.len() as u32;
        if let Some(at) = told.place {
            self.add_address(at, place);
        }
        for &other in &*told.others {
            self.by_part.entry(other).or_default().push(place);
        }
        let is_best = told.name != UNWANTED && self.is_best(&told);
        if is_best {
            self.by_name[told.name as usize] = Best { place, is_own: told.is_own };
        }
        if is_best || told.has_address() {
            self.said.push(LinkedStatement {
                name: told.name,
                next: NOWHERE,
                description: told.said,
            });
        }
    }

    /// Whether no earlier statement describes the name as well.
    fn is_best(&mut self, told: &Statement) -> bool {
        let number = told.name as usize;
        if self.by_name.len() <= number {
            self.by_name.resize(number + 1, Best { place: NOWHERE, is_own: false });
        }
        let Best { place, is_own } = self.by_name[number];
        let known = self.said.get(place as usize);
        known.is_none_or(|known| told.rank() < (is_own, !known.description.is_whole))
    }

    fn add_address(&mut self, at: u64, place: u32) {
        let chain = self.by_address.entry(at).or_insert(Chain { first: place, last: place });
        if chain.last != place {
            self.said[chain.last as usize].next = place;
            chain.last = place;
        }
    }

    /// The indexes of the statements with an address, in order.
    fn of_address(&self, at: u64) -> impl Iterator<Item = u32> + '_ {
        let first = self.by_address.get(&at).map(|chain| chain.first);
        let next = |&place: &u32| Some(self.said[place as usize].next).filter(|&n| n != NOWHERE);
        std::iter::successors(first, next)
    }

    /// The description of a symbol: by name and address, else by one of these. The address alone
    /// counts only in a linked file, since in an object file many symbols share one; the name alone
    /// does not count in a linked file if only its own source file sees it.
    pub fn description_of(
        &self,
        wanted: &Symbol<'_>,
        filter: &SymbolFilter<'_>,
        is_linked: bool,
    ) -> Option<&Description> {
        let whole = without_version(&wanted.name);
        let number = |name: &[u8]| filter.names.get(name).copied();
        let is_of =
            |name: Option<u32>| move |&place: &u32| Some(self.said[place as usize].name) == name;
        let (name, bare) = (number(whole), number(without_local_suffix(whole)));
        let parts = self.by_part.get(&wanted.address).into_iter().flatten().copied();
        let by_name = || {
            let best = self.by_name.get(name? as usize).filter(|best| best.place != NOWHERE)?;
            (!(is_linked && best.is_own)).then_some(best.place)
        };
        let at_address = || self.of_address(wanted.address);
        let place = at_address()
            .find(is_of(name))
            .or_else(|| parts.into_iter().find(is_of(name)))
            .or_else(|| at_address().find(is_of(bare)))
            .or_else(|| is_linked.then(|| at_address().next()).flatten())
            .or_else(by_name)?;
        let said = &self.said[place as usize].description;
        (said.function.is_some() == wanted.is_function).then_some(said)
    }
}

fn without_version(name: &[u8]) -> &[u8] {
    if !name.contains(&b'@') {
        return name;
    }
    name.split(|&byte| byte == b'@').next().unwrap_or(name)
}

/// The name of a symbol without the suffix by which compilers mark local copies, such as `.part.0`
/// or `.lto_priv.3`.
fn without_local_suffix(name: &[u8]) -> &[u8] {
    if !name.contains(&b'.') {
        return name;
    }
    let is_word = |part: &[u8]| {
        !part.is_empty() && part.iter().all(|&b| b == b'_' || b.is_ascii_alphanumeric())
    };
    let is_number = |part: &[u8]| !part.is_empty() && part.iter().all(u8::is_ascii_digit);
    for (at, _) in name.iter().enumerate().filter(|(_, &byte)| byte == b'.') {
        let mut parts = name[at + 1..].split(|&byte| byte == b'.');
        if parts.next().is_some_and(is_word) && parts.all(is_number) {
            return &name[..at];
        }
    }
    name
}
