//! Finds the structs and unions that contain a type, or pointers to it.

use super::catalog::{is_renaming, Catalog, Number, Part};
use super::declare::declaration;
use super::names::Names;
use ctfd::Kind;
use std::cell::{Cell, RefCell};
use std::collections::{BTreeSet, HashMap, HashSet};

const DEEPEST: usize = 64;
const MOST: usize = 100_000;
const LEAST: i64 = 400_000;
const EACH: i64 = 64;

/// A member of a struct or union, or a member of its members; `offset` is in bits.
#[derive(Clone, Debug)]
pub struct EmbeddedMember<'d> {
    /// The outermost struct or union.
    pub owner: Number,
    /// The name of the member, after the names of the members that contain it.
    pub path: Vec<&'d [u8]>,
    /// The member's type.
    pub of: Number,
    /// The struct or union that has the member, and the member's index there.
    pub within: (Number, usize),
    /// Its offset in the owner; in arrays, that of the first element.
    pub offset: u128,
    /// How often it occurs in the owner, as arrays may contain it.
    pub elements: u128,
}

impl EmbeddedMember<'_> {
    /// The path in C; unnamed members are left out.
    pub fn name(&self) -> Vec<u8> {
        let named: Vec<&[u8]> = self.path.iter().copied().filter(|name| !name.is_empty()).collect();
        named.join(&b'.')
    }

    /// `offset  owner  declaration`.
    pub fn line(&self, names: &Names<'_, '_>) -> String {
        let (byte, bit) = (self.offset / 8, self.offset % 8);
        let at = if bit == 0 { byte.to_string() } else { format!("{byte}:{bit}") };
        let first = match self.elements {
            0 | 1 => String::new(),
            count => format!("  (the first of {count})"),
        };
        let told = declaration(names.catalog, self.of, &self.name());
        format!("{at:>8}  {}  {told}{first}", names.label(self.owner))
    }
}

/// Walks the members of a catalog's structs and unions.
///
/// A struct or union without any name is walked through to its members, since it is no answer to
/// the question of who contains a type. With `is_deep`, all are walked through.
pub struct Embeds<'e, 'd> {
    names: &'e Names<'e, 'd>,
    is_deep: bool,
    cut: RefCell<Vec<Number>>,
    left: Cell<i64>,
    through: RefCell<HashMap<Number, bool>>,
    member_types: BTreeSet<Number>,
}

impl<'e, 'd> Embeds<'e, 'd> {
    /// A walk over a catalog's types.
    pub fn new(names: &'e Names<'e, 'd>, is_deep: bool) -> Embeds<'e, 'd> {
        let catalog = names.catalog;
        // The limit of all walks depends on the number of members; each level of a path counts.
        let mut count = 0;
        let mut seen = HashSet::new();
        for number in catalog.aggregates() {
            let members = catalog.members(number);
            count += members.len() as i64;
            seen.extend(members.iter().map(|part| part.of));
        }
        Embeds {
            names,
            is_deep,
            cut: RefCell::default(),
            left: Cell::new(LEAST + EACH * count),
            through: RefCell::default(),
            member_types: seen.into_iter().collect(),
        }
    }

    fn catalog(&self) -> &'e Catalog<'d> {
        self.names.catalog
    }

    /// The structs and unions of which not all members were walked, since there are too many nested
    /// members.
    pub fn cut(&self) -> Vec<Number> {
        self.cut.borrow().clone()
    }

    /// The members with some types; or with `is_pointer`, the members with pointers to these.
    pub fn of(&self, targets: &BTreeSet<Number>, is_pointer: bool) -> Vec<EmbeddedMember<'d>> {
        let reaching = Reaching { catalog: self.catalog(), targets, is_pointer };
        let mut known = HashMap::new();
        let mut leads = |number: &Number| {
            reaching.reaches(*number, &mut known) || self.is_walked_through(*number)
        };
        let leading: HashSet<Number> =
            self.member_types.iter().copied().filter(|number| leads(number)).collect();
        let mut found = Vec::new();
        for owner in self.owners() {
            let leads = |part: &Part<'_>| leading.contains(&part.of);
            if self.catalog().members(owner).iter().any(leads) {
                self.walk(owner, |one| {
                    if reaching.reaches(one.of, &mut known) {
                        found.push(one.clone());
                    }
                });
            }
        }
        found
    }

    /// Its own structs and unions, except those that are walked through in others.
    fn owners(&self) -> Vec<Number> {
        let reached = |&number: &Number| self.catalog().underlying(number).number;
        let inner: HashSet<Number> = self.member_types.iter().map(reached).collect();
        let is_owner = |number: &Number| !inner.contains(number) || self.names.has_name(*number);
        self.catalog().aggregates().filter(is_owner).collect()
    }

    /// Visits each member, and those of structs that are walked through, in order.
    pub fn walk(&self, owner: Number, mut visit: impl FnMut(&EmbeddedMember<'d>)) {
        let mut todo = vec![EmbeddedMember {
            owner,
            path: Vec::new(),
            of: owner,
            within: (0, 0),
            offset: 0,
            elements: 1,
        }];
        for _ in 0..MOST {
            let Some(here) = todo.pop() else { return };
            self.left.set(self.left.get() - 1 - here.path.len() as i64);
            if self.left.get() < 0 {
                break;
            }
            if !here.path.is_empty() {
                visit(&here);
            }
            self.push_inside(&here, &mut todo);
        }
        self.cut.borrow_mut().push(owner);
    }

    /// Whether the members of a member with this type are walked too.
    pub fn is_walked_through(&self, number: Number) -> bool {
        *self.through.borrow_mut().entry(number).or_insert_with(|| {
            let end = self.catalog().underlying(number).number;
            let is_named = self.names.has_name(end);
            self.catalog().record(end).is_aggregate() && (self.is_deep || !is_named)
        })
    }

    /// Pushes the members of a member that is walked through, in reverse order.
    fn push_inside(&self, here: &EmbeddedMember<'d>, todo: &mut Vec<EmbeddedMember<'d>>) {
        let reached = self.catalog().underlying(here.of);
        if !self.catalog().record(reached.number).is_aggregate() {
            return;
        }
        if !here.path.is_empty() && !self.is_walked_through(here.of) {
            return;
        }
        if here.path.len() >= DEEPEST {
            let mut cut = self.cut.borrow_mut();
            if cut.last() != Some(&here.owner) {
                cut.push(here.owner);
            }
            return;
        }
        for (place, part) in self.catalog().members(reached.number).iter().enumerate().rev() {
            let mut path = Vec::with_capacity(here.path.len() + 1);
            path.extend(&here.path);
            path.push(part.name);
            todo.push(EmbeddedMember {
                owner: here.owner,
                path,
                of: part.of,
                within: (reached.number, place),
                offset: here.offset + u128::from(part.offset),
                elements: here.elements.saturating_mul(reached.elements),
            });
        }
    }
}

/// Whether types lead to some targets, by value or through pointers.
struct Reaching<'r, 'd> {
    catalog: &'r Catalog<'d>,
    targets: &'r BTreeSet<Number>,
    is_pointer: bool,
}

impl Reaching<'_, '_> {
    fn reaches(&self, number: Number, known: &mut HashMap<(Number, bool), bool>) -> bool {
        let mut passed = Vec::new(); // each with whether a pointer led to it
        let mut here = (number, false);
        let answer = loop {
            if let Some(&answer) = known.get(&here) {
                break answer;
            }
            passed.push(here);
            let record = self.catalog.record(here.0);
            let is_star = record.kind == Kind::Pointer && self.is_pointer;
            if here.1 == self.is_pointer && self.targets.contains(&here.0) {
                break true;
            }
            if !is_star && !is_renaming(record.kind) && record.kind != Kind::Array {
                break false;
            }
            here = (record.of, here.1 || is_star);
        };
        known.extend(passed.into_iter().map(|one| (one, answer)));
        answer
    }
}
