//! Differences between two types by their structure, and the pairs of types that these lead to.
//!
//! Typedefs and qualifiers are followed, and base types are compared by size and encoding, so that
//! all compilers give the same for the same source. A change breaks if a program built for the old
//! types goes wrong with the new.

use super::changes::Sides;
use super::differences::{kind_word, size, Datum, Difference};
use super::members::differences as members;
use super::side::{places, Side, TypeUse};
use crate::types::catalog::{is_renaming, Number, Signature};
use ctfd::Kind;
use std::collections::{HashMap, HashSet};
use std::rc::Rc;

const SIGNED: u32 = 1;
const BOOLEAN: u32 = 4;

/// An old and a new type.
pub type Pair = (Number, Number);

/// A step from a type or a symbol to a pair of types that its own type leads to.
#[derive(Clone, Debug)]
pub struct Lead {
    /// The text of the step.
    pub text: Rc<str>,
    pub pair: Pair,
}

/// The differences of a pair of types itself, and the pairs that it leads to.
#[derive(Clone, Debug, Default)]
pub struct Findings {
    /// The differences.
    pub said: Vec<Difference>,
    /// The pairs that it leads to.
    pub leads: Vec<Lead>,
}

impl Findings {
    /// Differences that lead to no pairs.
    pub fn of(said: impl IntoIterator<Item = Difference>) -> Findings {
        Findings { said: said.into_iter().collect(), leads: Vec::new() }
    }

    fn add(&mut self, other: Findings) {
        self.said.extend(other.said);
        self.leads.extend(other.leads);
    }
}

/// How much harm a change does between the types at the ends of two types.
#[derive(Clone, Copy, Debug, PartialEq, Eq, PartialOrd, Ord)]
enum Harm {
    Same,
    /// Nothing breaks.
    Harmless,
    /// Programs break.
    Breaking,
}

impl Harm {
    fn breaking_if(breaks: bool) -> Harm {
        match breaks {
            true => Harm::Breaking,
            false => Harm::Harmless,
        }
    }

    fn unless(is_same: bool, other: Harm) -> Harm {
        match is_same {
            true => Harm::Same,
            false => other,
        }
    }
}

/// Whether types of a kind are compared as pairs of their own.
fn is_kept(kind: Option<Kind>) -> bool {
    is_defined(kind) || kind == Some(Kind::Function)
}

/// Whether types of a kind may be declared without a definition.
fn is_defined(kind: Option<Kind>) -> bool {
    matches!(kind, Some(Kind::Struct | Kind::Union | Kind::Enum))
}

/// Whether nothing is known about types of a kind.
fn is_opaque(kind: Option<Kind>) -> bool {
    matches!(kind, None | Some(Kind::Forward | Kind::Unknown))
}

/// A type without typedefs and qualifiers, and whether one of these was `const`.
struct Base {
    number: Number,
    is_const: bool,
}

fn base_of(side: &Side<'_, '_>, mut number: Number) -> Base {
    let mut is_const = false;
    while is_renaming(side.catalog.kind(number)) {
        is_const |= side.catalog.kind(number) == Kind::Const;
        number = side.catalog.record(number).of;
    }
    Base { number, is_const }
}

/// The kinds of the typedefs, qualifiers and arrays at the start of a type.
fn kinds_on_way(side: &Side<'_, '_>, mut number: Number) -> HashSet<Kind> {
    let mut made = HashSet::new();
    let is_passed = |kind| is_renaming(kind) || kind == Kind::Array;
    while is_passed(side.catalog.kind(number)) {
        made.insert(side.catalog.kind(number));
        number = side.catalog.record(number).of;
    }
    made
}

/// The change between two types, and the pair of types that is compared by itself, after their
/// pointers, arrays, typedefs and qualifiers.
struct Ends {
    harm: Harm,
    pair: Option<Pair>,
}

impl Sides<'_, '_, '_> {
    /// The differences between two structs, unions, enums or functions.
    pub fn compare(&self, pair: Pair) -> Findings {
        let (one, other) = (self.before.kind(pair.0), self.after.kind(pair.1));
        if other == Some(Kind::Forward) {
            let said = Difference::harmless("undefined", "only declared now, and not compared");
            let kinds = (Datum::text(kind_word(one)), Datum::text(kind_word(other)));
            return Findings::of([said.from(kinds.0, kinds.1)]);
        }
        match one {
            Some(Kind::Forward) => {
                Findings::of([Difference::harmless("defined", "only declared before, now defined")])
            }
            Some(Kind::Enum) => Findings::of(self.enums(pair.0, pair.1)),
            Some(Kind::Function) => {
                self.signature(&self.before.signature(pair.0), &self.after.signature(pair.1))
            }
            _ => self.aggregate(pair),
        }
    }

    /// The difference between the types of a member, an argument or the like, which `what` names.
    pub fn value(
        &self,
        what: &str,
        old: impl Into<TypeUse>,
        new: impl Into<TypeUse>,
        step: &str,
    ) -> Findings {
        let (old, new) = (old.into(), new.into());
        let ends = self.ends(old, new);
        let was = self.before.text(old.number);
        let mut made = Findings::default();
        if ends.harm != Harm::Same {
            let now = self.after.text(new.number);
            let text = match was == now {
                true => self.change_behind(what, &now, (old.number, new.number)),
                false => format!("{what} is {now}, was {was}"),
            };
            let breaks = ends.harm == Harm::Breaking;
            let said = Difference { breaks, ..Difference::breaking("type", text) }.of(what);
            made.said.push(said.from(Datum::text(&*was), Datum::text(&*now)));
        }
        let lead = |pair| Lead { text: format!("{step} {was}").into(), pair };
        made.leads.extend(ends.pair.map(lead));
        made
    }

    /// Says that a type changed whose name did not, with the types that it resolves to if these
    /// have different names.
    fn change_behind(&self, what: &str, name: &str, pair: (Number, Number)) -> String {
        let (was, now) = (self.before.resolved_text(pair.0), self.after.resolved_text(pair.1));
        match was == now {
            true => format!("{what}: {name} changed"),
            false => format!("{what}: {name} changed from {was} to {now}"),
        }
    }

    /// Follows two types in step, as far as they have the same pointers and arrays.
    fn ends(&self, one: TypeUse, other: TypeUse) -> Ends {
        let (mut old, mut new) = (one.number, other.number);
        let fields = (one.of_enum, other.of_enum);
        let mut is_pointed = false;
        let mut harm = Harm::Same;
        loop {
            let (was, now) = (base_of(self.before, old), base_of(self.after, new));
            if is_pointed && was.is_const != now.is_const {
                harm = harm.max(Harm::Harmless);
            }
            (old, new) = (was.number, now.number);
            let kinds = (self.before.kind(old), self.after.kind(new));
            let is_passed = matches!(kinds.0, Some(Kind::Pointer | Kind::Array));
            if kinds.0 != kinds.1 || !is_passed {
                break;
            }
            let (one, other) = (self.before.catalog.record(old), self.after.catalog.record(new));
            if self.before.elements(old) != self.after.elements(new) {
                harm = Harm::Breaking;
            }
            is_pointed |= one.kind == Kind::Pointer;
            (old, new) = (one.of, other.of);
        }
        match self.pair(old, new, fields) {
            Some(pair) => Ends { harm, pair: Some(pair) },
            None => Ends { harm: harm.max(self.harm(old, new, is_pointed)), pair: None },
        }
    }

    /// The pair that is compared by itself at the ends of two types, if there is one.
    fn pair(
        &self,
        old: Number,
        new: Number,
        fields: (Option<Number>, Option<Number>),
    ) -> Option<Pair> {
        let (one, other) = (self.before.kind(old), self.after.kind(new));
        if one == other && is_kept(one) || self.is_told_once(old, new) {
            return Some((old, new));
        }
        let is_integer = one == Some(Kind::Integer) && other == one;
        let before = || fields.0.or_else(|| self.before.enum_of(old));
        let after = || fields.1.or_else(|| self.after.enum_of(new));
        is_integer.then(|| before().zip(after())).flatten() // the enums of bit-fields
    }

    /// Whether one type is a declaration of the other, which is defined.
    fn is_told_once(&self, old: Number, new: Number) -> bool {
        let kinds = [self.before.kind(old), self.after.kind(new)];
        let (one, other) = (self.before.catalog.record(old), self.after.catalog.record(new));
        kinds.contains(&Some(Kind::Forward))
            && kinds.into_iter().any(is_defined)
            && (&one.name, one.tag) == (&other.name, other.tag)
    }

    /// The harm of a change between the types at the ends.
    fn harm(&self, old: Number, new: Number, is_pointed: bool) -> Harm {
        let kinds = (self.before.kind(old), self.after.kind(new));
        if is_opaque(kinds.0) || is_opaque(kinds.1) {
            return self.opaque_harm(old, new, is_pointed);
        }
        let (was, now) = (self.before.catalog.size(old), self.after.catalog.size(new));
        let flags = (self.before.flags(old), self.after.flags(new));
        match kinds {
            (Some(Kind::Integer), Some(Kind::Integer)) => {
                let sign = |flags| flags & (SIGNED | BOOLEAN);
                Harm::unless(was == now && sign(flags.0) == sign(flags.1), Harm::Breaking)
            }
            (Some(Kind::Float), Some(Kind::Float)) => {
                Harm::unless(was == now && flags.0 == flags.1, Harm::Breaking)
            }
            (Some(Kind::Integer), Some(Kind::Enum)) | (Some(Kind::Enum), Some(Kind::Integer)) => {
                Harm::breaking_if(was != now)
            }
            _ => Harm::Breaking,
        }
    }

    /// The same if nothing is known about one of the two. A change that cannot be seen does no
    /// harm, but a value in place of void, or the reverse, breaks.
    fn opaque_harm(&self, old: Number, new: Number, is_pointed: bool) -> Harm {
        let kinds = (self.before.kind(old), self.after.kind(new));
        if kinds.0 == kinds.1 {
            let (one, other) = (self.before.catalog.record(old), self.after.catalog.record(new));
            let is_same =
                kinds.0 != Some(Kind::Forward) || (one.tag, &one.name) == (other.tag, &other.name);
            return Harm::unless(is_same, Harm::Harmless);
        }
        let is_of_void = kinds.0.is_none() || kinds.1.is_none();
        Harm::breaking_if(is_of_void && !is_pointed)
    }

    /// Differences in how an object or its elements may be used. A const object is in memory that
    /// is not written to, and its value does not change.
    pub fn qualifiers(&self, old: Number, new: Number) -> Vec<Difference> {
        let (was, now) = (kinds_on_way(self.before, old), kinds_on_way(self.after, new));
        let mut said = Vec::new();
        for (word, kind) in [("const", Kind::Const), ("volatile", Kind::Volatile)] {
            let (before, after) = (was.contains(&kind), now.contains(&kind));
            if before != after {
                let text = format!("it is {}{word}", if after { "" } else { "no longer " });
                let one =
                    Difference { breaks: word == "const", ..Difference::breaking(word, text) };
                said.push(one.of("it").from(Datum::Truth(before), Datum::Truth(after)));
            }
        }
        said
    }

    fn aggregate(&self, pair: Pair) -> Findings {
        let (old, new) = (self.before.parts(pair.0), self.after.parts(pair.1));
        let sizes = (self.before.catalog.size(pair.0), self.after.catalog.size(pair.1));
        let mut made = Findings::of(size(sizes.0, sizes.1));
        let told = members(&places(&old), &places(&new));
        made.said.extend(told.into_iter().filter(|one| one.what != "type"));
        let wider = made.said.iter().filter(|one| one.what == "width");
        let wider: HashSet<Vec<u8>> = wider.map(|one| one.name.clone()).collect();
        let there: HashMap<&str, TypeUse> =
            new.iter().map(|(place, number)| (place.path.as_str(), *number)).collect();
        for (place, number) in &old {
            let path = place.path.as_str();
            let Some(&other) = there.get(path).filter(|_| !path.is_empty()) else { continue };
            let mut told = self.value(path, *number, other, &format!("whose member {path} is"));
            if wider.contains(path.as_bytes()) {
                told.said.clear();
            }
            made.add(told);
        }
        made
    }

    /// The differences between what two functions take and return.
    pub fn signature(&self, one: &Signature, other: &Signature) -> Findings {
        let mut made = self.value("what it returns", one.returns, other.returns, "returns");
        for (place, (&old, &new)) in one.arguments.iter().zip(&other.arguments).enumerate() {
            made.add(self.value(&format!("argument {}", place + 1), old, new, "takes"));
        }
        let (were, are) = (one.arguments.len(), other.arguments.len());
        if were != are {
            let said =
                Difference::breaking("arguments", format!("takes {are} arguments, took {were}"));
            made.said.push(said.from(Datum::Number(were as i128), Datum::Number(are as i128)));
        }
        if one.is_open != other.is_open {
            let text =
                if other.is_open { "takes more arguments" } else { "takes no more arguments" };
            let said = Difference::breaking("varargs", text);
            made.said.push(said.from(Datum::Truth(one.is_open), Datum::Truth(other.is_open)));
        }
        made
    }
}
