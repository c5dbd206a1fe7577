//! Types of a program in parts that occur in several children. A type that several children need,
//! and for which the parent has no room, is written to each of them.
//!
//! Types are divided into classes by their own properties, and then repeatedly by the classes of
//! the types that they refer to. When no class is divided any more, the types of a class are equal.

use super::crowded::has_crowded_names;
use super::record::is_renaming;
use super::volumes::{child_number, Number, Volumes};
use ctfd::{Kind, MemberRow, Type};
use std::collections::HashMap;
use std::hash::Hash;

/// The most references that are followed in all. The types of a program need about ten rounds. If a
/// chain made to be slow needs more, copies are listed too.
const MOST_STEPS: usize = 100_000_000;

/// A type of a child, and the types that it refers to.
struct Shape {
    number: Number,
    names: Vec<Number>,
}

/// For each type that occurs in an earlier child too, its number there.
pub fn originals(volumes: &Volumes<'_>) -> HashMap<Number, Number> {
    let children = &volumes.all()[1..];
    if children.iter().any(has_crowded_names) {
        return HashMap::new();
    }
    let mut shapes = Vec::new();
    let mut first = Classes::default();
    let mut classes = Vec::new();
    for (place, volume) in children.iter().enumerate() {
        for of in volume.types.types() {
            let (says, names) = shape(volumes, place + 1, of);
            classes.push(first.number(says));
            shapes.push(Shape { number: child_number(place + 1, of.number()), names });
        }
    }
    if !divide(&shapes, &mut classes, first.count()) {
        return HashMap::new();
    }
    let mut known: HashMap<u32, Number> = HashMap::new();
    let mut found = HashMap::new();
    for (shape, class) in shapes.iter().zip(classes) {
        let original = *known.entry(class).or_insert(shape.number);
        if original != shape.number {
            found.insert(shape.number, original);
        }
    }
    found
}

/// Divides classes until all types of a class refer to types of the same classes. Returns false if
/// that takes too long.
fn divide(shapes: &[Shape], classes: &mut Vec<u32>, mut count: usize) -> bool {
    let places: HashMap<Number, usize> =
        shapes.iter().enumerate().map(|(place, one)| (one.number, place)).collect();
    // The types of children by their indices; types of the parent by their numbers.
    let names: Vec<Vec<Result<usize, Number>>> = shapes
        .iter()
        .map(|one| one.names.iter().map(|n| places.get(n).copied().ok_or(*n)).collect())
        .collect();
    let each = shapes.len() + names.iter().map(Vec::len).sum::<usize>();
    for _ in 0..MOST_STEPS / each.max(1) {
        let mut next = Classes::default();
        let class = |name: &Result<usize, Number>| match *name {
            Ok(place) => (true, classes[place]),
            Err(number) => (false, number),
        };
        let divided: Vec<u32> = names
            .iter()
            .zip(classes.iter())
            .map(|(names, own)| next.number((*own, names.iter().map(class).collect::<Vec<_>>())))
            .collect();
        *classes = divided;
        if next.count() == count {
            return true;
        }
        count = next.count();
    }
    false
}

/// Numbers for different keys, in the order of their first occurrence.
struct Classes<K>(HashMap<K, u32>);

impl<K> Default for Classes<K> {
    fn default() -> Self {
        Classes(HashMap::new())
    }
}

impl<K: Eq + Hash> Classes<K> {
    fn number(&mut self, key: K) -> u32 {
        let next = self.0.len() as u32;
        *self.0.entry(key).or_insert(next)
    }

    fn count(&self) -> usize {
        self.0.len()
    }
}

/// The encoding of a type's own properties, with each text after its length; and the types that it
/// refers to.
fn shape(volumes: &Volumes<'_>, place: usize, of: Type<'_>) -> (Vec<u8>, Vec<Number>) {
    let kind = of.kind();
    let mut says = vec![kind as u8, u8::from(of.is_root().unwrap_or(false))];
    let mut names = Vec::new();
    let own = of.declared_name().map(ctfd::Name::into_bytes).unwrap_or_default();
    push(&mut says, &own);
    let number = |of| volumes.number_of(place, of);
    match kind {
        Kind::Integer | Kind::Float => {
            let lies = of.encoding().map(|it| (it.encoding, it.offset, it.bits));
            push_number(&mut says, of.size().unwrap_or(0));
            says.extend(format!("{lies:?}").bytes());
        }
        Kind::Struct | Kind::Union => {
            push_number(&mut says, of.size().unwrap_or(0));
            let mut rows = vec![MemberRow::default(); of.length().unwrap_or(0)];
            let _ = of.member_rows(0, &mut rows);
            for row in rows {
                let lists = volumes.all()[place].lists;
                push(&mut says, lists.name(row.name_list, row.name_at));
                push_number(&mut says, row.offset);
                names.push(volumes.number(place, row.tnum));
            }
        }
        Kind::Enum => {
            push_number(&mut says, of.size().unwrap_or(0));
            for one in of.enumerators().into_iter().flatten() {
                push(&mut says, &one.name.into_bytes());
                push_number(&mut says, one.value as u64);
            }
        }
        Kind::Forward => says.push(of.tag().map_or(0, |tag| tag as u8)),
        Kind::Array => {
            let parts = of.array().ok();
            push_number(&mut says, parts.map_or(0, |array| array.count.into()));
            names.extend(parts.map(|array| number(array.contents)));
            names.extend(parts.map(|array| number(array.index)));
        }
        Kind::Function => {
            names.push(number(of.returns().ok().flatten()));
            names.extend(of.arguments().into_iter().flatten().map(number));
        }
        kind if kind == Kind::Pointer || is_renaming(kind) => {
            names.push(number(of.reference().ok().flatten()));
        }
        _ => {}
    }
    (says, names)
}

fn push(says: &mut Vec<u8>, text: &[u8]) {
    push_number(says, text.len() as u64);
    says.extend(text);
}

fn push_number(says: &mut Vec<u8>, number: u64) {
    says.extend(number.to_le_bytes());
}
