//! Merges equal types: those that no walk along their references tells apart.
//!
//! Types that look alike begin in one class, which is divided if their references differ. The
//! largest part of a divided class keeps its color, so the total work is the number of references
//! times its logarithm.

use crate::hashed::{Map, Set};
use crate::table::{Kind, Record, Table};
use smallvec::SmallVec;
use std::hash::{Hash, Hasher};

/// How many times forwards are resolved again, after a tag turned out to have several types.
const MOST_ROUNDS: u32 = 8;

type Tag<'t> = (Kind, &'t [u8]);

fn tag<'t>(record: &'t Record<'_>) -> Tag<'t> {
    (record.tag, &record.name)
}

/// Keeps each type once, in the order of their first copies. A forward is merged with the struct,
/// union or enum of its tag if the table has only one. The first `fixed` types, those of a parent,
/// stay as they are.
pub fn merge(table: &mut Table<'_>, fixed: u32) {
    let mut resolved = definitions(table);
    for number in 1..=fixed {
        resolved[number as usize] = number;
    }
    let colors = (0..=MOST_ROUNDS)
        .rev()
        .find_map(|left| {
            let colors = colors(table, &resolved);
            let ambiguous = ambiguous(table, &colors, &resolved);
            if ambiguous.is_empty() {
                return Some(colors);
            }
            let keeps = |n: usize, to: u32| {
                to != n as u32 && left > 1 && !ambiguous.contains(&tag(&table.records[n - 1]))
            };
            for (n, to) in resolved.iter_mut().enumerate().skip(1) {
                if !keeps(n, *to) {
                    *to = n as u32;
                }
            }
            None
        })
        .expect("in the last round no forward is resolved");
    one_of_each(table, &colors, &resolved, fixed);
    name_once(table, fixed);
}

/// For each type its own number; for a forward, that of the first definition of its tag.
fn definitions(table: &Table<'_>) -> Vec<u32> {
    let mut full: Map<Tag<'_>, u32> = Map::default();
    for (place, record) in table.records.iter().enumerate() {
        let is_full = record.kind.is_aggregate() || record.kind == Kind::Enum;
        if is_full && !record.name.is_empty() {
            full.entry(tag(record)).or_insert(place as u32 + 1);
        }
    }
    let mut resolved: Vec<u32> = (0..=table.len()).collect();
    for (place, record) in table.records.iter().enumerate() {
        if record.kind == Kind::Forward {
            if let Some(&to) = full.get(&tag(record)) {
                resolved[place + 1] = to;
            }
        }
    }
    resolved
}

/// The tags by which forwards were resolved, but which several types have.
fn ambiguous<'t>(table: &'t Table<'_>, colors: &[u32], resolved: &[u32]) -> Set<Tag<'t>> {
    let is_resolved = |n: usize| resolved[n] != n as u32;
    let numbers = 1..resolved.len();
    let wanted: Set<Tag<'_>> =
        numbers.clone().filter(|&n| is_resolved(n)).map(|n| tag(&table.records[n - 1])).collect();
    let mut seen: Map<Tag<'_>, u32> = Map::default();
    let mut several = Set::default();
    for n in numbers.filter(|&n| !is_resolved(n)) {
        let tag = tag(&table.records[n - 1]);
        if wanted.contains(&tag) && *seen.entry(tag).or_insert(colors[n]) != colors[n] {
            several.insert(tag);
        }
    }
    several
}

/// A color for each number, including 0. Two numbers have the same color exactly if their types are
/// equal.
fn colors(table: &Table<'_>, resolved: &[u32]) -> Vec<u32> {
    let named = Edges::references(table, resolved);
    let named_by = named.reverse();
    let mut labels: Map<Shape<'_, '_>, u32> = Map::default();
    labels.reserve(table.records.len());
    let mut colors = vec![0];
    for record in &table.records {
        let next = labels.len() as u32 + 1;
        colors.push(*labels.entry(Shape(record)).or_insert(next));
    }
    let mut classes = classes(&colors, labels.len() + 1);
    let is_open = |n: u32, colors: &[u32], classes: &[Set<u32>]| {
        !classes[colors[n as usize] as usize].is_empty()
    };
    let numbers = 0..colors.len() as u32;
    let mut changed: Vec<u32> = numbers.filter(|&n| is_open(n, &colors, &classes)).collect();
    let mut is_changed = vec![false; colors.len()];
    while !changed.is_empty() {
        let parts = parts(&changed, &named, &colors);
        let mut moved = Vec::new();
        for (color, parts) in parts {
            fall_apart(color, parts, &mut classes, &mut colors, &mut moved);
        }
        let users = moved.iter().flat_map(|&n| named_by.of(n)).copied();
        let mut is_new = |n: u32| !std::mem::replace(&mut is_changed[n as usize], true);
        changed = users.filter(|&n| is_open(n, &colors, &classes) && is_new(n)).collect();
        changed.iter().for_each(|&n| is_changed[n as usize] = false);
    }
    colors
}

/// The numbers of each color; empty for a color with a single number, which is never divided.
fn classes(colors: &[u32], count: usize) -> Vec<Set<u32>> {
    let mut sizes = vec![0; count];
    colors.iter().for_each(|&color| sizes[color as usize] += 1);
    let mut classes = vec![Set::default(); count];
    for (number, &color) in (0..).zip(colors) {
        if sizes[color as usize] > 1 {
            classes[color as usize].insert(number);
        }
    }
    classes
}

/// Lists of numbers, one for each number.
struct Edges {
    ends: Vec<u32>,
    listed: Vec<u32>,
}

impl Edges {
    /// The references of each type.
    fn references(table: &Table<'_>, resolved: &[u32]) -> Edges {
        let mut made = Edges { ends: vec![0], listed: Vec::new() };
        for record in &table.records {
            made.listed.extend(record.references().map(|n| resolved[n as usize]));
            made.ends.push(made.listed.len() as u32);
        }
        made
    }

    /// The inverse: for each number, the numbers whose lists contain it.
    fn reverse(&self) -> Edges {
        let mut ends = vec![0; self.ends.len()];
        self.listed.iter().for_each(|&n| ends[n as usize] += 1);
        for place in 1..ends.len() {
            ends[place] += ends[place - 1];
        }
        let (mut next, mut listed) = (ends.clone(), vec![0; self.listed.len()]);
        for number in 0..self.ends.len() as u32 {
            for &n in self.of(number) {
                next[n as usize] -= 1;
                listed[next[n as usize] as usize] = number;
            }
        }
        Edges { ends, listed }
    }

    fn of(&self, number: u32) -> &[u32] {
        let end = self.ends[number as usize] as usize;
        let begin = number.checked_sub(1).map_or(0, |before| self.ends[before as usize] as usize);
        &self.listed[begin..end]
    }
}

/// A type without its references, and without whether look-ups find it.
struct Shape<'t, 'a>(&'t Record<'a>);

impl PartialEq for Shape<'_, '_> {
    fn eq(&self, other: &Self) -> bool {
        self.0.has_shape_of(other.0)
    }
}

impl Eq for Shape<'_, '_> {}

impl Hash for Shape<'_, '_> {
    fn hash<H: Hasher>(&self, hasher: &mut H) {
        self.0.hash_shape(hasher);
    }
}

/// The colors of a type's references. Most types have one.
type Names = SmallVec<[u32; 4]>;

/// The types that may differ now, by their classes, and within these by the colors of their
/// references.
fn parts(changed: &[u32], named: &Edges, colors: &[u32]) -> Vec<(u32, Vec<Vec<u32>>)> {
    let mut by_class: Map<u32, (usize, Map<Names, usize>)> = Map::default();
    let mut made: Vec<(u32, Vec<Vec<u32>>)> = Vec::new();
    for &number in changed {
        let color = colors[number as usize];
        let named = named.of(number).iter().map(|&n| colors[n as usize]).collect();
        let (place, by_names) = by_class.entry(color).or_insert_with(|| {
            made.push((color, Vec::new()));
            (made.len() - 1, Map::default())
        });
        let listed = &mut made[*place].1;
        let part = *by_names.entry(named).or_insert_with(|| {
            listed.push(Vec::new());
            listed.len() - 1
        });
        listed[part].push(number);
    }
    made
}

/// Gives all parts of a class but the largest new colors. The types that were not looked at are a
/// part too: none of their references has a new color, while each of the others has such a
/// reference.
fn fall_apart(
    color: u32,
    mut parts: Vec<Vec<u32>>,
    classes: &mut Vec<Set<u32>>,
    colors: &mut [u32],
    moved: &mut Vec<u32>,
) {
    let whole = &mut classes[color as usize];
    let others = whole.len() - parts.iter().map(Vec::len).sum::<usize>();
    let largest = (0..parts.len()).max_by_key(|&n| parts[n].len()).expect("a class has parts");
    if others < parts[largest].len() {
        if others > 0 {
            let told: Set<u32> = parts.iter().flatten().copied().collect();
            parts.push(whole.difference(&told).copied().collect());
        }
        parts.swap_remove(largest);
    }
    for part in parts {
        let whole = &mut classes[color as usize];
        for &number in &part {
            whole.remove(&number);
        }
        for &number in &part {
            colors[number as usize] = classes.len() as u32;
        }
        moved.extend(&part);
        let is_alone = part.len() == 1;
        classes.push(if is_alone { Set::default() } else { part.into_iter().collect() });
    }
}

fn one_of_each(table: &mut Table<'_>, colors: &[u32], resolved: &[u32], fixed: u32) {
    let mut first: Map<u32, u32> = Map::from_iter([(colors[0], 0)]);
    let mut order = Vec::new();
    for number in 1..=table.len() {
        let place = number as usize;
        let is_new = resolved[place] == number && !first.contains_key(&colors[place]);
        if is_new || number <= fixed {
            order.push(number);
            first.entry(colors[place]).or_insert(order.len() as u32);
        }
    }
    let to: Vec<u32> = resolved.iter().map(|&n| first[&colors[n as usize]]).collect();
    // The types of a parent stay as they are, whatever they refer to.
    let parents: Vec<Record<'_>> = table.records[..fixed as usize].to_vec();
    table.choose(&order, &to);
    table.records.splice(..fixed as usize, parents);
}

/// If several types have a name, lets look-ups find only the first that is defined.
pub fn name_once(table: &mut Table<'_>, fixed: u32) {
    let mut best: Map<Tag<'_>, usize> = Map::default();
    let mut hidden = Vec::new();
    for (place, record) in table.records.iter().enumerate().skip(fixed as usize) {
        if record.name.is_empty() || !record.root {
            continue;
        }
        let key = match record.kind {
            Kind::Typedef | Kind::Integer | Kind::Float => (Kind::Typedef, &*record.name),
            _ => tag(record),
        };
        let known = best.entry(key).or_insert(place);
        if *known != place && table.records[*known].is_forward() && !record.is_forward() {
            hidden.push(std::mem::replace(known, place));
        } else if *known != place {
            hidden.push(place);
        }
    }
    hidden.into_iter().for_each(|place| table.records[place].root = false);
}
