//! Differences between the members of a struct or union, matched by name, the rest by place.

use super::differences::{Datum, Difference};
use super::side::{At, Place};
use std::collections::{HashMap, VecDeque};

/// The least number of members that moved together and share a line.
const RUN: usize = 4;

/// All differences.
pub fn differences(old: &[&Place], new: &[&Place]) -> Vec<Difference> {
    if old == new {
        return Vec::new();
    }
    let (here, there) = (by_path(old), by_path(new));
    let of_both = old.iter().map(|&one| (one, there.get(one.path.as_str())));
    let both: Vec<(&Place, &Place)> =
        of_both.filter_map(|(one, other)| other.map(|&other| (one, other))).collect();
    let moved: Vec<_> =
        both.iter().copied().filter(|(one, other)| one.start != other.start).collect();
    let mut said = moves(&moved);
    said.extend(both.iter().filter_map(|(one, other)| of_type(one, other)));
    let gone = old.iter().copied().filter(|one| !there.contains_key(one.path.as_str()));
    let is_new = |one: &&Place| !here.contains_key(one.path.as_str());
    let come: Vec<&Place> = new.iter().copied().filter(is_new).collect();
    said.extend(others(gone, &come));
    said
}

/// Members by their paths; for a repeated path, the last one.
fn by_path<'p>(places: &[&'p Place]) -> HashMap<&'p str, &'p Place> {
    places.iter().map(|&one| (one.path.as_str(), one)).collect()
}

/// The differences of members that only one side has: renamed ones at the same place, removed ones
/// and added ones.
fn others<'p>(gone: impl Iterator<Item = &'p Place>, come: &[&Place]) -> Vec<Difference> {
    let mut at: HashMap<(u128, &str), VecDeque<usize>> = HashMap::new();
    for (place, one) in come.iter().enumerate() {
        at.entry((one.start, &*one.told.text)).or_default().push_back(place);
    }
    let mut is_left = vec![true; come.len()];
    let mut said = Vec::new();
    for one in gone {
        let there = at.entry((one.start, &*one.told.text)).or_default();
        let renamed = there.iter().position(|&place| come[place].told == one.told);
        match renamed.and_then(|place| there.remove(place)) {
            Some(place) => {
                is_left[place] = false;
                let now = &come[place].path;
                let text = format!("{} renamed {now}", one.path);
                let told = Difference::harmless("renamed", text).of(&one.path);
                said.push(told.from(Datum::text(&one.path), Datum::text(now)));
            }
            None => {
                let text = format!("{} removed", label_of(&one.path));
                let told = Difference::breaking("removed member", text).of(&one.path);
                said.push(told.from(Datum::bits(one.start), Datum::Nothing));
            }
        }
    }
    let left = come.iter().zip(is_left).filter(|(_, is_left)| *is_left);
    said.extend(left.map(|(one, _)| {
        let text = format!("{} added at {}", label_of(&one.path), At(one.start));
        let told = Difference::harmless("added member", text).of(&one.path);
        told.from(Datum::Nothing, Datum::bits(one.start))
    }));
    said
}

fn label_of(path: &str) -> &str {
    match path {
        "" => "a member without a name",
        path => path,
    }
}

/// How far a member moved, in bits.
fn distance((one, other): &(&Place, &Place)) -> i128 {
    other.start as i128 - one.start as i128
}

/// A difference for each move, or one for consecutive members that moved by the same distance.
fn moves(mut pairs: &[(&Place, &Place)]) -> Vec<Difference> {
    let mut said = Vec::new();
    while let Some(first) = pairs.first() {
        let by = distance(first);
        let count = pairs.iter().take_while(|pair| distance(pair) == by).count();
        let (run, rest) = pairs.split_at(count);
        if count >= RUN {
            let last = &run[count - 1].0.path;
            let bits = match by % 8 {
                0 => format!("{:+}", by / 8),
                _ => format!("{by:+} bits"),
            };
            let text = format!("{count} members from {} to {last} moved by {bits}", first.0.path);
            said.push(of_move(text, first));
        } else {
            said.extend(run.iter().map(|pair| {
                let (was, now) = (At(pair.0.start), At(pair.1.start));
                of_move(format!("{} moved from {was} to {now}", pair.0.path), pair)
            }));
        }
        pairs = rest;
    }
    said
}

fn of_move(text: String, (one, other): &(&Place, &Place)) -> Difference {
    let said = Difference::breaking("moved", text).of(&one.path);
    said.from(Datum::bits(one.start), Datum::bits(other.start))
}

/// The difference between the types of two members of one name.
fn of_type(one: &Place, other: &Place) -> Option<Difference> {
    let (was, now) = (&one.told, &other.told);
    let is_of_bits = was.bits % 8 != 0 || now.bits % 8 != 0;
    if was.bits != now.bits && (was.text == now.text || is_of_bits) {
        let text = format!("{} {} -> {}", one.path, width(was.bits), width(now.bits));
        let said = Difference::breaking("width", text).of(&one.path);
        return Some(said.from(Datum::bits(was.bits), Datum::bits(now.bits)));
    }
    if (&was.text, &was.value) == (&now.text, &now.value) {
        return None;
    }
    let is_gone = || !was.named.is_within(&now.named);
    let breaks = was.value != now.value || !now.named.is_empty() && is_gone();
    let text = format!("{} is {}, was {}", one.path, now.text, was.text);
    let said = Difference { breaks, ..Difference::breaking("type", text) }.of(&one.path);
    Some(said.from(Datum::text(&*was.text), Datum::text(&*now.text)))
}

fn width(bits: u128) -> String {
    match bits % 8 {
        0 => format!("{} bytes", bits / 8),
        _ => format!("{bits} bits"),
    }
}

#[cfg(test)]
mod tests {
    use super::*;
    use crate::diff::side::MemberText;
    use std::rc::Rc;

    fn places(listed: &[(&str, u128, &str)]) -> Vec<Place> {
        let place = |&(path, start, text): &(&str, u128, &str)| {
            let told = MemberText { bits: 32, text: text.into(), ..MemberText::default() };
            Place { path: path.to_owned(), start, told: Rc::new(told) }
        };
        listed.iter().map(place).collect()
    }

    fn difference_lines(old: &[(&str, u128, &str)], new: &[(&str, u128, &str)]) -> Vec<String> {
        let (old, new) = (places(old), places(new));
        let (old, new) = (Vec::from_iter(&old), Vec::from_iter(&new));
        differences(&old, &new).into_iter().map(|one| one.text).collect()
    }

    #[test]
    fn members_are_matched_by_name_and_then_by_place() {
        let old = [("a", 0, "int"), ("b", 32, "int"), ("", 64, "int")];
        assert!(difference_lines(&old, &old).is_empty());
        let new = [("a", 35, "int"), ("c", 32, "int"), ("d", 96, "char")];
        let wanted = [
            "a moved from 0 to 4:3",
            "b renamed c",
            "a member without a name removed",
            "d added at 12",
        ];
        assert_eq!(difference_lines(&old, &new), wanted);
    }

    #[test]
    fn many_that_move_together_are_told_in_one() {
        let old: Vec<(&str, u128, &str)> = ["a", "b", "c", "d"]
            .into_iter()
            .zip([32, 64, 96, 128])
            .map(|(n, at)| (n, at, "int"))
            .collect();
        let moved = |by: u128| -> Vec<(&str, u128, &str)> {
            old.iter().map(|&(name, at, text)| (name, at - by, text)).collect()
        };
        assert_eq!(difference_lines(&old, &moved(32)), ["4 members from a to d moved by -4"]);
        assert_eq!(difference_lines(&old, &moved(1)), ["4 members from a to d moved by -1 bits"]);
        assert_eq!(difference_lines(&old[..3], &moved(32)[..3]).len(), 3);
    }
}
