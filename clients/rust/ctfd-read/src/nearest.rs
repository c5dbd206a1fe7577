//! Suggestions: the names that are nearest to one that was not found.

use std::collections::HashSet;

/// The most suggestions.
const MOST: usize = 3;
/// The least likeness of a suggestion; 1 for equal names.
const LEAST: f64 = 0.6;

/// A name without struct, union or enum.
fn without_word(name: &str) -> &str {
    match name.split_once(' ') {
        Some(("struct" | "union" | "enum", rest)) => rest.trim(),
        _ => name,
    }
}

/// The likeness of two names. The words struct, union and enum count only if both have one.
fn likeness(name: &str, other: &str) -> f64 {
    let other = if without_word(name) == name { without_word(other) } else { other };
    strsim::normalized_damerau_levenshtein(name, other)
}

/// The end of a message: `; did you mean a, b or c?`, or nothing if no name is near. Names that
/// differ only in struct, union or enum come first, then those that differ in few letters.
pub fn suggestion(name: &str, names: impl Iterator<Item = String>) -> String {
    let mut met = HashSet::new();
    let known: Vec<String> = names.filter(|one| met.insert(one.clone())).collect();
    let mut found: Vec<&str> = known
        .iter()
        .map(String::as_str)
        .filter(|one| *one != name && without_word(one) == without_word(name))
        .collect();
    let mut close: Vec<(f64, &str)> = known
        .iter()
        .map(|one| (likeness(name, one), one.as_str()))
        .filter(|&(alike, one)| alike >= LEAST && !found.contains(&one))
        .collect();
    close.sort_by(|(one, _), (other, _)| other.total_cmp(one)); // a stable sort
    found.extend(close.into_iter().map(|(_, one)| one));
    found.truncate(MOST);
    match found.as_slice() {
        [] => String::new(),
        [one] => format!("; did you mean {one}?"),
        [others @ .., last] => format!("; did you mean {} or {last}?", others.join(", ")),
    }
}
