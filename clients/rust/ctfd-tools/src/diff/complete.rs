//! Reports on what is not compared, since CTF cannot represent it, one line each.

use std::collections::{HashMap, HashSet};

const LEFT_OUT: &str = "left out";

/// How messages name a file, and lines on its losses, each as often as it occurs.
pub type Lost<'l> = (&'l str, &'l [String]);

/// Lines on what is not compared: what is left out of a file, and losses that one file has more
/// often than the other.
pub fn incomparable(old: Lost<'_>, new: Lost<'_>) -> Vec<String> {
    let mut made = Vec::new();
    for (one, other) in [(old, new), (new, old)] {
        let (here, there) = (counts(one.1), counts(other.1));
        let is_incomparable = |line: &&String| {
            let line = line.as_str();
            line.contains(LEFT_OUT) || here[line] > there.get(line).copied().unwrap_or(0)
        };
        let mut seen = HashSet::new();
        let lines = one.1.iter().filter(|line| seen.insert(*line)).filter(is_incomparable);
        made.extend(lines.map(|line| format!("{}: not compared: {line}", one.0)));
    }
    made
}

fn counts(lines: &[String]) -> HashMap<&str, usize> {
    let mut made = HashMap::new();
    for line in lines {
        *made.entry(line.as_str()).or_default() += 1;
    }
    made
}

#[cfg(test)]
mod tests {
    use super::incomparable;

    #[test]
    fn what_both_have_lost_alike_is_compared() {
        let old = ["a", "a", "a", "b: left out", "c"].map(str::to_owned);
        let new = ["a", "a", "b: left out", "c"].map(str::to_owned);
        let wanted = [
            "old: not compared: a",
            "old: not compared: b: left out",
            "new: not compared: b: left out",
        ];
        assert_eq!(incomparable(("old", &old), ("new", &new)), wanted);
    }
}
