//! What breaks programs that use a library: changes of its exports, and of the types that these
//! reach.
//!
//! Each function and object that the old file exports is compared with that of the new file, and so
//! is every pair of types that these lead to, once each. A change of a type is reported with the
//! symbols that reach it, and the steps from them.

use super::changes::Sides;
use super::chosen::Choice;
use super::differences::{kind_word, Change, Difference, Fate, Reach};
use super::exported;
use super::structure::{Findings, Pair};
use super::suppressions::SymbolChange;
use ctfd_read::exports::{Export, Exports};
use std::collections::hash_map::Entry;
use std::collections::{HashMap, VecDeque};
use std::rc::Rc;

/// The most steps that are reported of a way.
const MOST_STEPS: usize = 32;
const CUT: &str = "..";

/// A step: the node that it leads to or comes from, and its text.
type Step = (usize, Rc<str>);

/// How much is compared for each byte of the two dictionaries, and how much more. The unit is a
/// member, or a letter of a label.
const EACH: usize = 1;
const AT_LEAST: usize = 300_000;
/// The message if that is too little.
const TOO_MANY: &str = "more pairs of types are reached than are compared";

/// A symbol or a pair of types, with its differences and the nodes that it leads to.
struct Node {
    label: String,
    kind: &'static str,
    found: Findings,
    leads: Vec<Step>,
    /// The step by which a node first led here.
    way: Option<Step>,
    /// The symbol from which that way begins.
    root: usize,
    /// The step to the next node on the way to the nearest change.
    to: Option<Step>,
    /// The node with that change.
    end: usize,
    /// The types, if it is a pair.
    pair: Option<Pair>,
    /// The change of an object's size, which is reported if its type is not compared.
    size: Option<Difference>,
}

impl Node {
    fn new(label: String, kind: &'static str, found: Findings) -> Node {
        let (leads, way, to) = (Vec::new(), None, None);
        Node { label, kind, found, leads, way, root: 0, to, end: 0, pair: None, size: None }
    }

    /// Whether it has a difference, or a breaking one.
    fn changes(&self, is_breaking: bool) -> bool {
        self.found.said.iter().any(|one| one.breaks || !is_breaking)
    }
}

/// The comparison of what two files export.
struct Guard<'g, 'o, 'n> {
    sides: Sides<'g, 'o, 'n>,
    old: &'g Exports<'g>,
    new: &'g Exports<'g>,
    choice: &'g Choice<'g>,
    /// Symbols, followed by pairs of types.
    nodes: Vec<Node>,
    /// The number of symbols.
    symbols: usize,
    numbers: HashMap<Pair, Option<usize>>,
    removed: Vec<Change>,
    /// How much may still be compared.
    left: usize,
}

/// Compares what two files export. Returns changed types with the symbols that reach them, then
/// changed symbols; and a message if not everything was compared.
pub fn changes(
    sides: Sides<'_, '_, '_>,
    old: &Exports<'_>,
    new: &Exports<'_>,
    choice: &Choice<'_>,
) -> (Vec<Change>, Option<&'static str>) {
    let bytes = sides.before.bytes() + sides.after.bytes();
    let mut guard = Guard {
        sides,
        old,
        new,
        choice,
        nodes: Vec::new(),
        symbols: 0,
        numbers: HashMap::new(),
        removed: Vec::new(),
        left: EACH * bytes + AT_LEAST,
    };
    guard.compare_symbols();
    guard.follow();
    guard.lead_back();
    let is_cut = guard.left == 0;
    (guard.changes(), is_cut.then_some(TOO_MANY))
}

impl Guard<'_, '_, '_> {
    fn changes(mut self) -> Vec<Change> {
        let mut made = self.types();
        made.extend(exported::soname(self.old, self.new));
        made.append(&mut self.removed);
        for node in self.nodes.drain(..self.symbols).filter(|node| !node.found.said.is_empty()) {
            made.push(Change::new(node.label, node.kind, Fate::Changed, node.found.said));
        }
        let come = self.new.listed.iter().filter(|one| self.old.matching(one).is_none());
        let come = come.filter(|one| self.is_compared(one, SymbolChange::Added));
        made.extend(come.map(exported::addition));
        made
    }

    fn compare_symbols(&mut self) {
        for one in &self.old.listed {
            match self.new.matching(one) {
                None if self.is_compared(one, SymbolChange::Deleted) => {
                    self.removed.push(exported::removal(one));
                }
                Some(other) if self.is_compared(one, SymbolChange::OfType) => {
                    let found = exported::difference(&self.sides, one, other);
                    let size = exported::size(one, other);
                    let node = Node::new(exported::label(one), one.kind.word(), found);
                    self.nodes.push(Node { size, ..node });
                }
                _ => {}
            }
        }
        self.symbols = self.nodes.len();
    }

    fn is_compared(&self, one: &Export<'_>, change: SymbolChange) -> bool {
        !self.choice.leaves_out_symbol(&exported::plain_label(one), one, change)
    }

    /// Follows symbols to all pairs of types, the nearest first.
    fn follow(&mut self) {
        let mut todo: VecDeque<usize> = (0..self.symbols).collect();
        while let Some(number) = todo.pop_front() {
            for lead in std::mem::take(&mut self.nodes[number].found.leads) {
                let (reached, is_new) = self.node(lead.pair);
                let Some(reached) = reached else {
                    self.tell_size(number, lead.pair);
                    continue;
                };
                self.nodes[number].leads.push((reached, lead.text.clone()));
                if is_new {
                    let is_symbol = number < self.symbols;
                    let root = if is_symbol { number } else { self.nodes[number].root };
                    self.nodes[reached].way = Some((number, lead.text));
                    self.nodes[reached].root = root;
                    todo.push_back(reached);
                }
            }
        }
    }

    /// Reports an object's new size if no public header defines its type: programs that were linked
    /// with the old file copy the object.
    fn tell_size(&mut self, number: usize, of: Pair) {
        if number < self.symbols && self.choice.is_hidden(&self.sides, of) {
            let size = self.nodes[number].size.take();
            self.nodes[number].found.said.extend(size);
        }
    }

    /// The node of a pair, and whether it is new; None if the pair is not compared.
    fn node(&mut self, pair: Pair) -> (Option<usize>, bool) {
        let entry = match self.numbers.entry(pair) {
            Entry::Occupied(known) => return (*known.get(), false),
            Entry::Vacant(entry) => entry,
        };
        if self.left == 0 {
            return (None, false);
        }
        let label = self.sides.before.names.label(pair.0);
        let work = label.len() + self.sides.before.length(pair.0) + self.sides.after.length(pair.1);
        self.left = self.left.saturating_sub(work + 1);
        if self.choice.leaves_out_pair(&self.sides, &label, pair) {
            entry.insert(None);
            return (None, false);
        }
        let number = self.nodes.len();
        entry.insert(Some(number));
        let kind = kind_word(self.sides.before.kind(pair.0));
        let mut found = self.sides.compare(pair);
        self.choice.prune(&self.sides, pair, &mut found.said);
        self.nodes.push(Node { pair: Some(pair), ..Node::new(label, kind, found) });
        (Some(number), true)
    }

    /// Finds the nearest change that each node leads to: a breaking one, else any.
    fn lead_back(&mut self) {
        let mut behind: Vec<Vec<Step>> = vec![Vec::new(); self.nodes.len()];
        for (number, node) in self.nodes.iter().enumerate() {
            for (reached, text) in &node.leads {
                behind[*reached].push((number, text.clone()));
            }
        }
        let mut is_seen = vec![false; self.nodes.len()];
        for is_breaking in [true, false] {
            let mut todo = VecDeque::new();
            for (number, is_seen) in is_seen.iter_mut().enumerate().skip(self.symbols) {
                if !*is_seen && self.nodes[number].changes(is_breaking) {
                    *is_seen = true;
                    self.nodes[number].end = number;
                    todo.push_back(number);
                }
            }
            while let Some(number) = todo.pop_front() {
                for (before, text) in &behind[number] {
                    if !std::mem::replace(&mut is_seen[*before], true) {
                        self.nodes[*before].to = Some((number, text.clone()));
                        self.nodes[*before].end = self.nodes[number].end;
                        todo.push_back(*before);
                    }
                }
            }
        }
    }

    /// The changes of types.
    fn types(&mut self) -> Vec<Change> {
        let mut hit: HashMap<usize, Vec<(usize, Vec<String>)>> = HashMap::new();
        for number in 0..self.symbols {
            let steps = self.way(number);
            if !steps.is_empty() {
                hit.entry(self.nodes[number].end).or_default().push((number, steps));
            }
        }
        let mut made = Vec::new();
        for (number, node) in self.nodes.iter().enumerate().skip(self.symbols) {
            if node.found.said.is_empty() {
                continue;
            }
            let ways = hit.remove(&number).unwrap_or_else(|| vec![self.first(number)]);
            let said = node.found.said.clone();
            let change = Change::new(node.label.clone(), node.kind, Fate::Changed, said);
            made.push(Change { reached: self.reaches(ways), pair: node.pair, ..change });
        }
        made
    }

    /// The steps from a symbol to its nearest changed type.
    fn way(&self, number: usize) -> Vec<String> {
        let mut steps = Vec::new();
        let mut following = &self.nodes[number].to;
        while let Some((next, text)) = following {
            if steps.len() == MOST_STEPS {
                steps.push(CUT.to_owned());
                break;
            }
            steps.push(text.to_string());
            following = &self.nodes[*next].to;
        }
        steps
    }

    /// The symbol that led to a type first, and the steps from it.
    fn first(&self, number: usize) -> (usize, Vec<String>) {
        let mut steps = Vec::new();
        let mut before = &self.nodes[number].way;
        while let Some((next, text)) = before {
            if steps.len() == MOST_STEPS {
                steps.push(CUT.to_owned());
                break;
            }
            steps.push(text.to_string());
            before = &self.nodes[*next].way;
        }
        steps.reverse();
        (self.nodes[number].root, steps)
    }

    /// Groups symbols that lead to a type by the same steps.
    fn reaches(&self, ways: Vec<(usize, Vec<String>)>) -> Vec<Reach> {
        let mut made: Vec<Reach> = Vec::new();
        let mut places: HashMap<Vec<String>, usize> = HashMap::new();
        for (number, steps) in ways {
            let label = &self.nodes[number].label;
            let name = label.split_once(' ').map_or(label.as_str(), |(_, name)| name);
            let place = *places.entry(steps).or_insert_with_key(|steps| {
                made.push(Reach { symbols: Vec::new(), steps: steps.clone() });
                made.len() - 1
            });
            made[place].symbols.push(name.as_bytes().to_vec());
        }
        made
    }
}
