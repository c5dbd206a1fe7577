//! The units of a debug file: the types and symbols of a program as DWARF.
//!
//! The first unit has the types that look-ups by name find, and the symbols. Source files whose
//! static symbols share a name have a unit each, so that a debugger takes the symbol of the file in
//! which the program is stopped. The last unit has the hidden types, which look-ups do not find.

use super::arguments::Arguments;
use super::entries::{judge_count, Entries, Entry, Value};
use super::symbols::TypedSymbol;
use super::types::{Selection, TypeWriter};
use crate::types::catalog::{Signature, SymbolAnswer};
use ctfd_read::error::Result;
use gimli::constants::*;
use gimli::write::{Address, Dwarf, Expression, Range, RangeList};
use std::collections::{HashMap, HashSet};

/// The origin of the units: the program that wrote them, and the name of a source file. gdb takes
/// the language from the end of that name.
pub struct Producer {
    /// The program that wrote them.
    pub program: String,
    /// The name of the first unit.
    pub name: Vec<u8>,
}

/// The contents of a debug file.
pub struct Contents<'w, 'c, 'd, 'a> {
    /// The types.
    pub selection: &'w Selection<'c, 'd>,
    pub symbols: &'w [TypedSymbol<'a>],
    /// The locations of arguments, if they are written.
    pub arguments: Option<&'w Arguments<'w, 'c, 'd>>,
    /// The origin of the units.
    pub producer: &'w Producer,
}

/// An address range that begins at the start of a function.
#[derive(Clone, Copy)]
struct Span<'s, 'a> {
    low: &'s TypedSymbol<'a>,
    length: u64,
}

/// The symbols of one source file, or of all that need no unit of their own.
struct Part<'s, 'a> {
    source: &'a [u8],
    symbols: Vec<&'s TypedSymbol<'a>>,
    spans: Vec<Span<'s, 'a>>,
}

impl<'w, 'a> Contents<'w, '_, '_, 'a> {
    /// The number of entries, not counting the dimensions of arrays.
    fn entry_count(&self) -> usize {
        let of_type = |number| {
            let parts = self.selection.catalog.get(number).and_then(|of| of.length().ok());
            1 + parts.unwrap_or(0)
        };
        let of_symbol = |one: &TypedSymbol<'_>| {
            1 + one.signature().map_or(0, |signature| signature.arguments.len())
        };
        let types: usize = self.selection.catalog.all().map(of_type).sum();
        types + self.symbols.iter().map(of_symbol).sum::<usize>()
    }

    /// The contents as DWARF.
    pub fn write(&self, entries: Entries) -> Result<Dwarf> {
        judge_count(self.entry_count())?;
        let listed: Vec<&TypedSymbol<'a>> =
            self.symbols.iter().filter(|one| !one.is_alias()).collect();
        let is_own = |one: &&&TypedSymbol<'a>| one.name() == one.declared_name();
        let own_names: HashSet<&[u8]> =
            listed.iter().filter(is_own).map(|one| one.name()).collect();
        let parts = parts_of(&listed);
        let mut types = TypeWriter::new(self.selection, entries);
        let units: Vec<Entry> = parts.iter().map(|_| types.entries.add_unit()).collect();
        types.begin(units[0], self.selection.visible_types());
        if self.selection.hidden_types().next().is_some() {
            let unit = types.entries.add_unit();
            self.begin(&mut types.entries, unit, &self.producer.name);
            types.begin(unit, self.selection.hidden_types());
        }
        types.write_all();
        for (part, &unit) in parts.iter().zip(&units) {
            let source = if part.source.is_empty() { &self.producer.name } else { part.source };
            self.begin(&mut types.entries, unit, source);
            let base = set_ranges(&mut types.entries, unit, &part.spans);
            for one in &part.symbols {
                let is_taken = own_names.contains(one.declared_name());
                let name = if is_taken { one.name() } else { one.declared_name() };
                self.symbol(&mut types, unit, base, one, name);
            }
        }
        types.entries.finish()
    }

    fn begin(&self, entries: &mut Entries, unit: Entry, name: &[u8]) {
        entries.set(unit, DW_AT_producer, Value::name(self.producer.program.as_bytes()));
        entries.set(unit, DW_AT_language, DW_LANG_C99);
        entries.set(unit, DW_AT_name, Value::name(name));
    }

    fn symbol(
        &self,
        types: &mut TypeWriter<'_, '_, '_>,
        unit: Entry,
        base: u64,
        one: &TypedSymbol<'_>,
        name: &[u8],
    ) {
        let (tag, whole) = match one.description {
            SymbolAnswer::Object(of) => (DW_TAG_variable, types.whole_array(unit, of, one.size())),
            SymbolAnswer::Function(_) => (DW_TAG_subprogram, None),
        };
        let entry = types.entries.add(unit, tag);
        types.entries.set(entry, DW_AT_name, Value::name(name));
        if one.is_global() {
            types.entries.set(entry, DW_AT_external, Value::present());
        }
        let start = one.behind(0, types.entries.address_size());
        match &one.description {
            SymbolAnswer::Object(of) => {
                match whole {
                    Some(whole) => types.entries.set(entry, DW_AT_type, whole),
                    None => types.refer(entry, *of),
                }
                let mut place = Expression::new();
                place.op_addr(start);
                types.entries.set(entry, DW_AT_location, place);
            }
            SymbolAnswer::Function(signature) => {
                types.entries.set(entry, DW_AT_prototyped, Value::present());
                types.refer(entry, signature.returns);
                types.entries.set(entry, DW_AT_low_pc, start);
                types.entries.set(entry, DW_AT_high_pc, one.size());
                self.parameters(types, entry, base, one, signature);
            }
        }
    }

    fn parameters(
        &self,
        types: &mut TypeWriter<'_, '_, '_>,
        function: Entry,
        base: u64,
        one: &TypedSymbol<'_>,
        signature: &Signature,
    ) {
        let arguments = self.arguments.filter(|_| !one.is_copy());
        let mut places = arguments.map(|known| known.places(one, signature, base));
        if arguments.is_some() {
            let mut frame = Expression::new();
            frame.op(DW_OP_call_frame_cfa);
            types.entries.set(function, DW_AT_frame_base, frame);
        }
        for (number, &argument) in signature.arguments.iter().enumerate() {
            let parameter = types.entries.add(function, DW_TAG_formal_parameter);
            if let Some(places) = &mut places {
                let name = format!("arg{number}");
                types.entries.set(parameter, DW_AT_name, Value::name(name.as_bytes()));
                if let Some(place) = places[number].take() {
                    place.set(&mut types.entries, parameter);
                }
            }
            types.refer(parameter, argument);
        }
        if signature.is_open {
            types.entries.add(function, DW_TAG_unspecified_parameters);
        }
    }
}

/// Sets the addresses of a unit, and returns the base address of its location lists.
fn set_ranges(entries: &mut Entries, unit: Entry, spans: &[Span<'_, '_>]) -> u64 {
    let Some(first) = spans.first() else { return 0 };
    let base = if first.low.is_relocated() { 0 } else { first.low.address() };
    entries.set(unit, DW_AT_low_pc, Address::Constant(base));
    if let [only] = spans {
        if !only.low.is_relocated() {
            entries.set(unit, DW_AT_high_pc, only.length);
            return base;
        }
    }
    let size = entries.address_size();
    let range = |span: &Span<'_, '_>| match span.low.is_relocated() {
        true => Range::StartLength { begin: span.low.behind(0, size), length: span.length },
        false => {
            let begin = span.low.address() - base;
            Range::OffsetPair { begin, end: begin.saturating_add(span.length) }
        }
    };
    let list = RangeList(spans.iter().map(range).collect());
    let place = entries.unit(unit.unit).ranges.add(list);
    entries.set(unit, DW_AT_ranges, place);
    base
}

/// The symbols by unit, beginning with the common unit. A source file has a unit of its own if one
/// of its static names occurs in another file too.
fn parts_of<'s, 'a>(symbols: &[&'s TypedSymbol<'a>]) -> Vec<Part<'s, 'a>> {
    let mut sources: HashMap<&[u8], HashSet<&'a [u8]>> = HashMap::new();
    for one in symbols.iter().filter(|one| !one.source().is_empty()) {
        sources.entry(one.declared_name()).or_default().insert(one.source());
    }
    let several = sources.into_values().filter(|listed| listed.len() > 1);
    let own: HashSet<&[u8]> = several.flatten().collect();
    let mut places: HashMap<&[u8], usize> = HashMap::from([(&[][..], 0)]);
    let mut made = vec![Part { source: &[], symbols: Vec::new(), spans: Vec::new() }];
    let all = if own.is_empty() { vec![&[][..]; symbols.len()] } else { sources_of(symbols) };
    for (&one, source) in symbols.iter().zip(all) {
        let source = if own.contains(source) { source } else { &[] };
        let place = *places.entry(source).or_insert_with(|| {
            made.push(Part { source, symbols: Vec::new(), spans: Vec::new() });
            made.len() - 1
        });
        made[place].symbols.push(one);
    }
    set_spans(&mut made);
    made
}

/// The source file of each symbol, empty if not known. The symbol table has none for a global
/// function: it gets the file of the static functions before and after it, if these are of one
/// file.
fn sources_of<'a>(symbols: &[&TypedSymbol<'a>]) -> Vec<&'a [u8]> {
    let mut made: Vec<&[u8]> = symbols.iter().map(|one| one.source()).collect();
    let is_function = |&n: &usize| symbols[n].signature().is_some();
    let mut code: Vec<usize> = (0..symbols.len()).filter(is_function).collect();
    code.sort_by_key(|&n| (symbols[n].section(), symbols[n].address()));
    let mut between = Vec::new(); // global functions since the last static one
    let mut last: (u16, &[u8]) = (0, &[]);
    for n in code {
        if made[n].is_empty() {
            between.push(n);
            continue;
        }
        let here = (symbols[n].section(), made[n]);
        if here == last {
            between.iter().for_each(|&inner: &usize| made[inner] = here.1);
        }
        between.clear();
        last = here;
    }
    made
}

/// Sets the address ranges of each part's code; adjacent functions of one part share a range.
fn set_spans(parts: &mut [Part<'_, '_>]) {
    let mut code: Vec<(usize, &TypedSymbol<'_>)> = Vec::new();
    for (place, part) in parts.iter().enumerate() {
        let functions = part.symbols.iter().filter(|one| one.signature().is_some());
        code.extend(functions.filter(|one| one.size() != 0).map(|&one| (place, one)));
    }
    let sources: Vec<&[u8]> = parts.iter().map(|part| part.source).collect();
    code.sort_by_key(|&(place, one)| (one.section(), one.address(), one.size(), sources[place]));
    let mut last = None;
    for (place, one) in code {
        let spans = &mut parts[place].spans;
        match spans.last_mut().filter(|_| last == Some((place, one.section()))) {
            Some(span) => {
                let length = (one.address() - span.low.address()).saturating_add(one.size());
                span.length = span.length.max(length);
            }
            None => spans.push(Span { low: one, length: one.size() }),
        }
        last = Some((place, one.section()));
    }
}
