//! The dictionary that is written: alone, as a child of another, or together with its parent.

use crate::ctf::{table_of, Sections};
use crate::error::{refuse, Error, Result};
use crate::image::Image;
use crate::inputs::{Form, ProgramTypes, Verifier};
use crate::labels;
use crate::limits::fit;
use crate::merge::{merge, name_once};
use crate::section::encode;
pub use crate::section::MOST_TYPES;
use crate::select::{closure_of_all, fitting, left_out, roots, types_named};
use crate::symbols::{SymbolTable, Symbols};
use crate::table::{Record, Table};
use crate::verify::{Extent, Judges};
use ctfd::Model;
use std::borrow::Cow;
use std::collections::HashSet;
use std::path::Path;

/// A parent that exists already.
pub struct Parent<'a> {
    /// Its types.
    pub table: Table<'a>,
    /// Its bytes.
    pub ctf: &'a [u8],
    /// The name by which a child refers to it.
    pub name: String,
}

/// A dictionary before it is written: its types in a table, after those of its parent.
pub struct Dictionary<'a> {
    /// Its types.
    pub table: Table<'a>,
    /// The symbols that its entries of functions and objects belong to.
    pub symbols: Symbols<'a>,
    /// The bytes of its parent, if it has one.
    pub parent: Option<Vec<u8>>,
    /// Whether the parent is written too.
    pub has_own_parent: bool,
    /// The bytes to write instead of the table.
    pub plain: Option<Vec<u8>>,
}

/// Selects the wanted types of a file, merges equal ones, and reduces them to what CTF can
/// represent. Also returns how many of them are the base's.
pub fn select<'a>(found: ProgramTypes<'a>, names: &[String]) -> Result<(ProgramTypes<'a>, u32)> {
    let (mut found, bases) = select_in_full(found, names)?;
    if found.form != Form::Ctf {
        fit(&mut found.table);
    }
    Ok((found, bases))
}

/// As [`select`], but with everything that the file describes, whether or not CTF can represent it.
pub fn select_in_full<'a>(
    found: ProgramTypes<'a>,
    names: &[String],
) -> Result<(ProgramTypes<'a>, u32)> {
    let ProgramTypes { mut table, roots, bases, form, symbols, note, verifier } = found;
    if table.lacks_parent {
        let name = String::from_utf8_lossy(&table.parent_name);
        let name = if name.is_empty() { "a parent without a name".into() } else { name };
        return refuse(format!(
            "it is a child of {name}, whose types it names: name the parent's file by --base"
        ));
    }
    let roots: Vec<u32> = match names {
        [] => roots.into_iter().chain(table.symbol_roots()).collect(),
        names => types_named(&table, names)?,
    };
    let seen = table.reachable(roots);
    let order: Vec<u32> = (1..=table.len()).filter(|&n| seen[n as usize]).collect();
    let bases = order.iter().filter(|&&n| n <= bases).count() as u32;
    table.keep(&order);
    match form {
        Form::Dwarf | Form::Gnu => merge(&mut table, 0),
        Form::Btf => name_once(&mut table, 0),
        Form::Ctf | Form::OtherCtf => {}
    }
    if table.is_empty() {
        return refuse("it has no named types of C");
    }
    Ok((ProgramTypes { table, roots: Vec::new(), bases, form, symbols, note, verifier }, bases))
}

/// Makes a dictionary without a parent.
pub fn alone<'a>(mut table: Table<'a>, symbols: Symbols<'a>) -> Dictionary<'a> {
    if table.len() > MOST_TYPES {
        let is_hidden = |&n: &u32| !table.get(n).name.is_empty() && !table.get(n).root;
        let hidden: Vec<u32> = (1..=table.len()).filter(is_hidden).collect();
        let last = hidden.into_iter().chain(table.symbol_roots());
        let chosen = fitting(&table, roots(&table), last);
        let line = left_out(&table, &chosen.left, "a dictionary holds (--split writes two)");
        table.keep(&chosen.kept);
        table.is_cut = true;
        table.losses.extend(line);
    }
    let symbols = symbols_with_types(&mut table, symbols);
    Dictionary { table, symbols, parent: None, has_own_parent: false, plain: None }
}

/// If the names of symbols are stored in the dictionary, drops the symbols without a type, and
/// their entries in the table.
fn symbols_with_types<'a>(table: &mut Table<'a>, symbols: Symbols<'a>) -> Symbols<'a> {
    if symbols.table != SymbolTable::Names {
        return symbols;
    }
    let before = symbols.listed.len();
    let kept = keep_described(table, symbols);
    let left = before - kept.listed.len();
    if left != 0 {
        table.losses.push(format!(
            "{left} functions and variables are left out, because the types that they name are"
        ));
    }
    kept
}

/// Drops the symbols without a type, and their entries in the table.
pub fn keep_described<'a>(table: &mut Table<'a>, symbols: Symbols<'a>) -> Symbols<'a> {
    let objects: Vec<bool> = table.objects.iter().map(|&n| n != 0).collect();
    let functions: Vec<bool> = table.functions.iter().map(Option::is_some).collect();
    table.objects.retain(|&n| n != 0);
    table.functions.retain(Option::is_some);
    let kept_objects = symbols.objects().zip(objects).filter(|(_, is_kept)| *is_kept);
    let kept_functions = symbols.functions().zip(functions).filter(|(_, is_kept)| *is_kept);
    let listed = kept_objects.chain(kept_functions).map(|(one, _)| one.clone()).collect();
    Symbols { table: symbols.table, listed }
}

/// Makes a child of a parent that exists already.
pub fn child<'a>(
    parent: Parent<'a>,
    table: Table<'a>,
    symbols: Symbols<'a>,
) -> Result<Dictionary<'a>> {
    let mut made = over(parent.table, table, &parent.name, symbols);
    made.parent = Some(parent.ctf.to_vec());
    Ok(made)
}

/// A dictionary with a parent's types, followed by those types of a child that the parent lacks.
fn over<'a>(
    parent: Table<'a>,
    table: Table<'a>,
    name: &str,
    symbols: Symbols<'a>,
) -> Dictionary<'a> {
    let bases = parent.len();
    let to = |n: u32| if n == 0 { 0 } else { n + bases };
    let mut joined = Table { is_ilp32: table.is_ilp32, ..Table::default() };
    joined.records = parent.records;
    joined.records.extend(table.records.into_iter().map(|mut record| {
        record.renumber(to);
        record
    }));
    joined.objects = table.objects.into_iter().map(to).collect();
    joined.functions = table.functions;
    joined.functions.iter_mut().flatten().for_each(|one| one.renumber(to));
    joined.losses = table.losses;
    merge(&mut joined, bases);
    if joined.len() - bases > MOST_TYPES {
        let chosen = fitting(&joined, bases + 1..=joined.len(), joined.symbol_roots());
        let own = chosen.kept.into_iter().filter(|&n| n > bases).take(MOST_TYPES as usize);
        let kept: Vec<u32> = (1..=bases).chain(own).collect();
        let known: HashSet<u32> = kept.iter().copied().collect();
        let left: Vec<u32> = (1..=joined.len()).filter(|n| !known.contains(n)).collect();
        let line = left_out(&joined, &left, "a child holds beside its parent");
        joined.keep(&kept);
        joined.is_cut = true;
        joined.losses.extend(line);
    }
    joined.bases = bases;
    joined.parent_name = Cow::Owned(name.as_bytes().to_vec());
    let symbols = symbols_with_types(&mut joined, symbols);
    Dictionary { table: joined, symbols, parent: None, has_own_parent: false, plain: None }
}

/// Makes a parent with the base's types, or as many as it holds, and a child with the rest.
pub fn split<'a>(
    name: String,
    table: Table<'a>,
    bases: u32,
    symbols: Symbols<'a>,
) -> Result<Dictionary<'a>> {
    let wanted: Vec<u32> = if bases == 0 { roots(&table) } else { (1..=bases).collect() };
    let parents = closure_of_all(&table, wanted);
    let known: HashSet<u32> = parents.iter().copied().collect();
    let rest: Vec<u32> = (1..=table.len()).filter(|n| !known.contains(n)).collect();
    if parents.is_empty() {
        return refuse(
            "--split: no type and all that it reaches fits; leave it out, or choose by --only",
        );
    }
    if rest.is_empty() {
        return refuse("--split: nothing is left for a child; leave it out");
    }
    let mut parent = table.clone();
    parent.keep(&parents);
    parent.objects.clear();
    parent.functions.clear();
    parent.losses.clear();
    let ctf = parent_bytes(&mut parent)?;
    let mut made = if rest.len() > MOST_TYPES as usize {
        over(parent, table, &name, symbols)
    } else {
        let mut whole = table;
        let order: Vec<u32> = parents.iter().chain(&rest).copied().collect();
        whole.keep(&order);
        whole.bases = parents.len() as u32;
        whole.parent_name = Cow::Owned(name.into_bytes());
        let symbols = symbols_with_types(&mut whole, symbols);
        Dictionary { table: whole, symbols, parent: None, has_own_parent: false, plain: None }
    };
    made.parent = Some(ctf);
    made.has_own_parent = true;
    Ok(made)
}

fn parent_bytes(parent: &mut Table<'_>) -> Result<Vec<u8>> {
    let last = parent.len();
    parent.labels =
        labels::of_model(parent.model()).map(|it| (Cow::Owned(it), last)).into_iter().collect();
    encode(parent)
}

impl<'a> Dictionary<'a> {
    /// Whether it has entries of functions or objects.
    pub fn has_entries(&self) -> bool {
        !self.table.objects.is_empty() || !self.table.functions.is_empty()
    }

    /// Whether it has a label that identifies the symbols of its entries.
    pub fn has_label(&self) -> bool {
        self.has_entries() && !self.symbols.listed.is_empty() && self.plain.is_none()
    }

    /// Drops the symbols and their entries, and records the reason as a loss.
    pub fn leave_symbols_out(&mut self, why: String) {
        self.table.objects.clear();
        self.table.functions.clear();
        self.table.losses.push(why);
        self.symbols = Symbols::default();
    }

    /// The bytes of the dictionary, with labels for the data model and the symbols, and the name of
    /// its parent.
    pub fn bytes(&mut self) -> Result<Vec<u8>> {
        if let Some(plain) = &self.plain {
            return Ok(plain.clone());
        }
        let mut own: Vec<Vec<u8>> = labels::of_model(self.table.model()).into_iter().collect();
        if self.has_label() {
            own.push(labels::of_symbols(&self.symbols));
        }
        let last = self.table.len();
        self.table.labels.retain(|(label, _)| !labels::is_own(label));
        self.table.labels.extend(own.into_iter().map(|label| (Cow::Owned(label), last)));
        if let Some(parent) = &self.parent {
            self.table.parent_label = Cow::Owned(labels::of_types(&Sections::of(parent)?));
        }
        encode(&self.table)
    }

    /// The bytes, after the library has opened them, over the parent and with the symbols of the
    /// file. If the entries do not fit the symbol table, they are left out, and a loss is recorded.
    pub fn checked_bytes(&mut self, image: &Image, output: &Path) -> Result<Vec<u8>> {
        let refused = |refusal: ctfd::Refusal| {
            let output = output.display();
            Error(format!("{output}: it is not written, since the service refused it: {refusal}"))
        };
        let bytes = self.bytes()?;
        match self.open(&bytes, image) {
            Ok(()) => return Ok(bytes),
            Err(refusal) if !self.has_entries() || !is_of_symbols(&refusal) => {
                return Err(refused(refusal))
            }
            Err(_) => {}
        }
        self.leave_symbols_out(format!(
            "{}: the types of its symbols do not fit its symbol table: symbols are left out",
            image.path().display()
        ));
        let bytes = self.bytes()?;
        self.open(&bytes, image).map_err(refused)?;
        Ok(bytes)
    }

    fn open(&self, bytes: &[u8], image: &Image) -> std::result::Result<(), ctfd::Refusal> {
        let model = self.table.model();
        let made = (self.symbols.table == SymbolTable::Names).then(|| self.symbols.made_table());
        let lists = match &made {
            Some((table, strings)) => Some((table.as_slice(), strings.as_slice())),
            None => crate::elf::symbol_lists(image, self.symbols.table),
        };
        let lists = lists.filter(|_| self.has_label());
        let options = ctfd::Options {
            model,
            symbols: lists.map(|(table, _)| table),
            strings: lists.map(|(_, strings)| strings),
        };
        let mut types = ctfd::Dictionary::open_lent(bytes, options)?;
        if let Some(parent) = &self.parent {
            let options = ctfd::Options { model, ..ctfd::Options::default() };
            let parent = ctfd::Dictionary::open_lent(parent, options)?;
            types.import(&parent)?;
        }
        Ok(())
    }
}

/// The bytes of a written dictionary, and those of its parent if it is a child.
pub type WithParent<'b> = (&'b [u8], Option<&'b [u8]>);

/// Refuses dictionaries that differ from the types that were read. Returns the number of types
/// compared.
pub fn verify(
    written: &[WithParent<'_>],
    extent: Extent,
    verifier: &Verifier<'_>,
) -> Result<usize> {
    let tables = written.iter().map(|&one| table_over(one)).collect::<Result<Vec<_>>>()?;
    verifier(&Judges::new(&tables, extent))
}

/// The types of a dictionary, after those of its parent.
fn table_over((bytes, parent): WithParent<'_>) -> Result<Table<'_>> {
    let parent = parent.map(|parent| table_of(&Sections::of(parent)?, &[], None)).transpose()?;
    table_of(&Sections::of(bytes)?, &[], parent)
}

/// Whether a fault is about symbols.
fn is_of_symbols(refusal: &ctfd::Refusal) -> bool {
    matches!(
        refusal.fault,
        ctfd::Fault::BadFuncs | ctfd::Fault::BadSymbolType | ctfd::Fault::BadSymtab
    )
}

/// The name by which a child refers to its parent: the name of the parent's file, up to the last
/// dot.
pub fn parent_name(path: &Path) -> String {
    let name = path.file_stem().map(|name| name.to_string_lossy().into_owned());
    name.filter(|name| !name.is_empty()).unwrap_or_else(|| "parent".to_owned())
}

/// The lines of a report: what was read, what was written and what was lost.
pub fn report(path: &Path, form: Form, count: u32, made: &Dictionary<'_>) -> Vec<String> {
    let table = &made.table;
    let own = &table.records[table.bases as usize..];
    let mut kinds: Vec<(&str, usize)> = Vec::new();
    for record in own {
        match kinds.iter_mut().find(|(name, _)| *name == record.kind.name()) {
            Some((_, count)) => *count += 1,
            None => kinds.push((record.kind.name(), 1)),
        }
    }
    kinds.sort_by_key(|&(_, count)| std::cmp::Reverse(count)); // a stable sort
    let model = labels::model_word(table.model());
    let name = String::from_utf8_lossy(&table.parent_name);
    let over =
        if name.is_empty() { String::new() } else { format!(" over {} of {name}", table.bases) };
    let mut lines = vec![
        format!("read: {}, {form}, {count} types, {model}", path.display()),
        format!("written: {} types{over}", own.len()),
    ];
    lines.extend(kinds.into_iter().map(|(kind, count)| format!("  {count} {kind}")));
    let objects = table.objects.iter().filter(|&&n| n != 0).count();
    let functions = table.functions.iter().flatten().count();
    lines.push(format!(
        "symbols: {objects} of {} objects, {functions} of {} functions, by {}",
        table.objects.len(),
        table.functions.len(),
        made.symbols.table.word()
    ));
    let hidden = own.iter().filter(|record| !record.name.is_empty() && !record.root);
    lines.extend(hidden.map(Record::tag_name).map(|name| format!("hidden from look-ups: {name}")));
    lines.extend(loss_lines(&table.losses).into_iter().map(|line| format!("lost: {line}")));
    lines
}

/// Each line once, with the number of its occurrences.
pub fn loss_lines(losses: &[String]) -> Vec<String> {
    let mut lines: Vec<(&String, usize)> = Vec::new();
    let mut known = std::collections::HashMap::new();
    for line in losses {
        let place = *known.entry(line).or_insert(lines.len());
        if place == lines.len() {
            lines.push((line, 0));
        }
        lines[place].1 += 1;
    }
    let told = |(line, count): (&String, usize)| match count {
        1 => line.clone(),
        _ => format!("{line} ({count} times)"),
    };
    lines.into_iter().map(told).collect()
}

/// The lines on losses that a user sees. Those on types, symbols or files that are left out come
/// first; of more than `most` others, the last lines are replaced by one with their number and
/// `how` to see them.
pub fn notice(losses: &[String], most: usize, how: &str) -> Vec<String> {
    let (mut first, mut others): (Vec<String>, Vec<String>) =
        loss_lines(losses).into_iter().partition(|line| is_grave(line));
    if others.len() > most {
        let left = others.len() - most + 1;
        others.truncate(most - 1);
        others.push(format!(
            "{left} constructs more that CTF cannot represent were changed or left out: {how}"
        ));
    }
    first.append(&mut others);
    first
}

/// Whether a line says that types, symbols or files are left out.
fn is_grave(line: &str) -> bool {
    let mut words = line.split(' ');
    let is_count = words.next().is_some_and(|word| word.bytes().all(|byte| byte.is_ascii_digit()));
    let is_of_many = matches!(words.next(), Some("types" | "functions" | "unit" | "units"));
    is_count && is_of_many || line.contains(": symbols are left out")
}

impl Table<'_> {
    /// The data model of its program.
    pub fn model(&self) -> Model {
        if self.is_ilp32 {
            Model::Ilp32
        } else {
            Model::Lp64
        }
    }
}
