//! The answer for one file.

use super::catalog::{Catalog, Number};
use super::crowded::{is_crowded, CROWDED};
use super::embeds::Embeds;
use super::failure::{refusal_text, Failure, Outcome};
use super::figures::{table, Order};
use super::file_types::FileTypes;
use super::listing::{definition, Manner};
use super::lookup::{self, FoundType};
use super::names::Names;
use super::open::{
    display_path, library_input, with_catalog, GivenSymbols, OpenDictionary, Parents,
};
use super::options::{Question, Words};
use super::symbol_lists::symbol_lists;
use super::text::{is_pattern, printable, without_tag, TAGS};
use super::{declare, header, json, members, picture, records, reorganize, symbols, treemap, warn};
use crate::elsewhere;
use ctfd_read::nearest::suggestion;
use ctfd_read::opening::Origin;
use std::borrow::Cow;
use std::collections::{BTreeSet, HashSet};
use std::io::Write;
use std::os::unix::ffi::OsStrExt as _;
use std::path::Path;

/// Prints the answer for a file. Returns whether it is complete.
pub fn file(
    words: &Words,
    parents: &Parents<'_>,
    path: &Path,
    output: &mut dyn Write,
) -> Outcome<bool> {
    let image = elsewhere::open(path, &words.reading)?;
    let given = GivenSymbols::of(words)?;
    let mut found = library_input(&image, words)?;
    given.put(&mut found)?;
    if matches!(words.question, Question::Functions(_)) && found.has_more_names() {
        found.add_names();
    }
    with_catalog(path, &found, parents, |opened| {
        if matches!(opened.handed.origin, Origin::Refused | Origin::Differs) {
            warn(&format!("{}: {}", display_path(path), opened.handed.origin.warning()));
        }
        let answer = Answer { words, parents, path, opened };
        match words.is_of_all() {
            true => answer.on_all(output),
            false => answer.on_some(output).map(|()| true),
        }
    })
}

/// The answer for one open file.
struct Answer<'a, 'd> {
    words: &'a Words,
    parents: &'a Parents<'a>,
    path: &'a Path,
    opened: &'a OpenDictionary<'a, 'd>,
}

impl<'a, 'd> Answer<'a, 'd> {
    fn catalog(&self) -> &'a Catalog<'d> {
        self.opened.catalog
    }

    fn manner(&self) -> Manner {
        Manner {
            has_places: !self.words.is_plain,
            cache_line: self.words.cache_line,
            is_expanded: self.words.is_expanded,
            is_hexadecimal: self.words.is_hexadecimal,
        }
    }

    /// The message for a child that is read without its parent.
    fn without_parent(&self) -> Option<String> {
        let catalog = self.catalog();
        let name = catalog.parent_name();
        let name = match name.is_empty() {
            true => Cow::Borrowed("a parent without a name"),
            false => printable(&name),
        };
        let is_alone = catalog.is_child() && self.words.parent.is_none();
        is_alone.then(|| {
            format!(
                "{} is a child of {name}, whose types it names: name the parent's file by --parent",
                display_path(self.path)
            )
        })
    }

    /// Answers a question on all types. Returns whether the answer is complete.
    fn on_all(&self, output: &mut dyn Write) -> Outcome<bool> {
        if let Some(why) = self.without_parent() {
            return Err(Failure::Refused(why));
        }
        if is_crowded(self.catalog()) {
            return Err(Failure::Refused(format!("{}: {CROWDED}", display_path(self.path))));
        }
        let names = Names::new(self.catalog());
        let whole = FileTypes::new(self.path.as_os_str().as_bytes(), &names);
        self.answer(&whole, output)?;
        let cuts = whole.cuts();
        cuts.iter().for_each(|cut| warn(&format!("{}: {cut}", display_path(self.path))));
        Ok(cuts.is_empty())
    }

    fn answer(&self, whole: &FileTypes<'_, 'd>, output: &mut dyn Write) -> Outcome<()> {
        let words = self.words;
        let of_names = &words.names;
        match &words.question {
            Question::At(name, offset) => {
                let mut held = Vec::new(); // a later one may be refused
                members::at(whole, name, offset, &mut held)?;
                Ok(output.write_all(&held)?)
            }
            Question::Members(name) => {
                members::list_members_of_name(whole, name, words.is_json, output)
            }
            Question::Functions(name) => {
                let lists = symbol_lists(self.opened.handed);
                symbols::functions(whole, &lists, name, words.is_json, output)
            }
            Question::Show(listed) => self.records(whole, listed, output),
            Question::Reorganize => reorganize::list_better_orders(whole, of_names, output),
            Question::Contains(name) => self.holders(whole, name, false, output),
            Question::Uses(name) => self.holders(whole, name, true, output),
            Question::Header => header::write(whole, of_names, output),
            Question::Picture(name) => {
                let picture = picture::svg(whole, name, words.cache_line)?;
                Ok(output.write_all(picture.as_bytes())?)
            }
            Question::Treemap => Ok(output.write_all(treemap::svg(whole, of_names)?.as_bytes())?),
            Question::Sizes(least) => self.sizes(whole, *least, output),
            Question::Complete(text) => self.completions(text, output),
            Question::Types | Question::Number(_) => self.matching(whole, output),
        }
    }

    fn records(
        &self,
        whole: &FileTypes<'_, 'd>,
        listed: &[std::ffi::OsString],
        output: &mut dyn Write,
    ) -> Outcome<()> {
        let text = |place: usize| listed.get(place).map(|word| word.to_string_lossy());
        let (offset, count) = (text(2), text(3));
        let wanted = records::RecordRequest {
            name: listed[0].as_bytes(),
            file: Path::new(&listed[1]),
            offset: offset.as_deref(),
            count: count.as_deref(),
        };
        records::records(whole, &wanted, self.words.is_hexadecimal, output)
    }

    /// Prints the members that contain a type, or pointers to it, one line each.
    fn holders(
        &self,
        whole: &FileTypes<'_, 'd>,
        name: &[u8],
        is_pointer: bool,
        output: &mut dyn Write,
    ) -> Outcome<()> {
        let targets = whole.names.types_of_name(name)?;
        let embeds = Embeds::new(whole.names, self.words.is_recursive);
        let found = embeds.of(&targets, is_pointer);
        for owner in embeds.cut() {
            let label = whole.names.label(owner);
            whole.cut(format!("{label} has more members of members than are walked"));
        }
        for one in found {
            match self.words.is_json {
                true => writeln!(output, "{}", json::embedded_member(whole, &one))?,
                false => writeln!(output, "{}", one.line(whole.names))?,
            }
        }
        Ok(())
    }

    fn sizes(
        &self,
        whole: &FileTypes<'_, 'd>,
        least: Option<i64>,
        output: &mut dyn Write,
    ) -> Outcome<()> {
        let usual = if least.is_none() { Order::Size } else { Order::Holes };
        let order = self.words.order.unwrap_or(usual);
        let found = whole.sizes.sorted_figures(&self.words.names, least.unwrap_or(0), order)?;
        if !self.words.is_json {
            return table(&found, output);
        }
        for one in found {
            writeln!(output, "{}", json::of_type(whole, one.number))?;
        }
        Ok(())
    }

    /// Prints types in full, without duplicates and with blank lines between them; or as JSON
    /// objects.
    fn matching(&self, whole: &FileTypes<'_, 'd>, output: &mut dyn Write) -> Outcome<()> {
        let catalog = self.catalog();
        let numbers: Vec<Number> = match &self.words.names[..] {
            [] => catalog.own_numbers().collect(),
            names => whole.names.matching(names, catalog.own_numbers())?,
        };
        if self.words.is_json {
            for number in numbers {
                writeln!(output, "{}", json::of_type(whole, number))?;
            }
            return Ok(());
        }
        let mut known = HashSet::new();
        for number in numbers {
            let number = lookup::worth_listing(catalog, number);
            if known.insert(number) {
                let blank = if known.len() > 1 { "\n" } else { "" };
                write!(output, "{blank}{}", definition(catalog, number, self.manner()))?;
            }
        }
        Ok(())
    }

    /// Prints the names with a prefix, one line each; tags also without their word.
    fn completions(&self, text: &[u8], output: &mut dyn Write) -> Outcome<()> {
        let is_plain = |name: &[u8]| name.iter().all(|byte| matches!(byte, b' '..=b'~'));
        let mut listed = BTreeSet::new();
        for name in lookup::names(self.catalog()) {
            let (_, bare) = without_tag(&name);
            let both = [&name[..], bare];
            let wanted = both.into_iter().filter(|name| name.starts_with(text) && is_plain(name));
            listed.extend(wanted.map(|name| name.to_vec()));
        }
        for name in listed {
            writeln!(output, "{}", printable(&name))?;
        }
        Ok(())
    }

    // Prints some types, or a list of all.

    fn on_some(&self, output: &mut dyn Write) -> Outcome<()> {
        if let Some(why) = self.without_parent() {
            warn(&why);
        }
        let mut text = String::new();
        if let Question::Number(number) = self.words.question {
            text = definition(self.catalog(), self.of_number(number)?, self.manner());
        } else if self.words.names.is_empty() {
            return self.all(output);
        }
        for name in &self.words.names {
            text += &self.types_of_name(name)?;
        }
        if self.catalog().lacks_parent() {
            let fault = ctfd::Fault::NoParent;
            let refusal = ctfd::Refusal { fault, place: 0 };
            return Err(Failure::Refused(refusal_text(display_path(self.path), refusal)));
        }
        Ok(output.write_all(text.as_bytes())?)
    }

    fn of_number(&self, number: u64) -> Outcome<Number> {
        let catalog = self.catalog();
        let known = Number::try_from(number).ok().filter(|&number| catalog.get(number).is_some());
        known.ok_or_else(|| {
            let mut own = catalog.own_numbers();
            Failure::Refused(match (own.next(), own.next_back()) {
                (Some(first), last) => format!(
                    "no type has the number {number}: they go from {first} to {}",
                    last.unwrap_or(first)
                ),
                (None, _) => "it has no types".to_owned(),
            })
        })
    }

    /// Prints a line for each type: its number, its size in bytes ("-" if it has none), its name.
    fn all(&self, output: &mut dyn Write) -> Outcome<()> {
        let catalog = self.catalog();
        for (number, of) in catalog.own_numbers().filter_map(|n| Some((n, catalog.get(n)?))) {
            let size = of.size().map_or("-".to_owned(), |size| size.to_string());
            match of.name() {
                Ok(name) => writeln!(output, "{number:>6} {size:>8}  {}", printable(&name))?,
                Err(refusal) => {
                    writeln!(output, "{number:>6} {size:>8}  ({})", refusal.fault)?;
                }
            }
        }
        Ok(())
    }

    /// The first type with a name in full, or all of them, or the declaration of a symbol.
    fn types_of_name(&self, name: &[u8]) -> Outcome<String> {
        let catalog = self.catalog();
        let all = lookup::find_all(catalog, name);
        if self.words.is_all && !all.is_empty() {
            return Ok(all.into_iter().map(|number| self.listing(number)).collect());
        }
        if !self.words.is_all {
            lookup::others(&all, name).iter().for_each(|line| warn(line));
        }
        let found = lookup::find(catalog, name)
            .map_err(|refusal| Failure::of_library(display_path(self.path), refusal))?;
        match found {
            Some(FoundType { number, stars: 0 }) if number != 0 => Ok(self.listing(number)),
            Some(FoundType { number, stars }) => {
                Ok(format!("{};\n", declare::declarator(catalog, number, stars).around("")))
            }
            None => self.symbol_or_tag(name),
        }
    }

    fn listing(&self, number: Number) -> String {
        let number = lookup::worth_listing(self.catalog(), number);
        definition(self.catalog(), number, self.manner())
    }

    /// The declaration of a symbol; else the only struct, union or enum with this tag.
    fn symbol_or_tag(&self, name: &[u8]) -> Outcome<String> {
        let why = match self.symbol(name)? {
            Ok(declared) => return Ok(declared + "\n"),
            Err(why) => why,
        };
        if let Some(number) = lookup::find_tag(self.catalog(), name) {
            return Ok(self.listing(number));
        }
        let shown = printable(name);
        Err(Failure::Unknown(format!(
            "no type or symbol is called {shown} ({why}){}",
            self.advice(name)
        )))
    }

    /// The declaration of a symbol in C; else why there is none.
    fn symbol(&self, name: &[u8]) -> Outcome<Result<String, String>> {
        let handed = self.opened.handed;
        if handed.has_more_names() {
            let mut whole = handed.without_symbols();
            whole.add_names();
            return with_catalog(self.path, &whole, self.parents, |opened| {
                Ok(symbols::declaration_of(opened.catalog, name).map_err(|r| r.fault.to_string()))
            });
        }
        if matches!(handed.origin, Origin::Unread | Origin::Differs | Origin::Stripped) {
            return Ok(Err(handed.origin.warning().to_owned()));
        }
        let declared = symbols::declaration_of(self.catalog(), name);
        if declared.is_ok() && handed.origin == Origin::Guessed {
            warn(handed.origin.warning());
        }
        Ok(declared.map_err(|refusal| refusal.fault.to_string()))
    }

    /// Advice on what the user may have meant. Stars after a blank make a pointer, not a pattern.
    fn advice(&self, name: &[u8]) -> String {
        let text = printable(name);
        let stripped = text.replace('*', " ");
        let words: Vec<&str> = stripped.split_whitespace().collect();
        match words[..] {
            [word] if text.contains('*') && TAGS.contains(&word) && !is_pattern(name) => {
                format!("; a star behind a blank is a pointer's: '{word} ?*' is the pattern of all")
            }
            _ => {
                let known = lookup::names(self.catalog());
                suggestion(&text, known.into_iter().map(|name| printable(&name).into_owned()))
            }
        }
    }
}
