//! Types in C, with offsets, sizes and holes as in pahole.

use super::catalog::{Catalog, Number, Value};
use super::declare::{base, declaration, declarator, Declarator};
use super::layout::{Layout, Place};
use super::text::printable;
use ctfd::Kind;
use std::fmt::Write as _;

const TYPE: usize = 26;
const NAME: usize = 22;
const TAB: usize = 8;
const DEEPEST: usize = 64;
const LONGEST: usize = 20_000;

/// How types are listed.
#[derive(Clone, Copy, Debug)]
pub struct Manner {
    /// Whether offsets and sizes follow members.
    pub has_places: bool,
    /// The size of a cache line in bytes.
    pub cache_line: u64,
    /// Whether structs and unions that a member contains are written in its place.
    pub is_expanded: bool,
    /// Whether offsets, sizes and values are in hexadecimal.
    pub is_hexadecimal: bool,
}

impl Manner {
    /// C only.
    pub const PLAIN: Manner =
        Manner { has_places: false, cache_line: 64, is_expanded: false, is_hexadecimal: false };
}

/// The lines of a type in full.
pub fn definition(catalog: &Catalog<'_>, number: Number, manner: Manner) -> String {
    let mut listing = Listing::new(catalog, manner);
    listing.definition(number);
    listing.text
}

/// The lines of some members, in this order.
pub fn members(catalog: &Catalog<'_>, places: &[Place<'_>]) -> String {
    let mut listing = Listing::new(catalog, Manner::PLAIN);
    listing.members(places, 1, 0);
    listing.text
}

/// The lines of a type, written from top to bottom; `line` is the last cache line that was noted.
///
/// An unnamed struct or union is written out at the member that it declares. This stops at a depth
/// and at a number of lines, since a hostile type doubles at each level.
struct Listing<'l, 'd> {
    catalog: &'l Catalog<'d>,
    manner: Manner,
    line: u128,
    lines: usize,
    text: String,
}

impl<'l, 'd> Listing<'l, 'd> {
    fn new(catalog: &'l Catalog<'d>, manner: Manner) -> Listing<'l, 'd> {
        Listing { catalog, manner, line: 0, lines: 0, text: String::new() }
    }

    fn push(&mut self, depth: usize, written: &str) {
        self.text.extend(std::iter::repeat_n('\t', depth));
        self.text += written;
        self.text.push('\n');
        self.lines += 1;
    }

    fn definition(&mut self, number: Number) {
        let catalog = self.catalog;
        let record = catalog.record(number);
        match record.kind {
            Kind::Struct | Kind::Union => {
                let whole = Layout::of(catalog, number);
                self.push(0, &format!("{} {{", self.head(number)));
                self.members(&whole.places, 1, 0);
                if self.manner.has_places && record.kind == Kind::Struct {
                    self.summary(&whole);
                }
                self.push(0, "};");
            }
            Kind::Enum => self.enumerators(number),
            Kind::Typedef => {
                let of = declaration(catalog, record.of, &record.name);
                self.push(0, &format!("typedef {of};"));
            }
            _ => self.push(0, &format!("{};", declaration(catalog, number, b""))),
        }
    }

    /// The word and tag of a type, or only the word if it has no tag.
    fn head(&self, number: Number) -> String {
        let record = self.catalog.record(number);
        match record.name.is_empty() {
            true => record.word().to_owned(),
            false => base(self.catalog, number),
        }
    }

    fn enumerators(&mut self, number: Number) {
        self.push(0, &format!("{} {{", self.head(number)));
        let values = self.catalog.values(number);
        let shown = |one: &Value| printable(&one.name).into_owned();
        let width = values.iter().map(|one| shown(one).chars().count()).max().unwrap_or(0);
        for one in values {
            let value = self.value(one.value);
            self.push(1, &format!("{:<width$} = {value},", shown(one)));
        }
        self.push(0, "};");
    }

    /// Writes members; the struct or union begins at byte `start`.
    fn members(&mut self, places: &[Place<'_>], depth: usize, start: u128) {
        for place in places {
            if self.manner.has_places {
                self.gap(place, depth);
                self.boundary(start + place.start / 8, depth);
            }
            let said = declarator(self.catalog, place.part.of, 0);
            let inner = self.inner_of(&said);
            match inner.filter(|_| depth < DEEPEST && self.lines < LONGEST) {
                Some(inner) => self.inner(place, &said, inner, depth, start),
                None => self.member(place, &said, depth, start),
            }
        }
    }

    /// The struct or union to write in place: an unnamed one, or with `is_expanded` any that the
    /// member contains.
    fn inner_of(&self, said: &Declarator) -> Option<Number> {
        let record = self.catalog.record(said.base);
        if record.is_aggregate() && record.name.is_empty() {
            return Some(said.base);
        }
        let is_open = self.manner.is_expanded && !said.has_star();
        let end = is_open.then(|| self.catalog.resolve(said.base));
        end.filter(|&end| self.catalog.record(end).is_aggregate())
    }

    /// Writes a member whose struct or union is written in place.
    fn inner(
        &mut self,
        place: &Place<'_>,
        said: &Declarator,
        inner: Number,
        depth: usize,
        start: u128,
    ) {
        let mut head = String::new();
        if inner != said.base {
            let _ = write!(head, "/* typedef {} */ ", base(self.catalog, said.base));
        }
        for word in &said.qualifiers {
            let _ = write!(head, "{word} ");
        }
        head += &self.head(inner);
        self.push(depth, &format!("{head} {{"));
        // The target of a pointer is elsewhere.
        let offset = u128::from(place.part.offset / 8);
        let begins = if said.has_star() { 0 } else { start + offset };
        self.members(&Layout::of(self.catalog, inner).places, depth + 1, begins);
        let name = format!("{}{}{}", said.left, printable(place.part.name), said.right);
        let end = if name.is_empty() { "};".to_owned() } else { format!("}} {name};") };
        self.push_with_place(&end, place, depth, start);
    }

    /// Writes a member: its type in a column, then its name and its place.
    fn member(&mut self, place: &Place<'_>, said: &Declarator, depth: usize, start: u128) {
        let (outer, mut declared) = match said.left.find('(') {
            Some(cut) => (&said.left[..cut], said.left[cut..].to_owned()),
            None => (&said.left[..], String::new()),
        };
        declared += &printable(place.part.name);
        declared += &said.right;
        if let Some(width) = place.width {
            let _ = write!(declared, ":{width}");
        }
        let mut spelled = said.spelling();
        let _ = write!(spelled, " {outer}");
        spelled.truncate(spelled.trim_end().len());
        if !self.manner.has_places {
            let glue = if outer.ends_with('*') { "" } else { " " };
            let written = format!("{spelled}{glue}{declared}");
            return self.push(depth, &format!("{};", written.trim_end()));
        }
        let column = TYPE.saturating_sub(TAB * (depth - 1));
        let written = format!("{spelled:<column$} {declared}");
        self.push_with_place(&format!("{};", written.trim_end()), place, depth, start);
    }

    fn push_with_place(&mut self, written: &str, place: &Place<'_>, depth: usize, start: u128) {
        if !self.manner.has_places {
            return self.push(depth, written);
        }
        let column = TYPE.saturating_sub(TAB * (depth - 1)) + NAME;
        let size = self.catalog.size(place.part.of);
        let lies = match place.width {
            None => {
                let byte = self.number(start + place.start / 8, 5);
                let bytes = size.map_or("    ?".to_owned(), |size| self.number(size.into(), 5));
                format!("/* {byte} {bytes} */")
            }
            Some(_) => {
                let unit = 8 * u128::from(size.unwrap_or(0).max(1));
                let begins = self.number(start + place.start / unit * unit / 8, 5);
                let bit = self.number(place.start % unit, 2);
                let bytes = self.number(size.unwrap_or(0).into(), 2);
                format!("/* {begins}:{bit} {bytes} */")
            }
        };
        self.push(depth, &format!("{written:<column$} {lies}"));
    }

    /// An offset or size as in pahole: 0 is 0 in hexadecimal too.
    fn number(&self, number: u128, width: usize) -> String {
        match self.manner.is_hexadecimal && number != 0 {
            true => format!("{:>width$}", format!("{number:#x}")),
            false => format!("{number:>width$}"),
        }
    }

    fn value(&self, value: i32) -> String {
        match (self.manner.is_hexadecimal && value != 0, value < 0) {
            (false, _) => value.to_string(),
            (true, false) => format!("{value:#x}"),
            (true, true) => format!("-{:#x}", value.unsigned_abs()),
        }
    }

    fn gap(&mut self, place: &Place<'_>, depth: usize) {
        for (length, unit) in [(place.bit_hole(), "bit"), (place.hole(), "byte")] {
            if length != 0 {
                let plural = if length > 1 { "s" } else { "" };
                self.push(0, "");
                self.push(depth, &format!("/* XXX {length} {unit}{plural} hole, try to pack */"));
                self.push(0, "");
            }
        }
    }

    /// Writes a note if a cache line begins at a member, or began in the last one.
    fn boundary(&mut self, byte: u128, depth: usize) {
        let length = u128::from(self.manner.cache_line);
        let (line, past) = (byte / length, byte % length);
        if line > self.line {
            let ago = match past {
                0 => String::new(),
                1 => " was 1 byte ago".to_owned(),
                _ => format!(" was {past} bytes ago"),
            };
            let begins = byte - past;
            let told = format!("/* --- cacheline {line} boundary ({begins} bytes){ago} --- */");
            self.push(depth, &told);
            self.line = line;
        }
    }

    fn summary(&mut self, whole: &Layout<'_>) {
        self.push(0, "");
        let (size, line) = (whole.size, self.manner.cache_line);
        let (lines, members) = (size.div_ceil(line), whole.places.len());
        self.note(&format!("size: {size}, cachelines: {lines}, members: {members}"));
        let fields = || whole.places.iter().filter(|place| place.width.is_some());
        let others = || whole.places.iter().filter(|place| place.width.is_none());
        if whole.holes().next().is_some() {
            let total = others().map(|place| place.bits).sum::<u128>() / 8;
            let (count, sum) = (whole.holes().count(), whole.holes().sum::<u128>());
            self.note(&format!("sum members: {total}, holes: {count}, sum holes: {sum}"));
        }
        if whole.bit_holes().next().is_some() {
            let total: u64 = fields().filter_map(|place| place.width).sum();
            let (count, sum) = (whole.bit_holes().count(), whole.bit_holes().sum::<u128>());
            self.note(&format!(
                "sum bitfield members: {total} bits, bit holes: {count}, sum bit holes: {sum} bits"
            ));
        }
        if whole.padding >= 8 {
            self.note(&format!("padding: {}", whole.padding / 8));
        }
        if whole.padding % 8 != 0 {
            self.note(&format!("bit_padding: {} bits", whole.padding % 8));
        }
        if size % line != 0 {
            self.note(&format!("last cacheline: {} bytes", size % line));
        }
    }

    fn note(&mut self, said: &str) {
        self.push(1, &format!("/* {said} */"));
    }
}
