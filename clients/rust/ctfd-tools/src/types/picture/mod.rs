//! Pictures of structs and unions in SVG: each row is a cache line, each member a box in
//! proportion.
//!
//! Boxes are placed to the bit, and unused bits are hatched. Nested structs and unions have an
//! outline; the members of a union are drawn one below the other.

mod block;

use super::catalog::{Catalog, Number};
use super::declare::declaration;
use super::drawing::{self, Extent, Label, Rectangle};
use super::failure::{Failure, Outcome};
use super::file_types::FileTypes;
use super::layout::{Layout, Place};
use super::names::Names;
use super::text::printable;
use block::Block;
use ctfd::Kind;
use std::cell::RefCell;
use std::collections::{HashMap, HashSet};

const WIDTH: f64 = 896.0;
const MARGIN: f64 = 64.0;
const TOP: f64 = 44.0;
const LANE: f64 = 30.0;
const GAP: f64 = 6.0;
const NARROW: usize = 8;
const STRIP: f64 = 0.3;
const MOST_ROWS: usize = 400;
const MOST_LANES: u64 = 12;
const DEEPEST: usize = 16;
const MOST_BOXES: usize = 20_000;

/// A row of a picture: its first bit, its height in lanes, and its boxes. If `left_out` is not 0,
/// it stands for so many rows of one member, which are not drawn.
struct Row<'b> {
    start: u128,
    lanes: u64,
    blocks: Vec<&'b Block>,
    left_out: u128,
}

/// The vertical range of a struct or union, as parts of a row's height.
#[derive(Clone, Copy)]
struct Room {
    top: f64,
    high: f64,
}

/// The picture of the first struct or union with a name.
pub fn svg(whole: &FileTypes<'_, '_>, name: &[u8], cache_line: u64) -> Outcome<String> {
    let catalog = whole.names.catalog;
    let mut meant: Vec<Number> = whole.names.types_of_name(name)?.into_iter().collect();
    meant.sort_by_key(|&number| !catalog.is_own(number)); // a stable sort
    let found = meant.into_iter().find(|&number| catalog.record(number).is_aggregate());
    let Some(number) = found else {
        let name = printable(name);
        return Err(Failure::Unknown(format!("{name} is no struct or union: a picture is of one")));
    };
    Ok(Picture::of(whole.names, number, cache_line)?.svg())
}

/// The boxes of one type, and the measures of its rows.
struct Picture<'p, 'd> {
    names: &'p Names<'p, 'd>,
    catalog: &'p Catalog<'d>,
    number: Number,
    size: u64,
    row_bits: u128,
    scale: f64,
    cut: Vec<String>,
    blocks: Vec<Block>,
    lanes: RefCell<HashMap<(Number, usize), u64>>,
}

impl<'p, 'd> Picture<'p, 'd> {
    fn of(names: &'p Names<'p, 'd>, number: Number, cache_line: u64) -> Outcome<Picture<'p, 'd>> {
        let catalog = names.catalog;
        let size = catalog.size(number).unwrap_or(0);
        let whole = match 8 * u128::from(size).div_ceil(8) {
            0 => 8,
            bytes => bytes,
        };
        let row_bits = 8 * u128::from(cache_line).min(whole).max(1);
        let mut made = Picture {
            names,
            catalog,
            number,
            size,
            row_bits,
            scale: WIDTH / row_bits as f64,
            cut: Vec::new(),
            blocks: Vec::new(),
            lanes: RefCell::default(),
        };
        made.add(number, "", 0, Room { top: 0.0, high: 1.0 }, 0)?;
        Ok(made)
    }

    /// Adds the boxes of the members of a struct or union in a vertical range.
    fn add(
        &mut self,
        number: Number,
        path: &str,
        start: u128,
        room: Room,
        depth: usize,
    ) -> Outcome<()> {
        let whole = Layout::of(self.catalog, number);
        let is_union = self.catalog.kind(number) == Kind::Union;
        let lanes = self.lanes(number, depth);
        if lanes > MOST_LANES {
            self.leave_out(number, path, start, room);
            return Ok(());
        }
        let mut here = room;
        for place in &whole.places {
            if is_union {
                here.high = room.high * self.lanes_of(place, depth + 1) as f64 / lanes as f64;
            }
            self.add_gap(place, start, here);
            self.add_member(place, path, start, here, depth)?;
            if is_union {
                here.top += here.high;
            }
        }
        if whole.padding != 0 {
            let end = start + 8 * u128::from(whole.size) - whole.padding;
            self.add_unused("padding", end, whole.padding, room);
        }
        Ok(())
    }

    fn add_unused(&mut self, sort: &'static str, start: u128, bits: u128, room: Room) {
        let (name, of) = (sort.to_owned(), String::new());
        let Room { top, high } = room;
        self.blocks.push(Block { sort, name, of, start, bits, top, high, strip: 1.0 });
    }

    fn leave_out(&mut self, number: Number, path: &str, start: u128, room: Room) {
        let name = match path.is_empty() {
            true => self.names.label(number),
            false => path.to_owned(),
        };
        self.cut.push(format!("{name} has too many members side by side to be drawn"));
        self.blocks.push(Block {
            sort: "other",
            name,
            of: "members left out".to_owned(),
            start,
            bits: 8 * u128::from(self.catalog.size(number).unwrap_or(0)),
            top: room.top,
            high: room.high,
            strip: 1.0,
        });
    }

    fn add_gap(&mut self, place: &Place<'_>, start: u128, room: Room) {
        if place.gap != 0 {
            self.add_unused("hole", start + place.start - place.gap, place.gap, room);
        }
    }

    fn add_member(
        &mut self,
        place: &Place<'_>,
        path: &str,
        start: u128,
        room: Room,
        depth: usize,
    ) -> Outcome<()> {
        let own = printable(place.part.name);
        let name = match (path.is_empty(), own.is_empty()) {
            (true, _) => own.into_owned(),
            (false, true) => path.to_owned(),
            (false, false) => format!("{path}.{own}"),
        };
        let told = declaration(self.catalog, place.part.of, b"");
        let start = start + place.start;
        if self.blocks.len() >= MOST_BOXES {
            return Err(Failure::Unknown(format!(
                "{} holds too many members in each other to be drawn ({MOST_BOXES})",
                self.names.label(self.number)
            )));
        }
        let Room { top, high } = room;
        let mut block =
            Block { sort: "group", name, of: told, start, bits: place.bits, top, high, strip: 1.0 };
        let Some(inner) = self.inner(place, depth) else {
            block.sort = self.sort(place);
            if block.name.is_empty() {
                block.name = "(unnamed)".to_owned();
            }
            self.blocks.push(block);
            return Ok(());
        };
        let path = block.name.clone();
        if block.name.is_empty() {
            block.name = block.of.clone();
        }
        let strip = (STRIP / self.lanes(self.number, 0) as f64).min(0.4 * high);
        block.strip = strip / high;
        self.blocks.push(block);
        let room = Room { top: top + strip, high: high - strip };
        self.add(inner, &path, start, room, depth + 1)
    }

    /// The struct or union whose members are drawn; None if the member is a single box.
    fn inner(&self, place: &Place<'_>, depth: usize) -> Option<Number> {
        let reached = self.catalog.underlying(place.part.of);
        let is_open = self.catalog.record(reached.number).is_aggregate()
            && reached.elements == 1
            && depth < DEEPEST
            && !self.catalog.members(reached.number).is_empty();
        is_open.then_some(reached.number)
    }

    fn sort(&self, place: &Place<'_>) -> &'static str {
        if place.width.is_some() {
            return "bits";
        }
        match self.catalog.kind(self.catalog.resolve(place.part.of)) {
            Kind::Integer => "integer",
            Kind::Float => "float",
            Kind::Pointer => "pointer",
            Kind::Enum => "enum",
            Kind::Array => "array",
            Kind::Struct => "struct",
            Kind::Union => "union",
            _ => "other",
        }
    }

    /// How many boxes are below each other in a struct or union.
    fn lanes(&self, number: Number, depth: usize) -> u64 {
        if depth > DEEPEST {
            return 1;
        }
        if let Some(&known) = self.lanes.borrow().get(&(number, depth)) {
            return known;
        }
        let layout = Layout::of(self.catalog, number);
        let each = layout.places.iter().map(|place| self.lanes_of(place, depth + 1));
        let count = match self.catalog.kind(number) {
            Kind::Union => each.sum(),
            _ => each.max().unwrap_or(1),
        };
        let count = count.clamp(1, MOST_LANES + 1);
        self.lanes.borrow_mut().insert((number, depth), count);
        count
    }

    fn lanes_of(&self, place: &Place<'_>, depth: usize) -> u64 {
        self.inner(place, depth).map_or(1, |inner| self.lanes(inner, depth))
    }

    /// The rows from the top, and a text if some are left out at the end. Of many rows that one
    /// member fills, only the first and the last are drawn, and the others counted.
    fn rows(&self) -> (Vec<Row<'_>>, Option<String>) {
        let total = (8 * u128::from(self.size)).div_ceil(self.row_bits).max(1);
        let (mut rows, mut drawn, mut place) = (Vec::new(), 0, 0);
        while place < total {
            let blocks = self.within(place);
            let alike = self.alike(&blocks, place, total);
            let lanes = height(&blocks);
            rows.push(Row {
                start: place * self.row_bits,
                lanes,
                blocks: blocks.clone(),
                left_out: 0,
            });
            drawn += 1;
            if drawn >= MOST_ROWS {
                let more = total - place - 1;
                return (rows, Some(format!("{more} cache lines more")));
            }
            if alike > 2 {
                let start = (place + 1) * self.row_bits;
                rows.push(Row { start, lanes: 0, blocks, left_out: alike - 2 });
                place += alike - 2;
            }
            place += 1;
        }
        (rows, None)
    }

    /// How many rows, beginning with this one, lie within a single box.
    fn alike(&self, blocks: &[&Block], place: u128, total: u128) -> u128 {
        match blocks {
            [one] if one.start <= place * self.row_bits => {
                total.min(one.end() / self.row_bits) - place
            }
            _ => 1,
        }
    }

    fn within(&self, place: u128) -> Vec<&Block> {
        let (start, end) = (place * self.row_bits, (place + 1) * self.row_bits);
        self.blocks.iter().filter(|one| one.start < end && one.end() > start).collect()
    }

    fn svg(&self) -> String {
        let label = self.names.label(self.number);
        let mut parts = Vec::new();
        let mut y = TOP;
        let (rows, more) = self.rows();
        for row in rows {
            if row.left_out != 0 {
                let name = &row.blocks[0].name;
                let said = format!("{} cache lines more of {name}", row.left_out);
                parts.push(drawing::note(MARGIN + WIDTH / 2.0, y + 12.0, &said, "left-out"));
                y += 20.0;
                continue;
            }
            let high = row.lanes as f64 * LANE;
            self.add_row(&row, y, high, &mut parts);
            y += high;
            for line in self.narrow(&row) {
                y += 13.0;
                parts.push(drawing::note(MARGIN, y, &line, "key"));
            }
            y += GAP;
        }
        let mut known = HashSet::new();
        for said in self.cut.iter().chain(&more).filter(|said| known.insert(*said)) {
            y += 16.0;
            parts.push(drawing::note(MARGIN, y, &format!("left out: {said}"), "left-out"));
        }
        let whole = Layout::of(self.catalog, self.number);
        let under = format!(
            "{} bytes, {} members, {} bytes in holes, {} of padding",
            whole.size,
            whole.places.len(),
            whole.holes().sum::<u128>(),
            whole.padding / 8
        );
        let mut all = vec![
            drawing::note(MARGIN, 20.0, &label, "title"),
            drawing::note(MARGIN, 36.0, &under, "key"),
        ];
        all.append(&mut parts);
        drawing::page(MARGIN + WIDTH + 16.0, y + 12.0, &format!("{label}: {under}"), &all)
    }

    fn add_row(&self, row: &Row<'_>, y: f64, high: f64, parts: &mut Vec<String>) {
        let begins = (row.start / 8).to_string();
        parts.push(drawing::note(MARGIN - 8.0, y + 19.0, &begins, "offset"));
        let mut blocks = row.blocks.clone();
        blocks.sort_by_key(|one| one.sort == "group"); // a stable sort
        for block in blocks {
            let first = block.start.max(row.start);
            let last = block.end().min(row.start + self.row_bits);
            let wide = (last - first) as f64 * self.scale;
            let at = Rectangle {
                x: MARGIN + (first - row.start) as f64 * self.scale,
                y: y + block.top * high,
                wide,
                high: block.high * high,
            };
            let goes_on = if first == block.start { "" } else { ".. " };
            let name = format!("{goes_on}{}", block.name_within(wide));
            let told = block.description();
            let label = match block.strip * block.high * high < drawing::LOW {
                true => Label { name: "", of: "", told: &told },
                false => Label { name: &name, of: &block.of, told: &told },
            };
            let extent = Extent { name: &block.name, start: first, bits: last - first };
            parts.push(drawing::rectangle(block.sort, at, &label, &extent));
        }
    }

    /// Lines below a row with the members whose boxes are too narrow for their names.
    fn narrow(&self, row: &Row<'_>) -> Vec<String> {
        let is_narrow = |one: &&&Block| {
            !one.is_unused()
                && one.sort != "group"
                && !drawing::fits(one.label(), one.bits as f64 * self.scale)
                && one.start >= row.start
        };
        let mut lines: Vec<String> = Vec::new();
        for one in row.blocks.iter().filter(is_narrow) {
            let (byte, bit) = (one.start / 8, one.start % 8);
            let told = match one.sort {
                "bits" => format!("{byte}:{bit} {} {} bits", one.name, one.bits),
                _ => format!("{byte} {}", one.name),
            };
            let room = (WIDTH / drawing::LETTER) as usize - 4;
            match lines.last_mut() {
                Some(line) if line.chars().count() + told.chars().count() < room => {
                    *line += ", ";
                    *line += &told;
                }
                _ => lines.push(told),
            }
        }
        if lines.len() > NARROW {
            lines.truncate(NARROW);
            lines.push("..".to_owned());
        }
        lines
    }
}

/// The height of a row in lanes, so that its flattest box is one lane high.
fn height(blocks: &[&Block]) -> u64 {
    let drawn = blocks.iter().filter(|one| !one.is_unused());
    let least = drawn.map(|one| one.high).fold(1.0, f64::min);
    ((1.0 / least + 0.4).round_ties_even() as u64).clamp(1, 2 * MOST_LANES)
}
