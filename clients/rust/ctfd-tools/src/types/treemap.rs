//! Treemaps: pictures of all structs and unions of a dictionary, as rectangles with areas in
//! proportion to their sizes.

use super::catalog::Number;
use super::drawing::{self, Extent, Label, Rectangle};
use super::failure::Outcome;
use super::file_types::FileTypes;
use super::text::printable;
use ctfd::Kind;
use std::cmp::Reverse;

const WIDTH: f64 = 960.0;
const HIGH: f64 = 600.0;
const TOP: f64 = 44.0;
const MOST: usize = 500;

/// A rectangle of the picture; `bytes` is its area.
#[derive(Clone, Debug)]
struct Tile {
    sort: &'static str,
    label: String,
    bytes: u128,
}

/// The picture of the own types, or of those with some names. If there are too many, the smallest
/// share a rectangle.
pub fn svg(whole: &FileTypes<'_, '_>, patterns: &[Vec<u8>]) -> Outcome<String> {
    let all = whole.names.catalog.aggregates();
    let chosen: Vec<Number> = match patterns {
        [] => all.collect(),
        patterns => whole.names.matching(patterns, all)?,
    };
    let mut tiles: Vec<Tile> =
        chosen.into_iter().map(|number| tile(whole, number)).filter(|one| one.bytes != 0).collect();
    tiles.sort_by_key(|one| Reverse(one.bytes)); // a stable sort
    let total: u128 = tiles.iter().map(|one| one.bytes).sum();
    let mut said = format!("{} structs and unions, {total} bytes", tiles.len());
    if tiles.len() > MOST {
        let rest = tiles.split_off(MOST);
        let bytes = rest.iter().map(|one| one.bytes).sum();
        said += &format!("; the {} smallest stand in one box", rest.len());
        tiles.push(Tile { sort: "other", label: format!("{} others", rest.len()), bytes });
        tiles.sort_by_key(|one| Reverse(one.bytes));
    }
    let path = printable(whole.path);
    let mut parts = vec![
        drawing::note(8.0, 20.0, &drawing::cut(&path, WIDTH), "title"),
        drawing::note(8.0, 36.0, &said, "key"),
    ];
    let room = Rectangle { x: 8.0, y: TOP, wide: WIDTH, high: HIGH };
    parts.extend(laid(&tiles, room).into_iter().map(|(tile, room)| drawing_of(tile, room)));
    let title = format!("{path}: {said}");
    Ok(drawing::page(WIDTH + 16.0, TOP + HIGH + 8.0, &title, &parts))
}

fn tile(whole: &FileTypes<'_, '_>, number: Number) -> Tile {
    let catalog = whole.names.catalog;
    let sort = match catalog.kind(number) {
        Kind::Union => "union",
        _ => "struct",
    };
    let bytes = catalog.size(number).unwrap_or(0).into();
    Tile { sort, label: whole.names.label(number), bytes }
}

fn drawing_of(tile: &Tile, room: Rectangle) -> String {
    let told = format!("{}: {} bytes", tile.label, tile.bytes);
    let bare = tile.label.replacen("struct ", "", 1);
    let bytes = tile.bytes.to_string();
    let label = Label { name: &bare, of: &bytes, told: &told };
    let extent = Extent { name: &tile.label, start: 0, bits: 8 * tile.bytes };
    drawing::rectangle(tile.sort, room, &label, &extent)
}

/// Lays out tiles, sorted by decreasing size, in strips that keep them nearly square.
fn laid(tiles: &[Tile], mut room: Rectangle) -> Vec<(&Tile, Rectangle)> {
    let total: u128 = tiles.iter().map(|one| one.bytes).sum();
    let scale = room.wide * room.high / total.max(1) as f64;
    let mut left = tiles;
    let mut made = Vec::with_capacity(tiles.len());
    while !left.is_empty() {
        let short = room.wide.min(room.high);
        let (strip, rest) = left.split_at(strip(left, short, scale));
        let bytes: u128 = strip.iter().map(|one| one.bytes).sum();
        let deep = bytes as f64 * scale / short;
        made.extend(place_strip(strip, room, deep, scale));
        let Rectangle { x, y, wide, high } = room;
        room = match wide >= high {
            true => Rectangle { x: x + deep, wide: wide - deep, ..room },
            false => Rectangle { y: y + deep, high: high - deep, ..room },
        };
        left = rest;
    }
    made
}

/// The number of tiles for a strip along the shorter side, so that the flattest is as square as
/// possible.
fn strip(left: &[Tile], short: f64, scale: f64) -> usize {
    let (mut total, mut flattest): (u128, f64) = (0, f64::INFINITY);
    for (count, tile) in left.iter().enumerate() {
        total += tile.bytes;
        let deep = total as f64 * scale / short;
        let flat = |bytes: u128| flatness(bytes as f64 * scale / deep, deep);
        let longest = flat(left[0].bytes).max(flat(tile.bytes));
        if longest > flattest {
            return count;
        }
        flattest = longest;
    }
    left.len()
}

fn flatness(one: f64, other: f64) -> f64 {
    (one / other).max(other / one)
}

fn place_strip(
    strip: &[Tile],
    room: Rectangle,
    deep: f64,
    scale: f64,
) -> impl Iterator<Item = (&Tile, Rectangle)> {
    let (mut x, mut y) = (room.x, room.y);
    let is_wide = room.wide >= room.high;
    strip.iter().map(move |tile| {
        let length = tile.bytes as f64 * scale / deep;
        let here = match is_wide {
            true => Rectangle { x, y, wide: deep, high: length },
            false => Rectangle { x, y, wide: length, high: deep },
        };
        match is_wide {
            true => y += length,
            false => x += length,
        }
        (tile, here)
    })
}
