//! The elements of pictures: boxes and texts of SVG, in colors for light and dark.

use super::text::printable;
use std::fmt::Write as _;

/// The width of a letter, a little more than the font's.
pub const LETTER: f64 = 7.0;
/// The least height of a box with a name in it.
pub const LOW: f64 = 12.0;
const TALL: f64 = 26.0;
const FONT: &str = "ui-monospace,Menlo,Consolas,'DejaVu Sans Mono',monospace";

/// The classes of boxes and texts, with their colors for light and dark.
///
/// Each element has its own color, since not all viewers know more of CSS. Those that do use the
/// dark colors if the reader prefers these.
const COLORS: [(&str, &str, &str); 14] = [
    ("page", "#fff", "#0f1318"),
    ("integer", "#d8e8fb", "#1f3a5c"),
    ("float", "#d5f0f0", "#1c4747"),
    ("pointer", "#e7dcf8", "#40305f"),
    ("enum", "#dcf2d6", "#264a26"),
    ("array", "#fdecc8", "#574316"),
    ("struct", "#f9dfd3", "#5b3424"),
    ("union", "#fdecc8", "#574316"),
    ("bits", "#fbd9e6", "#5a2840"),
    ("other", "#e4e7eb", "#30363d"),
    ("ink", "#1b1f24", "#e6e9ed"),
    ("faint", "#59636e", "#a0a8b2"),
    ("line", "#59636e", "#8a939e"),
    ("hatch", "#b3261e", "#ff8a80"),
];
const FILLS: usize = 10;
const FAINT: [&str; 4] = ["type", "key", "offset", "left-out"];
const HATCHED: [&str; 2] = ["hole", "padding"];

fn color(sort: &str) -> (&'static str, &'static str) {
    let found = COLORS.iter().find(|(name, ..)| *name == sort);
    found.map_or(("#e4e7eb", "#30363d"), |&(_, light, dark)| (light, dark))
}

fn light(sort: &str) -> &'static str {
    color(sort).0
}

/// A number with at most six digits, as C prints it by `%g`.
pub fn six_digits(number: f64) -> String {
    if number == 0.0 {
        return "0".to_owned();
    }
    let exponential = format!("{number:.5e}");
    let (digits, exponent) = exponential.split_once('e').unwrap_or((&exponential, "0"));
    let exponent: i32 = exponent.parse().unwrap_or(0);
    let trim = |text: &str| match text.contains('.') {
        true => text.trim_end_matches('0').trim_end_matches('.').to_owned(),
        false => text.to_owned(),
    };
    if (-4..6).contains(&exponent) {
        return trim(&format!("{number:.*}", (5 - exponent) as usize));
    }
    let sign = if exponent < 0 { '-' } else { '+' };
    format!("{}e{sign}{:02}", trim(digits), exponent.abs())
}

/// Text for SVG. Escapes it so that no name contains a tag, ends an attribute, or has characters
/// that are invalid in XML.
fn clean(said: &str) -> String {
    let mut made = String::with_capacity(said.len());
    for letter in printable(said.as_bytes()).chars() {
        match letter {
            '&' => made += "&amp;",
            '<' => made += "&lt;",
            '>' => made += "&gt;",
            '"' => made += "&quot;",
            '\'' => made += "&#x27;",
            _ => made.push(letter),
        }
    }
    made
}

fn style() -> String {
    let mut made = "@media(prefers-color-scheme:dark){".to_owned();
    for sort in PAGE_ORDER {
        let _ = write!(made, ":root .{sort}{{fill:{}}}", color(sort).1);
    }
    let _ = write!(made, ":root text{{fill:{}}}", color("ink").1);
    for sort in FAINT {
        let _ = write!(made, ":root text.{sort}{{fill:{}}}", color("faint").1);
    }
    let (line, ink) = (color("line").1, color("ink").1);
    let _ = write!(made, ":root rect.box{{stroke:{line}}}:root rect.group{{stroke:{ink}}}");
    let (page, hatch) = (color("page").1, color("hatch").1);
    let _ = write!(made, ":root #hatch rect{{fill:{page}}}:root #hatch path{{stroke:{hatch}}}");
    for sort in HATCHED {
        let _ = write!(made, ":root rect.{sort}{{fill:url(#hatch)}}");
    }
    made + "}"
}

const PAGE_ORDER: [&str; FILLS] =
    ["page", "integer", "float", "pointer", "enum", "array", "struct", "union", "bits", "other"];

fn hatch() -> String {
    format!(
        "<pattern id=\"hatch\" width=\"6\" height=\"6\" patternUnits=\"userSpaceOnUse\" \
         patternTransform=\"rotate(45)\"><rect width=\"6\" height=\"6\" fill=\"{}\"/><path \
         d=\"M0 0V6\" stroke=\"{}\" stroke-width=\"1.6\"/></pattern>",
        light("page"),
        light("hatch")
    )
}

/// A whole picture, as wide as its viewer allows.
pub fn page(wide: f64, high: f64, title: &str, parts: &[String]) -> String {
    let (wide, high) = (six_digits(wide), six_digits(high));
    let mut made = format!(
        "<svg xmlns=\"http://www.w3.org/2000/svg\" viewBox=\"0 0 {wide} {high}\" width=\"{wide}\" \
         height=\"{high}\" role=\"img\" font-family=\"{FONT}\" font-size=\"11\">\n<title>{}\
         </title><style>{}</style><defs>{}</defs>\n<rect class=\"page\" width=\"{wide}\" \
         height=\"{high}\" fill=\"{}\"/>\n",
        clean(title),
        style(),
        hatch(),
        light("page")
    );
    for part in parts {
        made += part;
        made.push('\n');
    }
    made + "</svg>\n"
}

/// A text of a class, such as a title, a key or an offset; without a class, a name.
pub fn note(x: f64, y: f64, said: &str, sort: &str) -> String {
    let ink = light(if FAINT.contains(&sort) { "faint" } else { "ink" });
    let named = if sort.is_empty() { String::new() } else { format!("class=\"{sort}\" ") };
    let manner = match sort {
        "title" => " font-size=\"14\" font-weight=\"bold\"",
        "offset" => " text-anchor=\"end\"",
        "left-out" => " font-style=\"italic\"",
        _ => "",
    };
    let (x, y, said) = (six_digits(x), six_digits(y), clean(said));
    format!("<text {named}x=\"{x}\" y=\"{y}\" fill=\"{ink}\"{manner}>{said}</text>")
}

/// The attributes for the fill and outline of a box of a class.
fn fill_of(sort: &str) -> String {
    if sort == "group" {
        return format!("fill=\"none\" stroke=\"{}\" stroke-width=\"1.6\"", light("ink"));
    }
    let fill = if HATCHED.contains(&sort) { "url(#hatch)" } else { light(sort) };
    format!("fill=\"{fill}\" stroke=\"{}\" stroke-width=\".7\"", light("line"))
}

/// Whether a text fits into a box, perhaps cut.
pub fn fits(said: &str, wide: f64) -> bool {
    said.chars().count().min(3) as f64 * LETTER + 4.0 <= wide
}

/// As much of a text as fits into a box.
pub fn cut(said: &str, wide: f64) -> String {
    let room = ((wide - 6.0) / LETTER).trunc() as i64;
    if said.chars().count() as i64 <= room {
        return said.to_owned();
    }
    let kept: String = said.chars().take((room - 1).max(0) as usize).collect();
    kept + "\u{2026}"
}

/// The position and size of a box.
#[derive(Clone, Copy, Debug)]
pub struct Rectangle {
    pub x: f64,
    pub y: f64,
    pub wide: f64,
    pub high: f64,
}

/// The texts of a box: its name, its type if there is room, and all of it as a tooltip.
pub struct Label<'l> {
    pub name: &'l str,
    /// Its type.
    pub of: &'l str,
    /// All of it, for the tooltip.
    pub told: &'l str,
}

/// What a box stands for: a name and a range of bits.
pub struct Extent<'e> {
    pub name: &'e str,
    pub start: u128,
    /// The number of bits.
    pub bits: u128,
}

/// A box with its name.
pub fn rectangle(sort: &str, at: Rectangle, label: &Label<'_>, extent: &Extent<'_>) -> String {
    let Rectangle { x, y, wide, high } = at;
    let mut made = format!(
        "<g data-name=\"{}\" data-start=\"{}\" data-bits=\"{}\"><title>{}</title><rect \
         class=\"box {sort}\" x=\"{}\" y=\"{}\" width=\"{}\" height=\"{}\" {}/>",
        clean(extent.name),
        extent.start,
        extent.bits,
        clean(label.told),
        six_digits(x),
        six_digits(y),
        six_digits(wide),
        six_digits(high),
        fill_of(sort)
    );
    if !HATCHED.contains(&sort) && high >= LOW && fits(label.name, wide) {
        made += &note(x + 3.0, y + 11.0, &cut(label.name, wide), "");
        if sort != "group" && high >= TALL && !label.of.is_empty() {
            made += &note(x + 3.0, y + 23.0, &cut(label.of, wide), "type");
        }
    }
    made + "</g>"
}

#[cfg(test)]
mod tests {
    use super::six_digits;

    #[test]
    fn numbers_are_as_c_prints_them() {
        for (number, shown) in [
            (0.0, "0"),
            (960.0, "960"),
            (1.5, "1.5"),
            (123.456789, "123.457"),
            (1234567.0, "1.23457e+06"),
            (0.00001, "1e-05"),
            (99999.95, "99999.9"),
            (99999.96, "100000"),
            (999999.5, "1e+06"),
            (0.5, "0.5"),
        ] {
            assert_eq!(six_digits(number), shown);
        }
    }
}
