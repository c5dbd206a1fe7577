//! Structs with their members in an order without holes, to paste into a source.

use super::catalog::{Catalog, Number};
use super::declare::base;
use super::failure::{Failure, Outcome};
use super::file_types::FileTypes;
use super::layout::{Layout, Place};
use super::listing;
use super::text::printable;
use ctfd::Kind;
use std::cmp::Reverse;
use std::collections::HashSet;
use std::io::Write;

/// The greatest alignment of numbers in structs on i386.
const WORD: u64 = 4;
/// The greatest power of two by which a source's alignment is assumed to exceed a type's own.
const MOST_ALIGNED: u32 = 12;
const NONE_SMALLER: &str = "/* no struct has an order of its members that is smaller */";

/// Prints the named structs in a better order; without names, all structs that have one.
pub fn list_better_orders(
    whole: &FileTypes<'_, '_>,
    patterns: &[Vec<u8>],
    output: &mut dyn Write,
) -> Outcome<()> {
    let catalog = whole.names.catalog;
    let all = [b"*".to_vec()];
    let wanted = if patterns.is_empty() { &all[..] } else { patterns };
    let (mut structs, mut known) = (Vec::new(), HashSet::new());
    for number in whole.names.matching(wanted, catalog.own_numbers())? {
        let end = catalog.resolve(number);
        if catalog.kind(end) == Kind::Struct && known.insert(end) {
            structs.push(end);
        }
    }
    if structs.is_empty() {
        let shown: Vec<_> = patterns.iter().map(|one| printable(one)).collect();
        return Err(Failure::Refused(format!(
            "{}: no struct, and only the members of a struct have an order",
            shown.join(" or ")
        )));
    }
    let mut has_any = !patterns.is_empty();
    for number in structs {
        match order_of(whole, number) {
            Ok(text) => {
                has_any = true;
                output.write_all(text.as_bytes())?;
            }
            Err(text) if !patterns.is_empty() => writeln!(output, "{text}")?,
            Err(_) => {}
        }
    }
    if !has_any {
        writeln!(output, "{NONE_SMALLER}")?;
    }
    Ok(())
}

/// A struct in an order that makes it smaller, and how much that saves. The error is a line that
/// says there is none.
fn order_of(whole: &FileTypes<'_, '_>, number: Number) -> Result<String, String> {
    let catalog = whole.names.catalog;
    let layout = Layout::of(catalog, number);
    let order = Order { whole, catalog };
    let align = u128::from(order.alignment(number));
    let mut runs = runs(&layout.places);
    // By decreasing alignment; members without bytes, such as arrays without elements, stay at the
    // end.
    runs.sort_by_key(|run| (bytes(run) == 0, Reverse(bytes(run).min(1) * order.of_run(run))));
    let size = order.size(&runs, align);
    let label = whole.names.label(number);
    let was = u128::from(layout.size);
    if size >= was || align > 1 && was % align != 0 {
        return Err(format!(
            "/* {label}: no order of its members is smaller than its {was} bytes */"
        ));
    }
    let record = catalog.record(number);
    let head = if record.name.is_empty() { "struct".to_owned() } else { base(catalog, number) };
    let members = listing::members(catalog, &runs.concat());
    let (saved, hints) = (was - size, order.hints(&layout.places));
    Ok(format!(
        "{head} {{\n{members}}}; /* {label}: {size} bytes, was {was}: saves {saved} */\n{hints}"
    ))
}

/// Members that stay together: single ones, or consecutive bit-fields.
fn runs<'p>(places: &[Place<'p>]) -> Vec<Vec<Place<'p>>> {
    let mut made: Vec<Vec<Place<'p>>> = Vec::new();
    for &place in places {
        match made.last_mut() {
            Some(run) if place.width.is_some() && run[0].width.is_some() => run.push(place),
            _ => made.push(vec![place]),
        }
    }
    made
}

fn bytes(run: &[Place<'_>]) -> u128 {
    run.iter().map(|place| place.bits).sum::<u128>().div_ceil(8)
}

/// The alignments that determine an order.
struct Order<'o, 'w, 'd> {
    whole: &'o FileTypes<'w, 'd>,
    catalog: &'o Catalog<'d>,
}

impl Order<'_, '_, '_> {
    /// The alignment of a run: the greatest of its members' types.
    fn of_run(&self, run: &[Place<'_>]) -> u128 {
        let each = run.iter().map(|place| self.alignment(place.part.of));
        each.max().map_or(1, u128::from)
    }

    fn alignment(&self, number: Number) -> u64 {
        let found = self.whole.sizes.alignment(number);
        if self.catalog.is_ilp32() {
            found.min(WORD)
        } else {
            found
        }
    }

    /// A line for each member that is farther back than its type needs: the source may align it.
    fn hints(&self, places: &[Place<'_>]) -> String {
        let hint = |place: &Place<'_>| {
            let end = place.start - place.gap;
            let is_at = |align: &u128| end.div_ceil(8 * align) * 8 * align == place.start;
            let own = u128::from(self.alignment(place.part.of));
            let is_plain = place.width.is_none() && place.gap != 0 && !is_at(&own);
            let mut powers = (0..=MOST_ALIGNED).map(|power| own << power);
            let aligned = is_plain.then(|| powers.find(is_at)).flatten()?;
            Some(format!(
                "/* {} stands at {} behind a hole that its type does not need: does the source align \
                 it to {aligned}? */\n",
                printable(place.part.name),
                place.start / 8
            ))
        };
        places.iter().filter_map(hint).collect()
    }

    /// The size in bytes of a struct with runs in this order.
    fn size(&self, runs: &[Vec<Place<'_>>], align: u128) -> u128 {
        let mut end: u128 = 0;
        for run in runs {
            let own = self.of_run(run);
            end = end.div_ceil(own) * own + bytes(run);
        }
        end.div_ceil(align) * align
    }
}
