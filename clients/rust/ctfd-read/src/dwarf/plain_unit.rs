//! A unit of debug information, without its line table, which takes longer to read than many a unit
//! does: types and symbols do not need it.

use crate::dwarf::units::Slice;
use gimli::{constants as dw, Attribute, AttributeValue, DebugAddrBase, DebugLocListsBase};
use gimli::{DebugRngListsBase, DebugStrOffsetsBase, Dwarf, Result, Unit, UnitHeader, UnitType};
use std::sync::Arc;

/// The unit of a header, with the bases by which its attributes are read.
pub(super) fn plain_unit<'a>(
    dwarf: &Dwarf<Slice<'a>>,
    header: UnitHeader<Slice<'a>>,
) -> Result<Unit<Slice<'a>>> {
    let mut unit = bare_unit(dwarf, header)?;
    let abbreviations = Arc::clone(&unit.abbreviations);
    let mut entries = header.entries(&abbreviations);
    entries.next_dfs()?;
    let mut attributes = entries.current().ok_or(gimli::Error::MissingUnitDie)?.attrs();
    let mut low_pc = None;
    while let Some(one) = attributes.next()? {
        match one.name() {
            dw::DW_AT_low_pc => low_pc = Some(one.value()),
            _ => take_base(&mut unit, &one),
        }
    }
    let address = low_pc.map(|value| dwarf.attr_address(&unit, value)).transpose()?;
    unit.low_pc = address.flatten().unwrap_or(0);
    Ok(unit)
}

/// A unit whose first entry is not read yet.
fn bare_unit<'a>(
    dwarf: &Dwarf<Slice<'a>>,
    header: UnitHeader<Slice<'a>>,
) -> Result<Unit<Slice<'a>>> {
    let (encoding, file) = (header.encoding(), dwarf.file_type);
    Ok(Unit {
        abbreviations: dwarf.abbreviations(&header)?,
        name: None,
        comp_dir: None,
        low_pc: 0,
        str_offsets_base: DebugStrOffsetsBase::default_for_encoding_and_file(encoding, file),
        addr_base: DebugAddrBase(0),
        loclists_base: DebugLocListsBase::default_for_encoding_and_file(encoding, file),
        rnglists_base: DebugRngListsBase::default_for_encoding_and_file(encoding, file),
        line_program: None,
        dwo_id: match header.type_() {
            UnitType::Skeleton(id) | UnitType::SplitCompilation(id) => Some(id),
            _ => None,
        },
        header,
    })
}

/// Stores an attribute that gives the base of the unit's part of a section.
fn take_base<'a>(unit: &mut Unit<Slice<'a>>, attribute: &Attribute<Slice<'a>>) {
    match attribute.value() {
        AttributeValue::DebugStrOffsetsBase(base) => unit.str_offsets_base = base,
        AttributeValue::DebugAddrBase(base) => unit.addr_base = base,
        AttributeValue::DebugLocListsBase(base) => unit.loclists_base = base,
        AttributeValue::DebugRngListsBase(base) => unit.rnglists_base = base,
        AttributeValue::DwoId(id) => unit.dwo_id = unit.dwo_id.or(Some(id)),
        _ => {}
    }
}
