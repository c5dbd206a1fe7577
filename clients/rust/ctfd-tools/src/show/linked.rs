//! Prints linked lists.

use super::operand::Operand;
use super::printing::{Printer, Value, CUT};
use super::reading::from_little_endian;
use super::target::Target;
use super::value_type::{pointer_size, Shape, ValueType};
use crate::types::text::printable;
use ctfd_read::error::{refuse, Error, Result};
use std::collections::HashMap;

/// How to get from node to node.
///
/// A link is `link` bytes after the address that the last link points to, and a node begins `back`
/// bytes before the address that a link points to. The list ends at a link of 0 or `end`.
struct Chain {
    of: ValueType,
    first: u64,
    link: u64,
    back: u64,
    end: u64,
}

/// The nodes of a list, and how the list ended.
struct ListNodes {
    addresses: Vec<u64>,
    /// The index of a node to which the last one points back.
    again: Option<usize>,
    /// Whether the list was cut at the limit.
    has_more: bool,
    /// The address of a link that cannot be read, in a node after the last.
    lost: Option<u64>,
}

impl Printer<'_, '_> {
    /// Formats the list from a head, which is a node or a pointer to one. `member` is a node's
    /// pointer to the next. The result has a line for each node, and one for how the list broke
    /// off, unless it reached its end.
    ///
    /// With a type `inside`, the member is a link in that type that points to the next link, as the
    /// kernel's `list_head`, and the head is the list's own link, which is no node.
    pub fn list(
        &self,
        head: &Operand,
        member: &[u8],
        inside: Option<&ValueType>,
    ) -> Result<Vec<String>> {
        let target = self.target;
        let chain = match inside {
            Some(inside) => embedded_chain(target, head, member, inside)?,
            None => plain_chain(target, head, member)?,
        };
        self.begin();
        let followed = follow(target, &chain, self.style.limits.elements);
        let node = |(number, &pointed): (usize, &u64)| {
            let address = pointed.wrapping_sub(chain.back);
            let memory = self.memory(&chain.of, address, 0).unwrap_or_default();
            let value = Value { of: &chain.of, memory: &memory, bit: 0, at: Some(address) };
            let text = match memory.is_empty() && self.is_spent(&chain.of) {
                true => CUT.to_owned(),
                false => self.value(value, 0),
            };
            format!("[{number}] 0x{address:x} {text}")
        };
        let mut lines: Vec<String> = followed.addresses.iter().enumerate().map(node).collect();
        lines.extend(followed.again.map(|number| format!("back to [{number}]")));
        lines.extend(followed.lost.map(|at| format!("the link at 0x{at:x} can't be read")));
        lines.extend(followed.has_more.then(|| "...".to_owned()));
        Ok(lines)
    }
}

fn follow(target: &Target<'_>, chain: &Chain, most: usize) -> ListNodes {
    let mut numbers: HashMap<u64, usize> = HashMap::new();
    let (mut addresses, mut at, mut lost) = (Vec::new(), chain.first, None);
    while at != 0 && at != chain.end && !numbers.contains_key(&at) && addresses.len() < most {
        let place = target.wrap_address(i128::from(at) + i128::from(chain.link));
        let Some(next) = pointer(target, place) else {
            lost = Some(place);
            break;
        };
        numbers.insert(at, addresses.len());
        addresses.push(at);
        at = next;
    }
    let has_ended = at == 0 || at == chain.end || lost.is_some();
    let again = numbers.get(&at).copied().filter(|_| !has_ended);
    ListNodes { addresses, again, has_more: !has_ended && again.is_none(), lost }
}

fn is_aggregate(target: &Target<'_>, of: &ValueType) -> bool {
    matches!(target.shape(of), Shape::Aggregate { .. })
}

/// A list whose nodes point to each other.
fn plain_chain(target: &Target<'_>, head: &Operand, member: &[u8]) -> Result<Chain> {
    let place = match head {
        Operand::Memory { of, .. } if is_aggregate(target, of) => head.clone(),
        _ => target.dereference(head)?,
    };
    let Operand::Memory { of, address, .. } = place else {
        return refuse("a function is no node");
    };
    let start = Operand::Memory { of: of.clone(), address: 0, bit: 0 };
    match target.member(&start, member)? {
        Operand::Memory { of: link, address: offset, bit: 0 }
            if matches!(target.shape(&link), Shape::Pointer(_)) =>
        {
            Ok(Chain { of, first: address, link: offset, back: 0, end: 0 })
        }
        _ => refuse(format!("{} is no pointer to the next node", printable(member))),
    }
}

/// A list of links within the nodes, which leads back to its head.
fn embedded_chain(
    target: &Target<'_>,
    head: &Operand,
    member: &[u8],
    inside: &ValueType,
) -> Result<Chain> {
    let end = match head {
        Operand::Memory { of, address, .. } if is_aggregate(target, of) => *address,
        _ => target.wrap_address(target.number(head)?),
    };
    let start = Operand::Memory { of: inside.clone(), address: 0, bit: 0 };
    let link = target.member(&start, member)?;
    let Operand::Memory { of: link_type, address: back, .. } = &link else {
        return refuse(format!("{} is no link", printable(member)));
    };
    let next = match is_aggregate(target, link_type) {
        true => target.member(&link, b"next")?,
        false => link.clone(),
    };
    let Operand::Memory { of: pointer_type, address: following, bit: 0 } = next else {
        return refuse(format!("{} is no link", printable(member)));
    };
    if !matches!(target.shape(&pointer_type), Shape::Pointer(_)) {
        return refuse(format!("{} is no pointer to the next link", printable(member)));
    }
    let first = pointer(target, end.wrapping_add(following - back));
    let first =
        first.ok_or_else(|| Error(format!("the list's head at 0x{end:x} can't be read")))?;
    Ok(Chain { of: inside.clone(), first, link: following - back, back: *back, end })
}

/// The pointer at an address; None if it cannot be read.
fn pointer(target: &Target<'_>, address: u64) -> Option<u64> {
    let size = pointer_size(target.model);
    let bytes = target.bytes(address, size);
    (bytes.len() as u64 == size).then(|| from_little_endian(&bytes) as u64)
}
