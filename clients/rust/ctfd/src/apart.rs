//! Copies of lists that overlap, as no two lists of a library call may.

use std::borrow::Cow;

/// The list; a copy if it shares bytes with another list of the same call.
pub(crate) fn apart<'a>(list: &'a [u8], others: &[&[u8]]) -> Cow<'a, [u8]> {
    if others.iter().any(|other| overlap(list, other)) {
        Cow::Owned(list.to_vec())
    } else {
        Cow::Borrowed(list)
    }
}

/// Whether two lists share a byte.
pub(crate) fn overlap(one: &[u8], other: &[u8]) -> bool {
    let (one, other) = (one.as_ptr_range(), other.as_ptr_range());
    one.start < other.end && other.start < one.end
}
