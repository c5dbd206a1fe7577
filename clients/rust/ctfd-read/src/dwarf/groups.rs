//! Divides the units of a program among threads.
//!
//! The units of a group are joined in one thread, and groups are joined one after another, so
//! groups are large. Those at the end are smaller, so that all threads end at about the same time.
//! A unit that is as large as a group has a group to itself. The groups depend only on the program,
//! not on the number of threads.

use crate::dwarf::units::Debug;
use std::ops::Range;

/// The most units of a group.
const MOST_UNITS: usize = 16;
/// A group gets units until it has this part, an eighth, of the remaining bytes.
const SHARE: u64 = 8;
/// A group with fewer bytes than these gets another unit.
const LEAST_BYTES: u64 = 1 << 17;

/// The groups, as ranges of unit numbers.
pub(super) fn groups(debug: &Debug<'_>) -> Vec<Range<usize>> {
    of_bytes(&(0..debug.units()).map(|number| debug.unit_bytes(number)).collect::<Vec<_>>())
}

/// The groups, from the size of each unit in bytes.
fn of_bytes(bytes: &[u64]) -> Vec<Range<usize>> {
    let mut left: u64 = bytes.iter().sum();
    let (mut made, mut begin) = (Vec::new(), 0);
    while begin < bytes.len() {
        let most = LEAST_BYTES.max(left / SHARE);
        let (mut end, mut taken) = (begin, 0);
        let is_alone = |place: usize| place > begin && bytes[place] >= most;
        while end < bytes.len() && end - begin < MOST_UNITS && taken < most && !is_alone(end) {
            taken += bytes[end];
            end += 1;
        }
        made.push(begin..end);
        (begin, left) = (end, left - taken);
    }
    made
}

#[cfg(test)]
mod tests {
    use super::*;

    #[test]
    fn groups_have_all_units_in_their_order() {
        for bytes in [vec![], vec![5], vec![0; 40], vec![1 << 20; 40], (0..5000).collect()] {
            let numbers: Vec<usize> = of_bytes(&bytes).into_iter().flatten().collect();
            assert_eq!(numbers, (0..bytes.len()).collect::<Vec<_>>());
        }
    }

    #[test]
    fn groups_become_smaller_to_the_end() {
        let sizes: Vec<usize> = of_bytes(&[1 << 16; 200]).iter().map(Range::len).collect();
        assert!(sizes.is_sorted_by(|one, other| one >= other));
        assert_eq!(sizes[0], MOST_UNITS);
        assert!(sizes[sizes.len() - 1] <= 2);
        assert_eq!(of_bytes(&[4 << 20, 1, 1]), [0..1, 1..3]);
        assert_eq!(of_bytes(&[1, 1, 4 << 20]), [0..2, 2..3]);
    }
}
