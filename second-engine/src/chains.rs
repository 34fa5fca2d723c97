//! Chains of trust: an estate trusts a, a trusts b, and so on, to the owner of a press.

use crate::sets::Sets;
use std::collections::BTreeSet;

/// The length of the shortest chain of trust from the estate to the owner, 0 where it is the
/// owner itself; `None` where no chain leads there.
pub fn chain_of_trust(sets: &Sets, estate: usize, owner: usize) -> Option<usize> {
    let mut seen = BTreeSet::from([estate]);
    let mut length = 0;
    while !seen.contains(&owner) {
        let trusted = sets
            .trust
            .iter()
            .filter(|trust| seen.contains(&trust.trustor));
        let further: BTreeSet<usize> = trusted.map(|trust| trust.trustee).collect();
        if further.is_subset(&seen) {
            return None;
        }
        seen.extend(further);
        length += 1;
    }
    Some(length)
}
