//! Active roles, read from the words of two states.

use crate::words::{held, session};

/// The active roles of the first state that the second doesn't have, in sessions of the same user in both.
/// Each with its issuer and its session before it.
pub fn gone(first: &[u16], second: &[u16]) -> Vec<(u8, u8, u8)> {
    let mut roles = vec![];
    for (i, s) in (0..=255).map(|n| (n / 16, n % 16)) {
        let at = session(i, s);
        if first[at] == second[at] {
            let word = first[at + 1] & !second[at + 1];
            let bits = (0..16).filter(|r| word >> r & 1 == 1);
            roles.extend(bits.map(|r| (i as u8, s as u8, r)));
        }
    }
    roles
}

/// Whether the user of i/s, which is open, holds i#r.
pub fn is_held(state: &[u16], (i, s, r): (u8, u8, u8)) -> bool {
    let (i, s) = (usize::from(i), usize::from(s));
    let user = usize::from(state[session(i, s)]);
    state[held(i, user)] >> r & 1 == 1
}
