//! Active roles, and the roles that the sessions' users hold.
//! A lesser role is one that is active and not held: a held role must reach it.

use super::roles::above;
use super::{has, held, session, State, ENROLLED};

/// The numbers of the bits of a word.
fn bits(word: u16) -> impl Iterator<Item = usize> {
    (0..16).filter(move |&n| has(word, n))
}

/// The roles that the user of i/s holds: none where the session is closed.
fn held_in(state: &State, i: usize, s: usize) -> u16 {
    match state[session(i, s)] {
        user @ 0..=15 => state[held(i, usize::from(user))],
        _ => 0,
    }
}

/// The lesser roles of i/s.
fn lesser_in(state: &State, i: usize, s: usize) -> u16 {
    state[session(i, s) + 1] & !held_in(state, i, s)
}

/// The lesser roles of each session of i that no role held by its user reaches.
/// Walks once from each of the roles given, which are those that are lesser in some session of i.
pub fn unreached(state: &State, i: usize, lesser: u16) -> [u16; 16] {
    let mut seniors = [0; 16];
    for r in bits(lesser) {
        seniors[r] = above(state, i, r);
    }
    std::array::from_fn(|s| {
        let held = held_in(state, i, s);
        bits(lesser_in(state, i, s))
            .filter(|&r| seniors[r] & held == 0)
            .fold(0, |roles, r| roles | 1 << r)
    })
}

/// Drops from the sessions of i the active roles that no role held by the session's user reaches.
pub fn settle(state: &mut State, i: usize) {
    let lesser = (0..16).fold(0, |roles, s| roles | lesser_in(state, i, s));
    if lesser == 0 {
        return;
    }
    for (s, roles) in unreached(state, i, lesser).into_iter().enumerate() {
        state[session(i, s) + 1] &= !roles;
    }
}

/// The same for every issuer. Those that aren't enrolled have no open session.
pub fn settle_all(state: &mut State) {
    for i in 0..16 {
        if has(state[ENROLLED], i) {
            settle(state, i);
        }
    }
}
