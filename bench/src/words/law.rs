//! Whether the words are a lawful state.
//! The bits that lack what they need are gathered, and there must be none.

use super::roles::{acyclic, sixteen, Roles};
use super::sessions::unreached;
use super::{has, held, row, session, State, ATTACHMENTS, CLOSED, ENROLLED, GRANTS, PERMISSIONS};
use super::{PUBLIC, ROLES, TRUST, USERS};

pub fn lawful(state: &State) -> bool {
    (0..16).all(|i| {
        owned_stray(state, i) | held_stray(state, i) == 0
            && links_lawful(state, i)
            && sessions_lawful(state, i)
    }) && acyclic(state)
}

/// The word, or 0.
fn only_if(test: bool, word: u16) -> u16 {
    if test {
        word
    } else {
        0
    }
}

/// Trust, users, roles, public roles and permissions of issuer i.
fn owned_stray(state: &State, i: usize) -> u16 {
    let enrolled = state[ENROLLED];
    let trust = state[TRUST + i];
    let roles = state[ROLES + i];
    let public = state[PUBLIC + i];
    if has(enrolled, i) {
        trust & !enrolled | !trust & 1 << i | public & !roles
    } else {
        trust | state[USERS + i] | roles | public | state[PERMISSIONS + i]
    }
}

/// Held bits of the users of i.
fn held_stray(state: &State, i: usize) -> u16 {
    let words = sixteen(state, held(i, 0));
    let users = state[USERS + i];
    let roles = state[ROLES + i];
    (0..16).fold(0, |stray, u| {
        stray | words[u] & !only_if(has(users, u), roles)
    })
}

/// Whether grants of j's permissions and attachments of j's roles stand only where they may.
fn links_lawful(state: &State, j: usize) -> bool {
    // The public roles of the issuers that trust j, and all of its own.
    let mut allowed: [u16; 16] =
        std::array::from_fn(|i| only_if(has(state[TRUST + i], j), state[PUBLIC + i]));
    allowed[j] = state[ROLES + j];
    let allowed = Roles::read(&allowed);
    let mut stray = Roles::default();
    for (region, present) in [
        (GRANTS, state[PERMISSIONS + j]),
        (ATTACHMENTS, state[ROLES + j]),
    ] {
        for p in 0..16 {
            let roles = Roles::read(sixteen(state, row(region, j, p)));
            if has(present, p) {
                stray.join(&roles.without(&allowed));
            } else {
                stray.join(&roles);
            }
        }
    }
    stray.is_empty()
}

/// The sessions of i: closed without active roles, or open for a present user whose roles reach the active ones.
fn sessions_lawful(state: &State, i: usize) -> bool {
    let mut lesser = 0;
    let lawful = (0..16).all(|s| {
        let at = session(i, s);
        let user = state[at];
        let active = state[at + 1];
        match user {
            0..=15 => {
                let user = usize::from(user);
                lesser |= active & !state[held(i, user)];
                has(state[USERS + i], user)
            }
            CLOSED => active == 0,
            _ => false,
        }
    });
    lawful && (lesser == 0 || unreached(state, i, lesser) == [0; 16])
}
