//! What an accepted call changes, cascades included.

use super::sessions::{settle, settle_all};
use super::{held, row, session, Call, State, ATTACHMENTS, CLOSED, ENROLLED, GRANTS};
use super::{PERMISSIONS, PUBLIC, ROLES, SESSIONS, TRUST, USERS};

pub fn change(state: &mut State, call: &Call) {
    first_change(state, call);
    // What a held role reached is active in its issuer's sessions only; what an attachment reached, in anybody's.
    match call.kind {
        12 => settle(state, call.caller),
        2 | 4 | 8 | 16 | 23 => settle_all(state),
        _ => {}
    }
}

/// What the call itself names, before active roles beyond reach are dropped.
fn first_change(state: &mut State, call: &Call) {
    let c = call.caller;
    let [x, y, z] = call.arguments;
    match call.kind {
        1 => {
            state[ENROLLED] |= 1 << x;
            state[TRUST + x] |= 1 << x;
        }
        2 => strike(state, x),
        3 => state[TRUST + c] |= 1 << x,
        4 => {
            state[TRUST + c] &= !(1 << x);
            mask_links(state, x, c, 0);
        }
        5 => state[USERS + c] |= 1 << x,
        6 => {
            state[USERS + c] &= !(1 << x);
            state[held(c, x)] = 0;
            for pair in sessions(state, c) {
                if usize::from(pair[0]) == x {
                    pair.copy_from_slice(&[CLOSED, 0]);
                }
            }
        }
        7 => state[ROLES + c] |= 1 << x,
        8 => remove_role(state, c, x),
        9 => state[PERMISSIONS + c] |= 1 << x,
        10 => {
            state[PERMISSIONS + c] &= !(1 << x);
            state[row(GRANTS, c, x)..][..16].fill(0);
        }
        11 => state[held(c, x)] |= 1 << y,
        12 => state[held(c, x)] &= !(1 << y),
        13 => state[row(GRANTS, c, x) + y] |= 1 << z,
        14 => state[row(GRANTS, c, x) + y] &= !(1 << z),
        15 => state[row(ATTACHMENTS, c, x) + y] |= 1 << z,
        16 => state[row(ATTACHMENTS, c, x) + y] &= !(1 << z),
        17 => state[session(c, x)] = y as u16,
        18 => state[session(c, x)..][..2].copy_from_slice(&[CLOSED, 0]),
        19 => state[session(c, x) + 1] |= 1 << y,
        20 => state[session(c, x) + 1] &= !(1 << y),
        22 => state[PUBLIC + c] |= 1 << x,
        23 => unpublish(state, c, x),
        _ => {}
    }
}

/// The pairs of the sessions of i.
fn sessions(state: &mut State, i: usize) -> impl Iterator<Item = &mut [u16]> {
    state[SESSIONS + 32 * i..][..32].chunks_exact_mut(2)
}

/// Masks every sixteenth word.
fn mask_column(state: &mut State, from: usize, count: usize, mask: u16) {
    for n in 0..count {
        state[from + 16 * n] &= mask;
    }
}

/// Keeps only the roles of i that are bits of the mask in the grants and attachments of j.
fn mask_links(state: &mut State, j: usize, i: usize, mask: u16) {
    mask_column(state, row(GRANTS, j, 0) + i, 16, mask);
    mask_column(state, row(ATTACHMENTS, j, 0) + i, 16, mask);
}

/// Keeps only the roles of i that are bits of the mask in the grants and attachments of all.
fn mask_roles(state: &mut State, i: usize, mask: u16) {
    mask_column(state, GRANTS + i, 256, mask);
    mask_column(state, ATTACHMENTS + i, 256, mask);
}

fn remove_role(state: &mut State, i: usize, r: usize) {
    let mask = !(1 << r);
    state[ROLES + i] &= mask;
    state[PUBLIC + i] &= mask;
    for word in &mut state[held(i, 0)..][..16] {
        *word &= mask;
    }
    for pair in sessions(state, i) {
        pair[1] &= mask;
    }
    state[row(ATTACHMENTS, i, r)..][..16].fill(0);
    mask_roles(state, i, mask);
}

/// The grants and attachments of others that used the role go; those of i itself stay.
fn unpublish(state: &mut State, i: usize, r: usize) {
    let mask = !(1 << r);
    state[PUBLIC + i] &= mask;
    for j in (0..16).filter(|&j| j != i) {
        mask_links(state, j, i, mask);
    }
}

fn strike(state: &mut State, i: usize) {
    state[ENROLLED] &= !(1 << i);
    mask_trust(state, i);
    state[USERS + i] = 0;
    state[ROLES + i] = 0;
    state[PUBLIC + i] = 0;
    state[PERMISSIONS + i] = 0;
    state[held(i, 0)..][..16].fill(0);
    state[row(GRANTS, i, 0)..][..256].fill(0);
    state[row(ATTACHMENTS, i, 0)..][..256].fill(0);
    mask_roles(state, i, 0);
    for pair in sessions(state, i) {
        pair.copy_from_slice(&[CLOSED, 0]);
    }
}

/// Nobody trusts i, nor i anybody.
fn mask_trust(state: &mut State, i: usize) {
    for word in &mut state[TRUST..TRUST + 16] {
        *word &= !(1 << i);
    }
    state[TRUST + i] = 0;
}
