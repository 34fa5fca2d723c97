//! A plain engine on the words of a state, with the same answers and effects as the library.
//! It has the checks of document 01 and of Cards 1, 2 and 4, tells the role of Card 7, and has no proofs.

mod effects;
mod law;
mod roles;
mod sessions;

use crate::answer::{refused, yes, ACCEPTED};

pub const WORDS: usize = 9041;
pub type State = [u16; WORDS];

// Where the words stand.
const ENROLLED: usize = 0;
const TRUST: usize = 1;
const USERS: usize = 17;
const ROLES: usize = 33;
const PERMISSIONS: usize = 49;
pub const HELD: usize = 65;
const GRANTS: usize = 321;
pub const ATTACHMENTS: usize = 4417;
pub const SESSIONS: usize = 8513;
pub const PUBLIC: usize = 9025;

// The user of a closed session.
const CLOSED: u16 = 65535;

fn has(word: u16, n: usize) -> bool {
    word >> n & 1 == 1
}

/// The word of the roles that i@u holds.
pub fn held(i: usize, u: usize) -> usize {
    HELD + 16 * i + u
}

/// The first of the sixteen words of the grants of j%p, or of the attachments of j#p.
pub fn row(region: usize, j: usize, p: usize) -> usize {
    region + 16 * (16 * j + p)
}

/// The word of the user of i/s; the active roles stand in the next one.
pub fn session(i: usize, s: usize) -> usize {
    SESSIONS + 2 * (16 * i + s)
}

/// A decoded record. Arguments that the kind doesn't have are 0.
struct Call {
    kind: u16,
    caller: usize,
    arguments: [usize; 3],
}

fn decode(record: &[u8]) -> Option<Call> {
    let [low, high, kind_low, kind_high, caller, rest @ ..] = record else {
        return None;
    };
    let kind = u16::from_le_bytes([*kind_low, *kind_high]);
    let count = match kind {
        1..=10 | 18 | 22 | 23 => 1,
        11 | 12 | 17 | 19 | 20 => 2,
        13..=16 | 21 => 3,
        _ => return None,
    };
    if rest.len() != count || usize::from(u16::from_le_bytes([*low, *high])) != record.len() {
        return None;
    }
    let mut arguments = [0; 3];
    for (argument, byte) in arguments.iter_mut().zip(rest) {
        *argument = usize::from(*byte);
    }
    Some(Call {
        kind,
        caller: usize::from(*caller),
        arguments,
    })
}

/// Refusals 4 to 14 of a call on a lawful state, or 0.
fn refusal(state: &State, call: &Call) -> u16 {
    let Call { kind, caller, .. } = *call;
    let [x, y, z] = call.arguments;
    let enrolled = |i| has(state[ENROLLED], i);
    if caller > 16 || (caller == 16) != (kind <= 2) {
        return 4;
    }
    if caller < 16 && !enrolled(caller) {
        return 5;
    }
    if x > 15 || y > 15 || z > 15 {
        return 6;
    }
    match kind {
        1 if enrolled(x) => 7,
        2 if !enrolled(x) => 7,
        3 | 4 if !enrolled(x) => 7,
        3 | 4 if x == caller => 8,
        3 | 4 => unless(has(state[TRUST + caller], x) != (kind == 3), 12),
        5 => unless(!has(state[USERS + caller], x), 12),
        6 => unless(has(state[USERS + caller], x), 10),
        7 => unless(!has(state[ROLES + caller], x), 12),
        8 => unless(has(state[ROLES + caller], x), 10),
        9 => unless(!has(state[PERMISSIONS + caller], x), 12),
        10 | 21 => unless(has(state[PERMISSIONS + caller], x), 10),
        11 | 12 if !has(state[USERS + caller], x) || !has(state[ROLES + caller], y) => 10,
        11 | 12 => unless(has(state[held(caller, x)], y) != (kind == 11), 12),
        13..=16 => linking_refusal(state, call),
        17 if !has(state[USERS + caller], y) => 10,
        17 => unless(state[session(caller, x)] == CLOSED, 12),
        18 => unless(state[session(caller, x)] != CLOSED, 10),
        19 | 20 => activating_refusal(state, call),
        22 | 23 if !has(state[ROLES + caller], x) => 10,
        22 | 23 => unless(has(state[PUBLIC + caller], x) != (kind == 22), 12),
        _ => 0,
    }
}

fn unless(allowed: bool, refusal: u16) -> u16 {
    if allowed {
        0
    } else {
        refusal
    }
}

/// Refusals 7 to 14 of kinds 13 to 16: an own permission or role, and a role i#r.
fn linking_refusal(state: &State, call: &Call) -> u16 {
    let Call { kind, caller, .. } = *call;
    let [own, i, r] = call.arguments;
    let (region, present) = if kind <= 14 {
        (GRANTS, state[PERMISSIONS + caller])
    } else {
        (ATTACHMENTS, state[ROLES + caller])
    };
    if !has(state[ENROLLED], i) {
        return 7;
    }
    if !has(state[TRUST + i], caller) {
        return 9;
    }
    if !has(present, own) || !has(state[ROLES + i], r) {
        return 10;
    }
    if i != caller && !has(state[PUBLIC + i], r) {
        return 14;
    }
    if has(state[row(region, caller, own) + i], r) == (kind % 2 == 1) {
        return 12;
    }
    if kind == 15 && roles::reaches(state, caller, own, i, r) {
        return 13;
    }
    0
}

/// Refusals 10 to 12 of kinds 19 and 20.
fn activating_refusal(state: &State, call: &Call) -> u16 {
    let Call { kind, caller, .. } = *call;
    let [s, r, _] = call.arguments;
    let at = session(caller, s);
    let user = state[at];
    if !has(state[ROLES + caller], r) || user == CLOSED {
        return 10;
    }
    if kind == 19 && !roles::entitled(state, caller, usize::from(user), r) {
        return 11;
    }
    unless(has(state[at + 1], r) != (kind == 19), 12)
}

/// Starting: closed sessions and 0 elsewhere.
pub fn start(state: &mut [u16]) -> u64 {
    if state.len() != WORDS {
        return refused(1);
    }
    state.fill(0);
    for pair in state[SESSIONS..PUBLIC].chunks_exact_mut(2) {
        pair[0] = CLOSED;
    }
    ACCEPTED
}

/// A record played on a state.
pub fn call(state: &mut [u16], record: &[u8]) -> u64 {
    let Ok(state) = <&mut State>::try_from(state) else {
        return refused(1);
    };
    if !law::lawful(state) {
        return refused(2);
    }
    if record.is_empty() {
        return ACCEPTED;
    }
    let Some(call) = decode(record) else {
        return refused(3);
    };
    let refusal = refusal(state, &call);
    if refusal != 0 {
        return refused(refusal);
    }
    if call.kind == 21 {
        let [p, i, s] = call.arguments;
        return match roles::through(state, call.caller, p, i, s) {
            Some(role) => yes((role / 16) as u8, (role % 16) as u8),
            None => ACCEPTED,
        };
    }
    effects::change(state, &call);
    ACCEPTED
}
