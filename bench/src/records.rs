//! Call records, written out or random.

use crate::random::Random;

pub type Record = Vec<u8>;

pub const OPERATOR: u8 = 16;

// The kinds by what they do.
pub const ENROL: u16 = 1;
pub const STRIKE: u16 = 2;
pub const TRUST: u16 = 3;
pub const WITHDRAW: u16 = 4;
pub const ADD_USER: u16 = 5;
pub const REMOVE_USER: u16 = 6;
pub const ADD_ROLE: u16 = 7;
pub const REMOVE_ROLE: u16 = 8;
pub const ADD_PERMISSION: u16 = 9;
pub const GIVE_ROLE: u16 = 11;
pub const TAKE_ROLE: u16 = 12;
pub const GRANT: u16 = 13;
pub const UNGRANT: u16 = 14;
pub const ATTACH: u16 = 15;
pub const DETACH: u16 = 16;
pub const OPEN: u16 = 17;
pub const CLOSE: u16 = 18;
pub const ACTIVATE: u16 = 19;
pub const DEACTIVATE: u16 = 20;
pub const MAY_USE: u16 = 21;
pub const PUBLISH: u16 = 22;
pub const UNPUBLISH: u16 = 23;

/// A press's sign of life.
pub static SIGN_OF_LIFE: [Record; 1] = [Vec::new()];

/// A record in its bytes.
pub fn record(kind: u16, caller: u8, arguments: &[u8]) -> Record {
    let length = 5 + arguments.len() as u16;
    let mut bytes = length.to_le_bytes().to_vec();
    bytes.extend(kind.to_le_bytes());
    bytes.push(caller);
    bytes.extend(arguments);
    bytes
}

/// How many arguments a kind has.
fn count(kind: u16) -> usize {
    match kind {
        11 | 12 | 17 | 19 | 20 => 2,
        13..=16 | 21 => 3,
        _ => 1,
    }
}

/// A random record: mostly well formed, now and then any bytes, and rarely one that strikes or withdraws.
/// Numbers of issuers, users, roles and the others are mostly below the bound.
pub fn random_record(random: &mut Random, bound: u8) -> Record {
    if random.once_in(64) {
        return (0..random.below(12)).map(|_| random.below(24)).collect();
    }
    let mut kind = 1 + u16::from(random.below(23));
    if (kind == STRIKE || kind == WITHDRAW) && !random.once_in(16) {
        kind = MAY_USE;
    }
    // Removing a user, a role or a permission: half as often as adding one; so unpublishing.
    if matches!(kind, 6 | 8 | 10 | UNPUBLISH) && random.once_in(2) {
        kind -= 1;
    }
    let mut caller = if kind <= 2 {
        OPERATOR
    } else {
        random.below(bound)
    };
    if random.once_in(64) {
        caller = random.below(20);
    }
    let mut arguments: Vec<u8> = (0..count(kind)).map(|_| random.below(bound)).collect();
    if random.once_in(64) {
        arguments[0] = random.below(255);
    }
    record(kind, caller, &arguments)
}

/// A random kind 21, with numbers 0 to 15.
pub fn random_question(random: &mut Random) -> Record {
    let arguments: [u8; 3] = std::array::from_fn(|_| random.below(16));
    record(MAY_USE, random.below(16), &arguments)
}

/// A random journal that begins with sixteen enrolments.
pub fn random_journal(random: &mut Random, length: usize) -> Vec<Record> {
    let enrolments = (0..16).map(|i| record(ENROL, OPERATOR, &[i]));
    let rest = (16..length).map(|_| random_record(random, 16));
    enrolments.chain(rest).collect()
}

// What makes and breaks the reach of active roles. What stands here more often is drawn more often.
const LIVELY: [u16; 32] = [
    ENROL, TRUST, TRUST, WITHDRAW, ADD_USER, ADD_ROLE, ADD_ROLE, ADD_ROLE, GIVE_ROLE, GIVE_ROLE,
    TAKE_ROLE, ATTACH, ATTACH, ATTACH, ATTACH, ATTACH, DETACH, DETACH, DETACH, OPEN, OPEN,
    ACTIVATE, ACTIVATE, ACTIVATE, ACTIVATE, ACTIVATE, ACTIVATE, ACTIVATE, PUBLISH, PUBLISH,
    PUBLISH, UNPUBLISH,
];

/// A random record of a portal with four issuers, users, roles and sessions, mostly of those kinds.
fn lively_record(random: &mut Random) -> Record {
    if random.once_in(8) {
        return random_record(random, 4);
    }
    let kind = LIVELY[usize::from(random.below(32))];
    let caller = if kind == ENROL {
        OPERATOR
    } else {
        random.below(4)
    };
    let arguments: Vec<u8> = (0..count(kind)).map(|_| random.below(4)).collect();
    record(kind, caller, &arguments)
}

/// A random journal in which lesser roles are often activated and dropped.
pub fn lively_journal(random: &mut Random, length: usize) -> Vec<Record> {
    (0..length).map(|_| lively_record(random)).collect()
}
