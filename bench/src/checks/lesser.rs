//! Lesser roles, call by call: activated, refused and dropped as Card 2 says.

use super::Checked;
use crate::answer::refused;
use crate::library;
use crate::records::*;
use crate::words::{held, row, session, ATTACHMENTS, WORDS};

/// A call, its refusal, and the active roles of 0/0 after it.
type Step = (u16, u8, &'static [u8], u16, u16);

// Sets of roles of issuer 0: its cellar master is role 1, its press hand role 2.
const NONE: u16 = 0;
const MASTER: u16 = 1 << 1;
const HAND: u16 = 1 << 2;

/// Issuers 0, 1 and 2, of which each trusts the next. 0#2 stands below 0#1, by way of 1#4 and 2#5. User 0 holds 0#1
/// and works in session 0 with 0#2; user 1 holds 0#2 itself. Nobody holds 0#3, with 0#2 below it too, and 0#6.
const CELLAR: &[Step] = &[
    (ENROL, OPERATOR, &[0], 0, NONE),
    (ENROL, OPERATOR, &[1], 0, NONE),
    (ENROL, OPERATOR, &[2], 0, NONE),
    (TRUST, 0, &[1], 0, NONE),
    (TRUST, 1, &[2], 0, NONE),
    (TRUST, 2, &[0], 0, NONE),
    (ADD_ROLE, 0, &[1], 0, NONE),
    (ADD_ROLE, 0, &[2], 0, NONE),
    (ADD_ROLE, 0, &[3], 0, NONE),
    (ADD_ROLE, 0, &[6], 0, NONE),
    (ADD_ROLE, 1, &[4], 0, NONE),
    (ADD_ROLE, 2, &[5], 0, NONE),
    (PUBLISH, 0, &[1], 0, NONE),
    (PUBLISH, 1, &[4], 0, NONE),
    (PUBLISH, 2, &[5], 0, NONE),
    (ATTACH, 1, &[4, 0, 1], 0, NONE),
    (ATTACH, 2, &[5, 1, 4], 0, NONE),
    (ATTACH, 0, &[2, 2, 5], 0, NONE),
    (ATTACH, 0, &[2, 0, 3], 0, NONE),
    (ADD_USER, 0, &[0], 0, NONE),
    (ADD_USER, 0, &[1], 0, NONE),
    (GIVE_ROLE, 0, &[0, 1], 0, NONE),
    (GIVE_ROLE, 0, &[1, 2], 0, NONE),
    (OPEN, 0, &[0, 0], 0, NONE),
    (OPEN, 0, &[1, 1], 0, NONE),
    (ACTIVATE, 0, &[0, 2], 0, HAND),
    (ACTIVATE, 0, &[1, 2], 0, HAND),
];

/// Each played from the cellar.
const SCENES: &[&[Step]] = &[
    // What is reached may be activated, and nothing else.
    &[
        (ACTIVATE, 0, &[0, 7], 10, HAND),
        (ACTIVATE, 0, &[2, 2], 10, HAND),
        (ACTIVATE, 0, &[0, 3], 11, HAND),
        (ACTIVATE, 0, &[0, 6], 11, HAND),
        (ACTIVATE, 0, &[1, 1], 11, HAND),
        (ACTIVATE, 0, &[0, 2], 12, HAND),
        (ACTIVATE, 0, &[0, 1], 0, HAND | MASTER),
        (DEACTIVATE, 0, &[0, 2], 0, MASTER),
        (ACTIVATE, 0, &[0, 2], 0, HAND | MASTER),
        (CLOSE, 0, &[0], 0, NONE),
    ],
    // Each issuer on the way detaches; attaching again brings nothing back.
    &[
        (DETACH, 1, &[4, 0, 1], 0, NONE),
        (ACTIVATE, 0, &[0, 2], 11, NONE),
        (DEACTIVATE, 0, &[0, 2], 12, NONE),
        (ATTACH, 1, &[4, 0, 1], 0, NONE),
        (ACTIVATE, 0, &[0, 2], 0, HAND),
        (DETACH, 2, &[5, 1, 4], 0, NONE),
        (ATTACH, 2, &[5, 1, 4], 0, NONE),
        (ACTIVATE, 0, &[0, 2], 0, HAND),
        (DETACH, 0, &[2, 2, 5], 0, NONE),
    ],
    // A held role that is active stays, and what isn't on the way may go.
    &[
        (ACTIVATE, 0, &[0, 1], 0, HAND | MASTER),
        (DETACH, 0, &[2, 0, 3], 0, HAND | MASTER),
        (DETACH, 2, &[5, 1, 4], 0, MASTER),
    ],
    // A second way.
    &[
        (ATTACH, 0, &[2, 0, 1], 0, HAND),
        (DETACH, 1, &[4, 0, 1], 0, HAND),
        (DETACH, 0, &[2, 0, 1], 0, NONE),
    ],
    // The master's role is taken.
    &[
        (ACTIVATE, 0, &[0, 1], 0, HAND | MASTER),
        (TAKE_ROLE, 0, &[0, 1], 0, NONE),
        (GIVE_ROLE, 0, &[0, 1], 0, NONE),
    ],
    // One of two held roles is taken, then the other.
    &[
        (GIVE_ROLE, 0, &[0, 3], 0, HAND),
        (TAKE_ROLE, 0, &[0, 1], 0, HAND),
        (TAKE_ROLE, 0, &[0, 3], 0, NONE),
    ],
    // The active role itself is taken: still reached, and then not.
    &[
        (GIVE_ROLE, 0, &[0, 2], 0, HAND),
        (TAKE_ROLE, 0, &[0, 2], 0, HAND),
        (GIVE_ROLE, 0, &[0, 2], 0, HAND),
        (TAKE_ROLE, 0, &[0, 1], 0, HAND),
        (TAKE_ROLE, 0, &[0, 2], 0, NONE),
    ],
    // Another user's role is taken.
    &[(TAKE_ROLE, 0, &[1, 2], 0, HAND)],
    // Trust on the way is withdrawn.
    &[
        (WITHDRAW, 0, &[1], 0, NONE),
        (TRUST, 0, &[1], 0, NONE),
        (ACTIVATE, 0, &[0, 2], 11, NONE),
    ],
    &[(WITHDRAW, 1, &[2], 0, NONE)],
    &[(WITHDRAW, 2, &[0], 0, NONE)],
    &[(TRUST, 0, &[2], 0, HAND), (WITHDRAW, 0, &[2], 0, HAND)],
    // A senior on the way is unpublished; the press hand's own publication is no part of the way.
    &[
        (UNPUBLISH, 0, &[1], 0, NONE),
        (PUBLISH, 0, &[1], 0, NONE),
        (ACTIVATE, 0, &[0, 2], 11, NONE),
    ],
    &[(UNPUBLISH, 1, &[4], 0, NONE)],
    &[(UNPUBLISH, 2, &[5], 0, NONE)],
    &[(PUBLISH, 0, &[2], 0, HAND), (UNPUBLISH, 0, &[2], 0, HAND)],
    // A role on the way is removed.
    &[(REMOVE_ROLE, 0, &[1], 0, NONE)],
    &[(REMOVE_ROLE, 0, &[2], 0, NONE)],
    &[(REMOVE_ROLE, 1, &[4], 0, NONE)],
    &[(REMOVE_ROLE, 2, &[5], 0, NONE)],
    &[(REMOVE_ROLE, 0, &[3], 0, HAND)],
    // Users go, and issuers.
    &[
        (REMOVE_USER, 0, &[1], 0, HAND),
        (REMOVE_USER, 0, &[0], 0, NONE),
    ],
    &[(STRIKE, OPERATOR, &[0], 0, NONE)],
    &[(STRIKE, OPERATOR, &[1], 0, NONE)],
    &[(STRIKE, OPERATOR, &[2], 0, NONE)],
];

impl Checked {
    /// Plays a scene, with the answers and the active roles that it has.
    fn scene(&mut self, state: &mut [u16], steps: &[Step]) {
        for step in steps {
            let &(kind, caller, arguments, refusal, active) = step;
            let answer = self.plays(state, &record(kind, caller, arguments));
            assert_eq!(
                (answer, state[session(0, 0) + 1]),
                (refused(refusal), active),
                "{step:?}"
            );
        }
    }
}

/// Compares the engines on every scene, and on the cellar with a bit changed: unlawful where that leaves an active role beyond reach.
pub fn compare(checked: &mut Checked) {
    let mut cellar = vec![0; WORDS];
    library::start(&mut cellar);
    checked.scene(&mut cellar, CELLAR);
    for scene in SCENES {
        checked.scene(&mut cellar.clone(), scene);
    }
    for (at, bit, refusal) in [
        (row(ATTACHMENTS, 1, 4), 1, 2),
        (row(ATTACHMENTS, 2, 5) + 1, 4, 2),
        (row(ATTACHMENTS, 0, 2) + 2, 5, 2),
        (row(ATTACHMENTS, 0, 2), 3, 0),
        (held(0, 0), 1, 2),
        (held(0, 1), 2, 2),
        (held(0, 0), 3, 0),
        (session(0, 0), 0, 0),
        (session(0, 0) + 1, 1, 0),
        (session(0, 0) + 1, 2, 0),
        (session(0, 0) + 1, 3, 2),
        (session(0, 0) + 1, 6, 2),
        (session(0, 0) + 1, 7, 2),
        (session(0, 1) + 1, 1, 2),
        (session(0, 2) + 1, 2, 2),
    ] {
        let mut state = cellar.clone();
        state[at] ^= 1 << bit;
        let answer = checked.plays(&mut state, &record(ADD_USER, 2, &[0]));
        assert_eq!(answer, refused(refusal), "word {at}, bit {bit}");
    }
}
