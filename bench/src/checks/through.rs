//! Through which role, call by call: the lowest holder that an active role reaches, as Card 7 says.

use super::Checked;
use crate::answer::{through, yes, ACCEPTED};
use crate::library;
use crate::records::*;
use crate::words::{session, WORDS};

/// A call, and the role through which it is a yes.
type Step = (u16, u8, &'static [u8], Option<(u8, u8)>);

/// The question that is put again and again: may 1/0 use 1%5?
const fn may(role: Option<(u8, u8)>) -> Step {
    (MAY_USE, 1, &[5, 1, 0], role)
}

/// Issuer 1 owns the permission, 1%5; 0 and 2 trust it. 1@0 holds 1#3 and 1#6 and works in 1/0 with 1#3. Below 1#3 stand 1#9
/// and 2#4, and below 2#4 stands 0#8; 0#1 and 1#2 are nobody's juniors.
const PORTAL: &[Step] = &[
    (ENROL, OPERATOR, &[0], None),
    (ENROL, OPERATOR, &[1], None),
    (ENROL, OPERATOR, &[2], None),
    (TRUST, 0, &[1], None),
    (TRUST, 1, &[2], None),
    (TRUST, 2, &[0], None),
    (TRUST, 2, &[1], None),
    (ADD_ROLE, 0, &[1], None),
    (ADD_ROLE, 0, &[8], None),
    (ADD_ROLE, 1, &[2], None),
    (ADD_ROLE, 1, &[3], None),
    (ADD_ROLE, 1, &[6], None),
    (ADD_ROLE, 1, &[9], None),
    (ADD_ROLE, 2, &[4], None),
    (PUBLISH, 0, &[1], None),
    (PUBLISH, 0, &[8], None),
    (PUBLISH, 1, &[3], None),
    (PUBLISH, 2, &[4], None),
    (ATTACH, 1, &[9, 1, 3], None),
    (ATTACH, 2, &[4, 1, 3], None),
    (ATTACH, 0, &[8, 2, 4], None),
    (ADD_PERMISSION, 1, &[5], None),
    (ADD_USER, 1, &[0], None),
    (GIVE_ROLE, 1, &[0, 3], None),
    (GIVE_ROLE, 1, &[0, 6], None),
    (OPEN, 1, &[0, 0], None),
    (ACTIVATE, 1, &[0, 3], None),
    may(None),
];

/// Each played from the portal.
const SCENES: &[&[Step]] = &[
    // Holders come from the highest number to the lowest, and each that is reached is told.
    &[
        (GRANT, 1, &[5, 2, 4], None),
        may(Some((2, 4))),
        (GRANT, 1, &[5, 1, 9], None),
        may(Some((1, 9))),
        (GRANT, 1, &[5, 1, 6], None),
        may(Some((1, 9))),
        (ACTIVATE, 1, &[0, 6], None),
        may(Some((1, 6))),
        (GRANT, 1, &[5, 1, 3], None),
        may(Some((1, 3))),
        (GRANT, 1, &[5, 1, 2], None),
        may(Some((1, 3))),
        (GRANT, 1, &[5, 0, 8], None),
        may(Some((0, 8))),
        (GRANT, 1, &[5, 0, 1], None),
        may(Some((0, 8))),
    ],
    // They go from the lowest: the issuer's number comes before the role's.
    &[
        (GRANT, 1, &[5, 0, 1], None),
        (GRANT, 1, &[5, 0, 8], None),
        (GRANT, 1, &[5, 1, 3], None),
        (GRANT, 1, &[5, 2, 4], None),
        may(Some((0, 8))),
        (DETACH, 0, &[8, 2, 4], None),
        may(Some((1, 3))),
        (UNGRANT, 1, &[5, 1, 3], None),
        may(Some((2, 4))),
        (DETACH, 2, &[4, 1, 3], None),
        may(None),
    ],
    // What only reaches the active role, or holds another permission, isn't told.
    &[
        (ATTACH, 1, &[3, 1, 2], None),
        (GRANT, 1, &[5, 1, 2], None),
        (ADD_PERMISSION, 1, &[4], None),
        (GRANT, 1, &[4, 0, 8], None),
        may(None),
        (GRANT, 1, &[5, 1, 9], None),
        may(Some((1, 9))),
    ],
    // The first role of all, which holds it and is active.
    &[
        (ADD_ROLE, 0, &[0], None),
        (ADD_USER, 0, &[0], None),
        (PUBLISH, 0, &[0], None),
        (GIVE_ROLE, 0, &[0, 0], None),
        (OPEN, 0, &[0, 0], None),
        (ACTIVATE, 0, &[0, 0], None),
        (GRANT, 1, &[5, 0, 0], None),
        (MAY_USE, 1, &[5, 0, 0], Some((0, 0))),
        may(None),
    ],
    // No role is active, the session is closed, or it is nobody's.
    &[
        (GRANT, 1, &[5, 1, 3], None),
        may(Some((1, 3))),
        (DEACTIVATE, 1, &[0, 3], None),
        may(None),
        (ACTIVATE, 1, &[0, 3], None),
        may(Some((1, 3))),
        (CLOSE, 1, &[0], None),
        may(None),
        (MAY_USE, 1, &[5, 9, 0], None),
    ],
];

impl Checked {
    /// Plays a scene, with the roles that it has. Every call is accepted.
    fn told(&mut self, state: &mut [u16], steps: &[Step]) {
        for step in steps {
            let &(kind, caller, arguments, role) = step;
            let answer = self.plays(state, &record(kind, caller, arguments));
            let expected = role.map_or(ACCEPTED, |(issuer, role)| yes(issuer, role));
            assert_eq!(answer, expected, "{:?} after {step:?}", through(answer));
        }
    }
}

/// Compares the engines on every scene.
pub fn compare(checked: &mut Checked) {
    let mut portal = vec![0; WORDS];
    library::start(&mut portal);
    checked.told(&mut portal, PORTAL);
    for scene in SCENES {
        checked.told(&mut portal.clone(), scene);
    }
}

/// Whether the role of a yes to a kind 21 isn't active itself in the session that was asked about.
pub fn is_inherited(state: &[u16], record: &[u8], answer: u64) -> bool {
    let [i, s] = [record[6], record[7]];
    let (issuer, role) = through(answer);
    issuer != i || state[session(i.into(), s.into()) + 1] >> role & 1 == 0
}
