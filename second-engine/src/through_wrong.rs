//! Lookups and answers that are wrong in one thing each, made of the right ones.

use crate::counts::attachments_walked;
use crate::engine::{Answer, ACCEPTED};
use crate::sets::{own, Permission, Role, SessionName, Sets};
use crate::through::NO_ROLE;

type Lookup = fn(&Sets, SessionName, Permission) -> Option<Role>;

/// They tell another role of those with a yes.
pub const LOOKUPS: [(&str, Lookup); 14] = [
    ("the highest", |sets, name, permission| {
        sets.reached_holders(name, permission).last().copied()
    }),
    (
        "lowest role before lowest issuer",
        |sets, name, permission| {
            lowest_by(sets, name, permission, |role| (role.number, role.issuer))
        },
    ),
    (
        "lowest issuer, then highest role",
        |sets, name, permission| {
            lowest_by(sets, name, permission, |role| {
                (role.issuer, 15 - role.number)
            })
        },
    ),
    (
        "highest issuer, then lowest role",
        |sets, name, permission| {
            lowest_by(sets, name, permission, |role| {
                (15 - role.issuer, role.number)
            })
        },
    ),
    ("the owner's role first", |sets, name, permission| {
        let away = |role: Role| usize::from(role.issuer != permission.issuer);
        lowest_by(sets, name, permission, |role| (away(role), role))
    }),
    (
        "a role of the session's estate first",
        |sets, name, permission| {
            let away = |role: Role| usize::from(role.issuer != name.issuer);
            lowest_by(sets, name, permission, |role| (away(role), role))
        },
    ),
    ("the nearest", |sets, name, permission| {
        let walked = |role| attachments_walked(sets, name, |&other| other == role);
        lowest_by(sets, name, permission, |role| (walked(role), role))
    }),
    (
        "the lowest active role that leads to one",
        |sets, name, permission| leading(sets, name, permission),
    ),
    (
        "only below the lowest active role that leads to one",
        |sets, name, permission| {
            let below = sets.reached(leading(sets, name, permission));
            let holders = sets.reached_holders(name, permission);
            holders.intersection(&below).next().copied()
        },
    ),
    ("an unreached holder", |sets, _, permission| {
        let grants = sets.grants.iter();
        let held = grants.filter(|grant| grant.permission == permission);
        held.map(|grant| grant.role).min()
    }),
    ("a reached role that doesn't hold it", |sets, name, _| {
        sets.reached_in(name).first().copied()
    }),
    (
        "what a held role reaches, active or not",
        |sets, name, permission| {
            let mut sets = sets.clone();
            let user = own(name.issuer, sets.sessions[&name].user);
            let reach = sets.within_reach(user);
            sets.sessions
                .entry(name)
                .and_modify(|open| open.active = reach);
            sets.through(name, permission)
        },
    ),
    (
        "a role of the session's estate alone",
        |sets, name, permission| {
            let holders = sets.reached_holders(name, permission).into_iter();
            Some(
                holders
                    .filter(|role| role.issuer == name.issuer)
                    .min()
                    .unwrap_or(NO_ROLE),
            )
        },
    ),
    ("issuer and role exchanged", |sets, name, permission| {
        let role = sets.through(name, permission)?;
        Some(own(role.number, role.issuer))
    }),
];

type Teller = fn(&mut Answer);

/// They tell something else with what was looked up right.
pub const TELLERS: [(&str, Teller); 9] = [
    ("0 and 0 without a yes", |answer| {
        if answer.verdict == 0 {
            answer.through = own(0, 0);
        }
    }),
    ("0 and 0 in an accepted no", |answer| {
        if *answer == ACCEPTED {
            answer.through = own(0, 0);
        }
    }),
    ("0 and 0 in a refusal", |answer| {
        if answer.refusal != 0 {
            answer.through = own(0, 0);
        }
    }),
    ("0 and 0 in refusals 1 and 2", |answer| {
        if matches!(answer.refusal, 1 | 2) {
            answer.through = own(0, 0);
        }
    }),
    ("0 and 0 in refusal 3", |answer| {
        if answer.refusal == 3 {
            answer.through = own(0, 0);
        }
    }),
    ("16 and 16 without a yes", |answer| {
        if answer.verdict == 0 {
            answer.through = own(16, 16);
        }
    }),
    ("255 and 0 without a yes", |answer| {
        if answer.verdict == 0 {
            answer.through.number = 0;
        }
    }),
    ("255 and 255 always", |answer| answer.through = NO_ROLE),
    ("0 and 0 always", |answer| answer.through = own(0, 0)),
];

/// The one for which the key is lowest.
fn lowest_by<K: Ord>(
    sets: &Sets,
    name: SessionName,
    permission: Permission,
    key: impl Fn(Role) -> K,
) -> Option<Role> {
    let holders = sets.reached_holders(name, permission).into_iter();
    holders.min_by_key(|&role| key(role))
}

/// The lowest active role that reaches a holder.
fn leading(sets: &Sets, name: SessionName, permission: Permission) -> Option<Role> {
    let holders = sets.reached_holders(name, permission);
    let active = sets.sessions[&name].active.iter();
    let mut active = active.map(|&role| own(name.issuer, role));
    active.find(|&role| !sets.reached([role]).is_disjoint(&holders))
}
