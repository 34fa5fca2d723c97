//! What Card 7 says of a yes, looked for in the sets from the told role upwards: without the
//! lookup and the walk of the engine.

use crate::engine::unpacked;
use crate::record::{decode_call, Call};
use crate::sets::{own, Grant, Permission, Role, SessionName, Sets};
use std::collections::BTreeSet;

/// A yes: the session and the permission that were asked for, and the role told.
#[derive(Clone, Copy)]
pub struct Yes {
    pub name: SessionName,
    pub permission: Permission,
    pub told: Role,
}

/// The session and the permission of a kind 21.
pub fn asked_for(record: &[u8]) -> Option<(SessionName, Permission)> {
    let decoded = decode_call(record)?;
    match decoded.call {
        Call::MayUse {
            permission,
            issuer,
            session,
        } => Some((own(issuer, session), own(decoded.caller, permission))),
        _ => None,
    }
}

impl Yes {
    /// The yes to a record, if the packed answer is one.
    pub fn to(record: &[u8], packed: u64) -> Option<Yes> {
        let (name, permission) = asked_for(record)?;
        let [refusal, verdict, issuer, role, _] = unpacked(packed);
        let told = own(issuer as usize, role as usize);
        (refusal == 0 && verdict == 1).then_some(Yes {
            name,
            permission,
            told,
        })
    }

    /// What is wrong with the told role, if something is.
    pub fn wrong(&self, sets: &Sets) -> Option<String> {
        let Yes {
            permission, told, ..
        } = *self;
        let role = format!("{}#{}", told.issuer, told.number);
        if !self.holds(sets, told) {
            return Some(format!("{role} doesn't hold the permission"));
        }
        if !self.is_reached(sets, told) {
            return Some(format!("no active role reaches {role}"));
        }
        // "the lowest issuer number, then the lowest role number"
        for (i, r) in (0..256).map(|n| (n / 16, n % 16)) {
            let lower = i < told.issuer || i == told.issuer && r < told.number;
            if lower && self.holds(sets, own(i, r)) && self.is_reached(sets, own(i, r)) {
                return Some(format!("{i}#{r} is lower than {role}"));
            }
        }
        // "That role's owner trusts the permission's"
        if !sets.trusts(told.issuer, permission.issuer) {
            return Some(format!(
                "the owner of {role} doesn't trust the permission's"
            ));
        }
        None
    }

    fn holds(&self, sets: &Sets, role: Role) -> bool {
        let permission = self.permission;
        sets.grants.contains(&Grant { role, permission })
    }

    /// Whether the role or one above it is active in the session.
    fn is_reached(&self, sets: &Sets, role: Role) -> bool {
        let Some(session) = sets.sessions.get(&self.name) else {
            return false;
        };
        let mut above = BTreeSet::from([role]);
        loop {
            let links = sets.attachments.iter();
            let links = links.filter(|link| above.contains(&link.junior));
            let seniors: BTreeSet<Role> = links.map(|link| link.senior).collect();
            if seniors.is_subset(&above) {
                break;
            }
            above.extend(seniors);
        }
        let mut active = session.active.iter();
        active.any(|&number| above.contains(&own(self.name.issuer, number)))
    }
}
