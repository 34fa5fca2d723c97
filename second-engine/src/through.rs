//! "Through which role?": the lookup behind a verdict.

use crate::sets::{own, Grant, Permission, Role, SessionName, Sets};
use std::collections::BTreeSet;

/// "without a yes they are 255 and 255"
pub const NO_ROLE: Role = own(255, 255);

impl Sets {
    /// What the active roles of an open session reach.
    pub fn reached_in(&self, name: SessionName) -> BTreeSet<Role> {
        let open = self.sessions.get(&name).into_iter();
        let active = open.flat_map(|session| &session.active);
        self.reached(active.map(|&role| own(name.issuer, role)))
    }

    /// The reached roles that hold the permission.
    pub fn reached_holders(&self, name: SessionName, permission: Permission) -> BTreeSet<Role> {
        let mut roles = self.reached_in(name);
        roles.retain(|&role| self.grants.contains(&Grant { role, permission }));
        roles
    }

    /// "The lookup that said whether some reached role holds a permission now gives the one with
    /// the lowest issuer number, then the lowest role number."
    pub fn through(&self, name: SessionName, permission: Permission) -> Option<Role> {
        self.reached_holders(name, permission).first().copied()
    }

    /// "an active role of an open session reaches a role that holds p"
    pub fn may_use(&self, name: SessionName, permission: Permission) -> bool {
        self.through(name, permission).is_some()
    }
}
