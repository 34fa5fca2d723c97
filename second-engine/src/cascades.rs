//! What an accepted call does: "Cascades, all within the one call."

use crate::record::{Call, Decoded};
use crate::sets::{own, Attachment, Grant, Held, Permission, Role, Session, Sets, Trust, User};
use std::collections::BTreeSet;

/// "Nothing else changes."
pub fn carry_out(sets: &mut Sets, decoded: &Decoded) {
    change(sets, decoded);
    drop_beyond_reach(sets);
}

fn change(sets: &mut Sets, decoded: &Decoded) {
    let caller = decoded.caller;
    match decoded.call {
        Call::Enrol { issuer } => enrol(sets, issuer),
        Call::Strike { issuer } => strike(sets, issuer),
        Call::GiveTrust { trustee } => {
            let trustor = caller;
            sets.trust.insert(Trust { trustor, trustee });
        }
        Call::WithdrawTrust { trustee } => withdraw(sets, caller, trustee),
        Call::AddUser { user } => {
            sets.users.insert(own(caller, user));
        }
        Call::RemoveUser { user } => remove_user(sets, own(caller, user)),
        Call::AddRole { role } => {
            sets.roles.insert(own(caller, role));
        }
        Call::RemoveRole { role } => remove_role(sets, own(caller, role)),
        Call::AddPermission { permission } => {
            sets.permissions.insert(own(caller, permission));
        }
        Call::RemovePermission { permission } => remove_permission(sets, own(caller, permission)),
        Call::GiveRole { user, role } => {
            let user = own(caller, user);
            sets.held.insert(Held { user, role });
        }
        Call::TakeRole { user, role } => {
            let user = own(caller, user);
            sets.held.remove(&Held { user, role });
        }
        Call::Grant {
            permission,
            issuer,
            role,
        } => {
            let role = own(issuer, role);
            let permission = own(caller, permission);
            sets.grants.insert(Grant { role, permission });
        }
        Call::Ungrant {
            permission,
            issuer,
            role,
        } => {
            let role = own(issuer, role);
            let permission = own(caller, permission);
            sets.grants.remove(&Grant { role, permission });
        }
        Call::Attach {
            junior,
            issuer,
            senior,
        } => {
            let senior = own(issuer, senior);
            let junior = own(caller, junior);
            sets.attachments.insert(Attachment { senior, junior });
        }
        Call::Detach {
            junior,
            issuer,
            senior,
        } => {
            let senior = own(issuer, senior);
            let junior = own(caller, junior);
            sets.attachments.remove(&Attachment { senior, junior });
        }
        // "Kind 17 opens with no active role."
        Call::OpenSession { session, user } => {
            let active = BTreeSet::new();
            let opened = Session { user, active };
            sets.sessions.insert(own(caller, session), opened);
        }
        Call::CloseSession { session } => {
            sets.sessions.remove(&own(caller, session));
        }
        Call::Activate { session, role } => {
            if let Some(open) = sets.sessions.get_mut(&own(caller, session)) {
                open.active.insert(role);
            }
        }
        Call::Deactivate { session, role } => {
            if let Some(open) = sets.sessions.get_mut(&own(caller, session)) {
                open.active.remove(&role);
            }
        }
        Call::MayUse { .. } => {}
        Call::PublishRole { role } => {
            sets.public.insert(own(caller, role));
        }
        Call::UnpublishRole { role } => unpublish(sets, own(caller, role)),
    }
}

/// "Enrolling also sets the issuer's trust in itself."
fn enrol(sets: &mut Sets, issuer: usize) {
    sets.enrolled.insert(issuer);
    sets.trust.insert(Trust {
        trustor: issuer,
        trustee: issuer,
    });
}

/// "Striking an issuer clears everything it owns, its roles in others' words and its trust
/// both ways; its sessions close."
fn strike(sets: &mut Sets, issuer: usize) {
    sets.enrolled.remove(&issuer);
    sets.trust
        .retain(|trust| trust.trustor != issuer && trust.trustee != issuer);
    sets.users.retain(|user| user.issuer != issuer);
    sets.roles.retain(|role| role.issuer != issuer);
    sets.public.retain(|role| role.issuer != issuer);
    sets.permissions
        .retain(|permission| permission.issuer != issuer);
    sets.held.retain(|held| held.user.issuer != issuer);
    sets.grants
        .retain(|grant| grant.permission.issuer != issuer && grant.role.issuer != issuer);
    sets.attachments.retain(|attachment| {
        attachment.junior.issuer != issuer && attachment.senior.issuer != issuer
    });
    sets.sessions.retain(|name, _| name.issuer != issuer);
}

/// "Withdrawing clears grants and attachments that needed that trust": the trustee's
/// permissions at the trustor's roles, and the trustee's roles below the trustor's.
fn withdraw(sets: &mut Sets, trustor: usize, trustee: usize) {
    sets.trust.remove(&Trust { trustor, trustee });
    sets.grants
        .retain(|grant| grant.role.issuer != trustor || grant.permission.issuer != trustee);
    sets.attachments.retain(|attachment| {
        attachment.senior.issuer != trustor || attachment.junior.issuer != trustee
    });
}

/// "Removing a user clears what it held and closes its sessions."
fn remove_user(sets: &mut Sets, user: User) {
    sets.users.remove(&user);
    sets.held.retain(|held| held.user != user);
    sets.sessions
        .retain(|name, session| own(name.issuer, session.user) != user);
}

/// "Removing a role clears it from held words, sessions, grants and attachments on either
/// side." Its public bit is "cleared with the thing" that it names.
fn remove_role(sets: &mut Sets, role: Role) {
    sets.roles.remove(&role);
    sets.public.remove(&role);
    sets.held
        .retain(|held| own(held.user.issuer, held.role) != role);
    for (name, session) in &mut sets.sessions {
        if name.issuer == role.issuer {
            session.active.remove(&role.number);
        }
    }
    sets.grants.retain(|grant| grant.role != role);
    sets.attachments
        .retain(|attachment| attachment.senior != role && attachment.junior != role);
}

/// "Removing a permission clears its grants."
fn remove_permission(sets: &mut Sets, permission: Permission) {
    sets.permissions.remove(&permission);
    sets.grants.retain(|grant| grant.permission != permission);
}

/// "Unpublishing clears those that used it": the grants and attachments of other estates.
fn unpublish(sets: &mut Sets, role: Role) {
    sets.public.remove(&role);
    sets.grants
        .retain(|grant| grant.role != role || grant.permission.issuer == role.issuer);
    sets.attachments
        .retain(|attachment| attachment.senior != role || attachment.junior.issuer == role.issuer);
}

/// "An active role is dropped in the call that breaks its reach, also when another estate
/// detaches; taking a role drops nothing still reached." So every session is looked at, and a
/// call that breaks no reach drops nothing.
fn drop_beyond_reach(sets: &mut Sets) {
    let mut sessions = sets.sessions.clone();
    for (name, session) in &mut sessions {
        let reach = sets.within_reach(own(name.issuer, session.user));
        session.active.retain(|role| reach.contains(role));
    }
    sets.sessions = sessions;
}
