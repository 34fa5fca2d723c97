//! "Lawful means": each clause is looked for in the sets by itself.

use crate::sets::{own, Attachment, Role, Sets};
use std::collections::BTreeSet;

/// The clauses of "Lawful means", in the order of the sentence, then those of the public roles.
#[derive(Clone, Copy, Debug, PartialEq, Eq, PartialOrd, Ord)]
pub enum Law {
    TrustAmongEnrolled,
    EnrolledTrustsItself,
    OwnerEnrolled,
    HeldUserPresent,
    HeldRolePresent,
    GrantEndsPresent,
    GrantTrusted,
    AttachmentEndsPresent,
    AttachmentTrusted,
    ClosedHasNoActive,
    OpenHasUser,
    ActiveIsReached,
    NoCircle,
    PublicIsPresent,
    GrantPublic,
    AttachmentPublic,
}

pub const LAWS: [Law; 16] = [
    Law::TrustAmongEnrolled,
    Law::EnrolledTrustsItself,
    Law::OwnerEnrolled,
    Law::HeldUserPresent,
    Law::HeldRolePresent,
    Law::GrantEndsPresent,
    Law::GrantTrusted,
    Law::AttachmentEndsPresent,
    Law::AttachmentTrusted,
    Law::ClosedHasNoActive,
    Law::OpenHasUser,
    Law::ActiveIsReached,
    Law::NoCircle,
    Law::PublicIsPresent,
    Law::GrantPublic,
    Law::AttachmentPublic,
];

pub fn lawful(sets: &Sets) -> bool {
    LAWS.iter().all(|&law| kept(sets, law))
}

/// The clauses that these sets break.
pub fn broken_laws(sets: &Sets) -> Vec<Law> {
    LAWS.into_iter().filter(|&law| !kept(sets, law)).collect()
}

fn kept(sets: &Sets, law: Law) -> bool {
    match law {
        // "trust only among enrolled issuers"
        Law::TrustAmongEnrolled => sets.trust.iter().all(|trust| {
            sets.enrolled.contains(&trust.trustor) && sets.enrolled.contains(&trust.trustee)
        }),
        // "and each enrolled one trusts itself"
        Law::EnrolledTrustsItself => sets
            .enrolled
            .iter()
            .all(|&issuer| sets.trusts(issuer, issuer)),
        // "users, roles and permissions only under enrolled issuers"
        Law::OwnerEnrolled => [&sets.users, &sets.roles, &sets.permissions]
            .into_iter()
            .flatten()
            .all(|thing| sets.enrolled.contains(&thing.issuer)),
        // "held bits only between a present user"
        Law::HeldUserPresent => sets.held.iter().all(|held| sets.users.contains(&held.user)),
        // "and a present role"
        Law::HeldRolePresent => sets
            .held
            .iter()
            .all(|held| sets.roles.contains(&own(held.user.issuer, held.role))),
        // "grants and attachments only between present ends"
        Law::GrantEndsPresent => sets.grants.iter().all(|grant| {
            sets.roles.contains(&grant.role) && sets.permissions.contains(&grant.permission)
        }),
        Law::AttachmentEndsPresent => sets.attachments.iter().all(|attachment| {
            sets.roles.contains(&attachment.senior) && sets.roles.contains(&attachment.junior)
        }),
        // "with the role's (or senior's) owner trusting the other owner"
        Law::GrantTrusted => sets
            .grants
            .iter()
            .all(|grant| sets.trusts(grant.role.issuer, grant.permission.issuer)),
        Law::AttachmentTrusted => sets
            .attachments
            .iter()
            .all(|attachment| sets.trusts(attachment.senior.issuer, attachment.junior.issuer)),
        // "a closed session has no active role"
        Law::ClosedHasNoActive => sets.active_in_closed.is_empty(),
        // "an open one a present user"
        Law::OpenHasUser => sets
            .sessions
            .iter()
            .all(|(name, session)| sets.users.contains(&own(name.issuer, session.user))),
        // "and active roles that this user holds", now each one "that a held role reaches"
        Law::ActiveIsReached => sets.sessions.iter().all(|(name, session)| {
            let user = own(name.issuer, session.user);
            session.active.is_subset(&sets.within_reach(user))
        }),
        // "no role reaches itself by one or more attachments"
        Law::NoCircle => !has_circle(sets),
        // "only present roles there"
        Law::PublicIsPresent => sets.public.is_subset(&sets.roles),
        // "and links across estates only on public ones"
        Law::GrantPublic => sets
            .grants
            .iter()
            .all(|grant| sets.shown_to(grant.role, grant.permission.issuer)),
        Law::AttachmentPublic => sets
            .attachments
            .iter()
            .all(|attachment| sets.shown_to(attachment.senior, attachment.junior.issuer)),
    }
}

/// Depth-first search from every senior.
fn has_circle(sets: &Sets) -> bool {
    let mut path = Vec::new();
    let mut finished = BTreeSet::new();
    sets.attachments
        .iter()
        .any(|&Attachment { senior, .. }| circle_below(sets, senior, &mut path, &mut finished))
}

/// Whether the walk down from `role` comes back to a role of the path that led to it.
/// Below a finished role no circle was found.
fn circle_below(
    sets: &Sets,
    role: Role,
    path: &mut Vec<Role>,
    finished: &mut BTreeSet<Role>,
) -> bool {
    if path.contains(&role) {
        return true;
    }
    if finished.contains(&role) {
        return false;
    }
    path.push(role);
    let found = sets
        .juniors(role)
        .any(|junior| circle_below(sets, junior, path, finished));
    path.pop();
    finished.insert(role);
    found
}
