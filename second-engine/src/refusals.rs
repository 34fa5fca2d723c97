//! "When a call is turned down": rows 4 to 14, "tried from 1 upwards", 14 "directly after 10".
//! Rows 1 to 3 are tried in `engine.rs`, before there are sets and a call.

use crate::record::{Call, Decoded, OPERATOR};
use crate::sets::{own, Attachment, Grant, Held, Role, Sets};

type Applies = fn(&Sets, &Decoded) -> bool;

/// The highest number of a refusal.
pub const REFUSALS: usize = 14;

const ROWS: [(u16, Applies); 11] = [
    (4, caller_out_of_place),
    (5, caller_not_enrolled),
    (6, argument_above_15),
    (7, named_issuer_wrong),
    (8, names_the_caller),
    (9, caller_not_trusted),
    (10, something_absent),
    (14, not_public),
    (11, role_beyond_reach),
    (12, nothing_to_change),
    (13, closes_a_circle),
];

/// "the first that applies is given"; 0 where none does.
pub fn refusal(sets: &Sets, decoded: &Decoded) -> u16 {
    for (number, applies) in ROWS {
        if applies(sets, decoded) {
            return number;
        }
    }
    0
}

/// Kinds 13 to 16: the role or senior i#r that they name.
pub fn linked_role(decoded: &Decoded) -> Option<Role> {
    match decoded.call {
        Call::Grant { issuer, role, .. } | Call::Ungrant { issuer, role, .. } => {
            Some(own(issuer, role))
        }
        Call::Attach { issuer, senior, .. } | Call::Detach { issuer, senior, .. } => {
            Some(own(issuer, senior))
        }
        _ => None,
    }
}

/// 4: "caller above 16; kinds 1, 2 not from 16; other kinds from 16"
fn caller_out_of_place(_: &Sets, decoded: &Decoded) -> bool {
    let operators_kind = matches!(decoded.call, Call::Enrol { .. } | Call::Strike { .. });
    let from_operator = decoded.caller == OPERATOR;
    decoded.caller > OPERATOR || operators_kind != from_operator
}

/// 5: "calling issuer not enrolled"
fn caller_not_enrolled(sets: &Sets, decoded: &Decoded) -> bool {
    decoded.caller != OPERATOR && !sets.enrolled.contains(&decoded.caller)
}

/// 6: "an argument above 15"
fn argument_above_15(_: &Sets, decoded: &Decoded) -> bool {
    decoded.arguments.iter().any(|&argument| argument > 15)
}

/// 7: "kind 1: already enrolled; kinds 2, 3, 4, 13 to 16: named issuer not enrolled"
fn named_issuer_wrong(sets: &Sets, decoded: &Decoded) -> bool {
    let enrolled = |issuer| sets.enrolled.contains(&issuer);
    match decoded.call {
        Call::Enrol { issuer } => enrolled(issuer),
        Call::Strike { issuer } => !enrolled(issuer),
        Call::GiveTrust { trustee } | Call::WithdrawTrust { trustee } => !enrolled(trustee),
        _ => linked_role(decoded).is_some_and(|role| !enrolled(role.issuer)),
    }
}

/// 8: "kinds 3, 4 naming the caller"
fn names_the_caller(_: &Sets, decoded: &Decoded) -> bool {
    match decoded.call {
        Call::GiveTrust { trustee } | Call::WithdrawTrust { trustee } => trustee == decoded.caller,
        _ => false,
    }
}

/// 9: "kinds 13 to 16: named issuer doesn't trust the caller"
fn caller_not_trusted(sets: &Sets, decoded: &Decoded) -> bool {
    linked_role(decoded).is_some_and(|role| !sets.trusts(role.issuer, decoded.caller))
}

/// 10: "a named user, role or permission absent (kinds 5, 7, 9 excepted, kind 21 only p);
/// kinds 18 to 20: session closed"; "Kinds 22 and 23 give 10 as kind 8 does"
fn something_absent(sets: &Sets, decoded: &Decoded) -> bool {
    let caller = decoded.caller;
    let no_user = |user| !sets.users.contains(&own(caller, user));
    let no_role = |issuer, role| !sets.roles.contains(&own(issuer, role));
    let no_permission = |permission| !sets.permissions.contains(&own(caller, permission));
    let closed = |session| !sets.sessions.contains_key(&own(caller, session));
    match decoded.call {
        Call::Enrol { .. } | Call::Strike { .. } => false,
        Call::GiveTrust { .. } | Call::WithdrawTrust { .. } => false,
        Call::AddUser { .. } | Call::AddRole { .. } | Call::AddPermission { .. } => false,
        Call::RemoveUser { user } => no_user(user),
        Call::RemoveRole { role } | Call::PublishRole { role } | Call::UnpublishRole { role } => {
            no_role(caller, role)
        }
        Call::RemovePermission { permission } => no_permission(permission),
        Call::GiveRole { user, role } | Call::TakeRole { user, role } => {
            no_user(user) || no_role(caller, role)
        }
        Call::Grant {
            permission,
            issuer,
            role,
        }
        | Call::Ungrant {
            permission,
            issuer,
            role,
        } => no_permission(permission) || no_role(issuer, role),
        Call::Attach {
            junior,
            issuer,
            senior,
        }
        | Call::Detach {
            junior,
            issuer,
            senior,
        } => no_role(caller, junior) || no_role(issuer, senior),
        Call::OpenSession { user, .. } => no_user(user),
        Call::CloseSession { session } => closed(session),
        Call::Activate { session, role } | Call::Deactivate { session, role } => {
            closed(session) || no_role(caller, role)
        }
        Call::MayUse { permission, .. } => no_permission(permission),
    }
}

/// 14: "role or senior not public across estates, kinds 13 to 16"
fn not_public(sets: &Sets, decoded: &Decoded) -> bool {
    linked_role(decoded).is_some_and(|role| !sets.shown_to(role, decoded.caller))
}

/// 11: "kind 19: user doesn't hold the role", now: no role that the user holds reaches it
fn role_beyond_reach(sets: &Sets, decoded: &Decoded) -> bool {
    let Call::Activate { session, role } = decoded.call else {
        return false;
    };
    let Some(open) = sets.sessions.get(&own(decoded.caller, session)) else {
        return false;
    };
    let user = own(decoded.caller, open.user);
    !sets.within_reach(user).contains(&role)
}

/// 12: "nothing to change: already there, open or active (3, 5, 7, 9, 11, 13, 15, 17, 19),
/// or not there (4, 12, 14, 16, 20)"; kinds 22 and 23 give "12 as kinds 11 and 12 do"
fn nothing_to_change(sets: &Sets, decoded: &Decoded) -> bool {
    let caller = decoded.caller;
    let holds = |user, role| {
        let user = own(caller, user);
        sets.held.contains(&Held { user, role })
    };
    let granted = |permission, role| {
        let permission = own(caller, permission);
        sets.grants.contains(&Grant { role, permission })
    };
    let attached = |junior, senior| {
        let junior = own(caller, junior);
        sets.attachments.contains(&Attachment { senior, junior })
    };
    let active = |session, role| {
        let open = sets.sessions.get(&own(caller, session));
        open.is_some_and(|open| open.active.contains(&role))
    };
    #[rustfmt::skip]
    let answer = match decoded.call {
        Call::GiveTrust { trustee } => sets.trusts(caller, trustee),
        Call::AddUser { user } => sets.users.contains(&own(caller, user)),
        Call::AddRole { role } => sets.roles.contains(&own(caller, role)),
        Call::AddPermission { permission } => sets.permissions.contains(&own(caller, permission)),
        Call::GiveRole { user, role } => holds(user, role),
        Call::Grant { permission, issuer, role } => granted(permission, own(issuer, role)),
        Call::Attach { junior, issuer, senior } => attached(junior, own(issuer, senior)),
        Call::OpenSession { session, .. } => sets.sessions.contains_key(&own(caller, session)),
        Call::Activate { session, role } => active(session, role),
        Call::PublishRole { role } => sets.public.contains(&own(caller, role)),

        Call::WithdrawTrust { trustee } => !sets.trusts(caller, trustee),
        Call::TakeRole { user, role } => !holds(user, role),
        Call::Ungrant { permission, issuer, role } => !granted(permission, own(issuer, role)),
        Call::Detach { junior, issuer, senior } => !attached(junior, own(issuer, senior)),
        Call::Deactivate { session, role } => !active(session, role),
        Call::UnpublishRole { role } => !sets.public.contains(&own(caller, role)),

        Call::Enrol { .. } | Call::Strike { .. } => false,
        Call::RemoveUser { .. } | Call::RemoveRole { .. } | Call::RemovePermission { .. } => false,
        Call::CloseSession { .. } | Call::MayUse { .. } => false,
    };
    answer
}

/// 13: "kind 15: q reaches i#r already, or is it"
fn closes_a_circle(sets: &Sets, decoded: &Decoded) -> bool {
    let Call::Attach {
        junior,
        issuer,
        senior,
    } = decoded.call
    else {
        return false;
    };
    // A role reaches itself, so this has the case that q is i#r.
    let reached = sets.reached([own(decoded.caller, junior)]);
    reached.contains(&own(issuer, senior))
}
