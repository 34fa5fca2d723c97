//! Records that a state is likely to allow.

use crate::random::Random;
use crate::record::{encode, OPERATOR};
use crate::sets::{own, Attachment, Held, Permission, Role, SessionName, Sets, Trust, User};
use crate::ways::any_way;
use crate::worlds::{arguments, Thing, World};

/// The kinds that can break the reach of an active role whose session stays open.
const CUTS: [usize; 6] = [2, 4, 8, 12, 16, 23];

/// A caller and arguments.
type Aim = (usize, Vec<usize>);

/// A record of this kind that the state is likely to allow.
pub fn aimed(random: &mut Random, world: &World, sets: &Sets, kind: usize) -> Option<Vec<u8>> {
    let mut aim = None;
    if CUTS.contains(&kind) && random.percent(40) {
        aim = cut(random, sets, kind);
    }
    if aim.is_none() {
        aim = allowed(random, world, sets, kind);
    }
    let (caller, arguments) = aim?;
    Some(encode(kind, caller, &arguments))
}

/// Takes away what an active role hangs on that the user doesn't hold.
fn cut(random: &mut Random, sets: &Sets, kind: usize) -> Option<Aim> {
    let way = any_way(random, sets)?;
    let user = way.user;
    if kind == 12 {
        return Some((user.issuer, vec![user.number, way.held.number]));
    }
    let link = match kind {
        8 | 16 if random.percent(50) => random.pick(&way.links),
        _ => way.across(random)?,
    };
    let Attachment { senior, junior } = link;
    let aim = match kind {
        2 => {
            let ends = [senior.issuer, junior.issuer];
            let other = random.pick_where(&ends, |&issuer| issuer != user.issuer)?;
            (OPERATOR, vec![other])
        }
        4 => (senior.issuer, vec![junior.issuer]),
        16 => at_attachment(link),
        // removed or unpublished
        _ => (senior.issuer, vec![senior.number]),
    };
    Some(aim)
}

fn at_attachment(Attachment { senior, junior }: Attachment) -> Aim {
    let arguments = vec![junior.number, senior.issuer, senior.number];
    (junior.issuer, arguments)
}

fn allowed(random: &mut Random, world: &World, sets: &Sets, kind: usize) -> Option<Aim> {
    let aim = match kind {
        1 => {
            let absent = |issuer: &usize| !sets.enrolled.contains(issuer);
            let issuer = random.pick_where(world.names(Thing::Issuer), absent)?;
            (OPERATOR, vec![issuer])
        }
        2 => (OPERATOR, vec![random.member(&sets.enrolled)?]),
        3 => {
            let trustor = random.member(&sets.enrolled)?;
            let untrusted = |&trustee: &usize| !sets.trusts(trustor, trustee);
            (
                trustor,
                vec![random.member_where(&sets.enrolled, untrusted)?],
            )
        }
        4 => {
            let trust = random.member_where(&sets.trust, |t| t.trustor != t.trustee)?;
            (trust.trustor, vec![trust.trustee])
        }
        5..=10 => {
            let owned = match kind {
                5 | 6 => &sets.users,
                7 | 8 => &sets.roles,
                _ => &sets.permissions,
            };
            let thing = if matches!(kind, 6 | 8 | 10) {
                random.member(owned)?
            } else {
                let issuer = random.member(&sets.enrolled)?;
                let absent = |&number: &usize| !owned.contains(&own(issuer, number));
                let names = world.names(arguments(kind)[0]);
                own(issuer, random.pick_where(names, absent)?)
            };
            (thing.issuer, vec![thing.number])
        }
        11 => {
            let wants = |&user: &User| !world.lean || sets.held_by(user).count() < 2;
            let user = random.member_where(&sets.users, wants)?;
            let not_held = |role: &Role| {
                let role = role.number;
                !sets.held.contains(&Held { user, role })
            };
            let fits = |role: &Role| role.issuer == user.issuer && not_held(role);
            let role = random.member_where(&sets.roles, fits)?;
            (user.issuer, vec![user.number, role.number])
        }
        12 => {
            let held = random.member(&sets.held)?;
            (held.user.issuer, vec![held.user.number, held.role])
        }
        13 => {
            let trust = random.member(&sets.trust)?;
            let fits = |role: Role| !world.deep || sets.juniors(role).next().is_none();
            let role = role_for(random, sets, trust, fits)?;
            let by_trustee = |p: &Permission| p.issuer == trust.trustee;
            let permission = random.member_where(&sets.permissions, by_trustee)?;
            let arguments = vec![permission.number, role.issuer, role.number];
            (trust.trustee, arguments)
        }
        14 => {
            let grant = random.member(&sets.grants)?;
            let role = grant.role;
            let arguments = vec![grant.permission.number, role.issuer, role.number];
            (grant.permission.issuer, arguments)
        }
        15 if random.percent(25) => at_attachment(way_back(random, sets)?),
        15 => {
            let trust = random.member(&sets.trust)?;
            let few_below = |role: Role| !world.deep || sets.juniors(role).count() < 2;
            let none_above = |role: Role| !world.deep || !has_senior(sets, role);
            let senior = role_for(random, sets, trust, few_below)?;
            let junior = role_of(random, sets, trust.trustee, none_above)?;
            at_attachment(Attachment { senior, junior })
        }
        16 => at_attachment(random.member(&sets.attachments)?),
        17 => {
            let user = random.member(&sets.users)?;
            let closed = |&number: &usize| {
                let name = own(user.issuer, number);
                !sets.sessions.contains_key(&name)
            };
            let session = random.pick_where(world.names(Thing::Session), closed)?;
            (user.issuer, vec![session, user.number])
        }
        18 => {
            let name = open_session(random, sets)?;
            (name.issuer, vec![name.number])
        }
        19 => {
            let name = open_session(random, sets)?;
            let session = &sets.sessions[&name];
            let user = own(name.issuer, session.user);
            let lesser = random.percent(50);
            let fits = |&role: &usize| {
                let held = sets.held.contains(&Held { user, role });
                !session.active.contains(&role) && (!held || !lesser)
            };
            let role = random.member_where(&sets.within_reach(user), fits)?;
            (name.issuer, vec![name.number, role])
        }
        20 => {
            let name = open_session(random, sets)?;
            let role = random.member(&sets.sessions[&name].active)?;
            (name.issuer, vec![name.number, role])
        }
        21 => {
            let name = open_session(random, sets)?;
            let usable = |&permission: &_| sets.may_use(name, permission);
            let permission = if random.percent(50) {
                random.member_where(&sets.permissions, usable)?
            } else {
                random.member(&sets.permissions)?
            };
            let arguments = vec![permission.number, name.issuer, name.number];
            (permission.issuer, arguments)
        }
        // Any role is looked at, so that the two weights settle how many are public.
        _ => {
            let role = random.member(&sets.roles)?;
            if sets.public.contains(&role) != (kind == 23) {
                return None;
            }
            (role.issuer, vec![role.number])
        }
    };
    Some(aim)
}

/// An attachment that leads from another estate's role back to the estate of a role above it.
fn way_back(random: &mut Random, sets: &Sets) -> Option<Attachment> {
    let top = random.member(&sets.attachments)?.senior;
    let home = top.issuer;
    let away = |role: &Role| role.issuer != home && sets.may_link(*role, home);
    let senior = random.member_where(&sets.reached([top]), away)?;
    let no_circle = |role: Role| !sets.reached([role]).contains(&senior);
    let junior = role_of(random, sets, home, no_circle)?;
    Some(Attachment { senior, junior })
}

fn role_of(
    random: &mut Random,
    sets: &Sets,
    issuer: usize,
    fits: impl Fn(Role) -> bool,
) -> Option<Role> {
    random.member_where(&sets.roles, |&role| role.issuer == issuer && fits(role))
}

/// A role of the trustor, mostly one that the trustee may link to.
fn role_for(
    random: &mut Random,
    sets: &Sets,
    trust: Trust,
    fits: impl Fn(Role) -> bool,
) -> Option<Role> {
    let any = random.percent(15);
    let fits = |role| (any || sets.shown_to(role, trust.trustee)) && fits(role);
    role_of(random, sets, trust.trustor, fits)
}

fn has_senior(sets: &Sets, role: Role) -> bool {
    let mut attachments = sets.attachments.iter();
    attachments.any(|attachment| attachment.junior == role)
}

pub fn open_session(random: &mut Random, sets: &Sets) -> Option<SessionName> {
    random.member(&sets.sessions.keys().copied().collect())
}
