//! Lesser roles: active, and not held by the session's user. The ways down to them, for calls
//! and damage that cut one.

use crate::random::Random;
use crate::sets::{own, Attachment, Held, Role, SessionName, Sets, User};
use std::collections::BTreeSet;

/// The lesser roles of each open session.
pub fn lesser_roles(sets: &Sets) -> Vec<(SessionName, usize)> {
    let mut lesser = Vec::new();
    for (&name, session) in &sets.sessions {
        let user = own(name.issuer, session.user);
        for &role in &session.active {
            if !sets.held.contains(&Held { user, role }) {
                lesser.push((name, role));
            }
        }
    }
    lesser
}

/// Whether no way from the user's held roles to this one stays inside the estate.
pub fn only_through_others(sets: &Sets, name: SessionName, role: usize) -> bool {
    let mut inside = sets.clone();
    inside
        .attachments
        .retain(|link| link.senior.issuer == link.junior.issuer);
    let user = own(name.issuer, sets.sessions[&name].user);
    !inside.within_reach(user).contains(&role)
}

/// The attachments that lead from a role that the user holds down to a lesser one, at least one.
pub struct Way {
    pub user: User,
    pub held: Role,
    pub links: Vec<Attachment>,
}

impl Way {
    /// One of the attachments between two issuers, first of those where neither is the user's.
    pub fn across(&self, random: &mut Random) -> Option<Attachment> {
        let home = self.user.issuer;
        let across = |link: &Attachment| link.senior.issuer != link.junior.issuer;
        let away = |link: &Attachment| link.senior.issuer != home && link.junior.issuer != home;
        let between_others = random.pick_where(&self.links, |link| across(link) && away(link));
        between_others.or_else(|| random.pick_where(&self.links, across))
    }
}

/// A way to one of the lesser roles.
pub fn any_way(random: &mut Random, sets: &Sets) -> Option<Way> {
    let (name, lesser) = random.pick_where(&lesser_roles(sets), |_| true)?;
    let user = own(name.issuer, sets.sessions[&name].user);
    let lesser = own(name.issuer, lesser);
    let leads = |&held: &Role| sets.reached([held]).contains(&lesser);
    let held = random.member_where(&sets.held_by(user).collect(), leads)?;
    let links = links_down(sets, held, lesser, &mut BTreeSet::new())?;
    Some(Way { user, held, links })
}

/// The first way down that is found; roles seen before don't lead there.
fn links_down(
    sets: &Sets,
    senior: Role,
    to: Role,
    seen: &mut BTreeSet<Role>,
) -> Option<Vec<Attachment>> {
    if senior == to {
        return Some(Vec::new());
    }
    if !seen.insert(senior) {
        return None;
    }
    for junior in sets.juniors(senior) {
        if let Some(mut links) = links_down(sets, junior, to, seen) {
            links.insert(0, Attachment { senior, junior });
            return Some(links);
        }
    }
    None
}
