//! How often lesser roles were active, those that a session's user doesn't hold, and how often
//! the reach of an active role broke.

use crate::record::{decode_call, Call, KINDS};
use crate::sets::{own, Session, SessionName, Sets, User};
use crate::ways::{lesser_roles, only_through_others};
use std::collections::BTreeMap;

pub type Sessions = BTreeMap<SessionName, Session>;

/// The kinds that can break a reach in the caller's own sessions, and in other issuers'.
const CUTS_AT_HOME: [usize; 5] = [4, 8, 12, 16, 23];
const CUTS_ELSEWHERE: [usize; 5] = [2, 4, 8, 16, 23];

/// The lesser role that an accepted record has activated, if it has.
pub fn lesser_activated(record: &[u8], after: &Sets) -> Option<(SessionName, usize)> {
    let decoded = decode_call(record)?;
    let Call::Activate { session, role } = decoded.call else {
        return None;
    };
    let activated = (own(decoded.caller, session), role);
    lesser_roles(after)
        .contains(&activated)
        .then_some(activated)
}

/// The roles that were active before a call and are no more, since no held role reaches them.
/// Closed sessions and removed roles don't count.
pub fn dropped(before: &Sessions, after: &Sets) -> Vec<(SessionName, usize)> {
    let mut dropped = Vec::new();
    for (&name, session) in &after.sessions {
        let Some(was) = before.get(&name) else {
            continue;
        };
        let reach = after.within_reach(own(name.issuer, session.user));
        for &role in was.active.difference(&session.active) {
            if after.roles.contains(&own(name.issuer, role)) && !reach.contains(&role) {
                dropped.push((name, role));
            }
        }
    }
    dropped
}

#[derive(Default)]
pub struct ReachCounts {
    /// Lesser roles activated.
    activated: u64,
    /// Those of them that are reached only through other estates' roles.
    through_others: u64,
    /// Active roles that a role taken from the user reached and another held one reaches; the
    /// taken role itself, and lesser ones.
    taken_kept: u64,
    lesser_kept: u64,
    /// Taken roles dropped, as no other held one reaches them.
    taken_dropped: u64,
    /// Other roles dropped as their reach broke, by kind.
    dropped_at_home: [u64; KINDS + 1],
    dropped_elsewhere: [u64; KINDS + 1],
    /// Those of kinds 4 and 16 in a session of neither estate that the call names.
    cut_between_others: u64,
    /// Damaged or other states, lawful, in which a lesser role is active.
    lawful_with_lesser: u64,
}

impl ReachCounts {
    /// An accepted call on the present state.
    pub fn changed(&mut self, record: &[u8], before: &Sessions, after: &Sets) {
        let Some(decoded) = decode_call(record) else {
            return;
        };
        if let Some((name, role)) = lesser_activated(record, after) {
            self.activated += 1;
            self.through_others += u64::from(only_through_others(after, name, role));
        }
        if let Call::TakeRole { user, role } = decoded.call {
            self.taken(own(decoded.caller, user), role, after);
        }
        // The two estates of a link that is cut, if the call names both.
        let ends = match decoded.call {
            Call::WithdrawTrust { trustee: other } | Call::Detach { issuer: other, .. } => {
                Some([decoded.caller, other])
            }
            _ => None,
        };
        for (name, role) in dropped(before, after) {
            if ends.is_some_and(|ends| !ends.contains(&name.issuer)) {
                self.cut_between_others += 1;
            }
            if matches!(decoded.call, Call::TakeRole { role: taken, .. } if taken == role) {
                self.taken_dropped += 1;
            } else if name.issuer == decoded.caller {
                self.dropped_at_home[decoded.kind] += 1;
            } else {
                self.dropped_elsewhere[decoded.kind] += 1;
            }
        }
    }

    fn taken(&mut self, user: User, role: usize, after: &Sets) {
        let below = after.reached([own(user.issuer, role)]);
        for (name, kept) in lesser_roles(after) {
            if own(name.issuer, after.sessions[&name].user) != user {
                continue;
            }
            if kept == role {
                self.taken_kept += 1;
            } else if below.contains(&own(user.issuer, kept)) {
                self.lesser_kept += 1;
            }
        }
    }

    pub fn on_lawful_state(&mut self, sets: &Sets) {
        self.lawful_with_lesser += u64::from(!lesser_roles(sets).is_empty());
    }

    fn lines(&self) -> [(&'static str, u64); 7] {
        [
            ("lesser roles activated", self.activated),
            ("  through other estates", self.through_others),
            ("taken, active and reached", self.taken_kept),
            ("  and lesser roles kept", self.lesser_kept),
            ("taken and dropped", self.taken_dropped),
            ("cut between two others", self.cut_between_others),
            ("other states with lesser", self.lawful_with_lesser),
        ]
    }

    /// Whatever was never reached.
    pub fn missing(&self) -> Vec<String> {
        let mut missing = Vec::new();
        for (name, count) in self.lines() {
            if count == 0 {
                missing.push(name.trim().to_string());
            }
        }
        for kind in CUTS_AT_HOME {
            if self.dropped_at_home[kind] == 0 {
                missing.push(format!("kind {kind} breaking a reach at home"));
            }
        }
        for kind in CUTS_ELSEWHERE {
            if self.dropped_elsewhere[kind] == 0 {
                missing.push(format!("kind {kind} breaking a reach elsewhere"));
            }
        }
        missing
    }

    pub fn print(&self) {
        for (name, count) in self.lines() {
            println!("{name:25} {count}");
        }
        println!("kind: active roles whose reach it broke, the caller's, others'");
        for kind in 1..=KINDS {
            let (home, elsewhere) = (self.dropped_at_home[kind], self.dropped_elsewhere[kind]);
            if home + elsewhere > 0 {
                println!("  {kind:2}: {home:6} {elsewhere:6}");
            }
        }
    }
}
