//! The state as plain sets, and the way between sets and words ("The state").

use crate::places::{
    attachment_word, grant_word, held_word, permissions_word, public_word, roles_word,
    session_word, trust_word, users_word, Place, CLOSED, WORDS,
};
use std::collections::{BTreeMap, BTreeSet};

/// A thing that an issuer owns: i@u, i#r, i%p or i/s. The lower one has the lower issuer number,
/// or the same and the lower number.
#[derive(Clone, Copy, Debug, PartialEq, Eq, PartialOrd, Ord)]
pub struct Own {
    pub issuer: usize,
    pub number: usize,
}

pub type User = Own;
pub type Role = Own;
pub type Permission = Own;
pub type SessionName = Own;

pub const fn own(issuer: usize, number: usize) -> Own {
    Own { issuer, number }
}

/// "Trust of i in j": i is the trustor, j the trustee.
#[derive(Clone, Copy, Debug, PartialEq, Eq, PartialOrd, Ord)]
pub struct Trust {
    pub trustor: usize,
    pub trustee: usize,
}

/// "Users hold roles of their own issuer only": the role is a number of the user's issuer.
#[derive(Clone, Copy, Debug, PartialEq, Eq, PartialOrd, Ord)]
pub struct Held {
    pub user: User,
    pub role: usize,
}

/// The role holds the permission.
#[derive(Clone, Copy, Debug, PartialEq, Eq, PartialOrd, Ord)]
pub struct Grant {
    pub role: Role,
    pub permission: Permission,
}

/// The junior is attached below the senior.
#[derive(Clone, Copy, Debug, PartialEq, Eq, PartialOrd, Ord)]
pub struct Attachment {
    pub senior: Role,
    pub junior: Role,
}

/// "A session has one user and a set of active roles", both numbers of the session's issuer.
/// In an unlawful state the user may be any number below 65535.
#[derive(Clone, Debug, PartialEq, Eq)]
pub struct Session {
    pub user: usize,
    pub active: BTreeSet<usize>,
}

#[derive(Clone, Debug, Default, PartialEq, Eq)]
pub struct Sets {
    pub enrolled: BTreeSet<usize>,
    pub trust: BTreeSet<Trust>,
    pub users: BTreeSet<User>,
    pub roles: BTreeSet<Role>,
    pub public: BTreeSet<Role>,
    pub permissions: BTreeSet<Permission>,
    pub held: BTreeSet<Held>,
    pub grants: BTreeSet<Grant>,
    pub attachments: BTreeSet<Attachment>,
    /// The open sessions.
    pub sessions: BTreeMap<SessionName, Session>,
    /// Active roles of closed sessions: none in a lawful state.
    pub active_in_closed: BTreeSet<(SessionName, usize)>,
}

/// The numbers of a word's bits: "Bit n has weight 2 to the power n."
fn bits(word: u16) -> impl Iterator<Item = usize> {
    let end = if word == 0 { 0 } else { 16 };
    (0..end).filter(move |n| word / (1 << n) % 2 == 1)
}

fn set_bit(word: &mut u16, n: usize) {
    *word |= 1 << n;
}

impl Sets {
    /// What 9,041 words say, lawful or not.
    pub fn read(words: &[u16]) -> Sets {
        assert_eq!(words.len(), WORDS);
        let mut sets = Sets::default();
        sets.enrolled.extend(bits(words[0]));
        for i in 0..16 {
            for trustee in bits(words[trust_word(i)]) {
                sets.trust.insert(Trust {
                    trustor: i,
                    trustee,
                });
            }
            for (things, place) in [
                (&mut sets.users, users_word(i)),
                (&mut sets.roles, roles_word(i)),
                (&mut sets.public, public_word(i)),
                (&mut sets.permissions, permissions_word(i)),
            ] {
                things.extend(bits(words[place]).map(|n| own(i, n)));
            }
            for n in 0..16 {
                sets.read_held(words, own(i, n));
                sets.read_grants(words, own(i, n));
                sets.read_attachments(words, own(i, n));
                sets.read_session(words, own(i, n));
            }
        }
        sets
    }

    fn read_held(&mut self, words: &[u16], user: User) {
        for role in bits(words[held_word(user.issuer, user.number)]) {
            self.held.insert(Held { user, role });
        }
    }

    fn read_grants(&mut self, words: &[u16], permission: Permission) {
        for i in 0..16 {
            for r in bits(words[grant_word(permission.issuer, permission.number, i)]) {
                let role = own(i, r);
                self.grants.insert(Grant { role, permission });
            }
        }
    }

    fn read_attachments(&mut self, words: &[u16], junior: Role) {
        for i in 0..16 {
            for r in bits(words[attachment_word(junior.issuer, junior.number, i)]) {
                let senior = own(i, r);
                self.attachments.insert(Attachment { senior, junior });
            }
        }
    }

    fn read_session(&mut self, words: &[u16], name: SessionName) {
        let place = session_word(name.issuer, name.number);
        let active = bits(words[place + 1]);
        if words[place] == CLOSED {
            self.active_in_closed
                .extend(active.map(|role| (name, role)));
        } else {
            let user = usize::from(words[place]);
            let active = active.collect();
            self.sessions.insert(name, Session { user, active });
        }
    }

    /// Writes the sets into 9,041 words; reading gives the same sets back.
    pub fn write(&self, words: &mut [u16]) {
        write_started(words);
        for &issuer in &self.enrolled {
            set_bit(&mut words[0], issuer);
        }
        for trust in &self.trust {
            set_bit(&mut words[trust_word(trust.trustor)], trust.trustee);
        }
        let by_issuer: [(&BTreeSet<Own>, Place); 4] = [
            (&self.users, users_word),
            (&self.roles, roles_word),
            (&self.public, public_word),
            (&self.permissions, permissions_word),
        ];
        for (things, place) in by_issuer {
            for thing in things {
                set_bit(&mut words[place(thing.issuer)], thing.number);
            }
        }
        for held in &self.held {
            let place = held_word(held.user.issuer, held.user.number);
            set_bit(&mut words[place], held.role);
        }
        for Grant { role, permission } in &self.grants {
            let place = grant_word(permission.issuer, permission.number, role.issuer);
            set_bit(&mut words[place], role.number);
        }
        for Attachment { senior, junior } in &self.attachments {
            let place = attachment_word(junior.issuer, junior.number, senior.issuer);
            set_bit(&mut words[place], senior.number);
        }
        for (name, session) in &self.sessions {
            let place = session_word(name.issuer, name.number);
            words[place] = u16::try_from(session.user).expect("read from a word");
            for &role in &session.active {
                set_bit(&mut words[place + 1], role);
            }
        }
        for (name, role) in &self.active_in_closed {
            let place = session_word(name.issuer, name.number);
            set_bit(&mut words[place + 1], *role);
        }
    }

    pub fn trusts(&self, trustor: usize, trustee: usize) -> bool {
        self.trust.contains(&Trust { trustor, trustee })
    }

    /// "Across estates, grants and attachments need a public role or senior."
    pub fn shown_to(&self, role: Role, other: usize) -> bool {
        role.issuer == other || self.public.contains(&role)
    }

    /// Whether the issuer may grant to the role and attach below it.
    pub fn may_link(&self, role: Role, issuer: usize) -> bool {
        self.trusts(role.issuer, issuer) && self.shown_to(role, issuer)
    }

    /// The grants and attachments: the role or senior, and the other owner.
    pub fn links(&self) -> impl Iterator<Item = (Role, usize)> + '_ {
        let grants = self.grants.iter();
        let grants = grants.map(|grant| (grant.role, grant.permission.issuer));
        let attachments = self.attachments.iter();
        let attachments = attachments.map(|link| (link.senior, link.junior.issuer));
        grants.chain(attachments)
    }

    /// The roles attached directly below a role.
    pub fn juniors(&self, senior: Role) -> impl Iterator<Item = Role> + '_ {
        let first = own(0, 0);
        let from = Attachment {
            senior,
            junior: first,
        };
        self.attachments
            .range(from..)
            .take_while(move |attachment| attachment.senior == senior)
            .map(|attachment| attachment.junior)
    }

    /// "Every role reaches itself and whatever is attached below a role it reaches": what some
    /// of these roles reach.
    pub fn reached(&self, roles: impl IntoIterator<Item = Role>) -> BTreeSet<Role> {
        let mut reached: BTreeSet<Role> = roles.into_iter().collect();
        let mut to_visit = Vec::from_iter(reached.clone());
        while let Some(senior) = to_visit.pop() {
            for junior in self.juniors(senior) {
                if reached.insert(junior) {
                    to_visit.push(junior);
                }
            }
        }
        reached
    }

    /// The roles that the user holds.
    pub fn held_by(&self, user: User) -> impl Iterator<Item = Role> + '_ {
        let held = self.held.iter().filter(move |held| held.user == user);
        held.map(|held| own(held.user.issuer, held.role))
    }

    /// "any role of the user's own issuer that a held role reaches"
    pub fn within_reach(&self, user: User) -> BTreeSet<usize> {
        let reached = self.reached(self.held_by(user));
        let of_issuer = reached.iter().filter(|role| role.issuer == user.issuer);
        of_issuer.map(|role| role.number).collect()
    }
}

/// "Starting writes 65535 as each session's user and 0 elsewhere."
pub fn write_started(words: &mut [u16]) {
    words.fill(0);
    for i in 0..16 {
        for s in 0..16 {
            words[session_word(i, s)] = CLOSED;
        }
    }
}
