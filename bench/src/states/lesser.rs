//! A state in which masters work with lesser roles.

use super::{asked, Builder, Case, Size};
use crate::active;
use crate::random::Random;
use crate::records::*;
use crate::words::{ATTACHMENTS, SESSIONS};

/// Four issuers, each with four ladders of roles (4 l + k on step l of ladder k), and random attachments between them,
/// most of them to other issuers' roles. User u holds the top of a ladder, and works in session u with a role
/// further down and with another that the top reaches.
pub fn lesser() -> Case {
    let size = Size {
        issuers: 4,
        users: 16,
        roles: 16,
        permissions: 8,
        sessions: 16,
        grants: 32,
        attachments: 40,
        distrust: 8,
    };
    let mut random = Random::new(64);
    let mut builder = Builder::new();
    builder.enrols(size.issuers, size.users, size.roles, size.permissions);
    builder.trusts(&size, &mut random);
    for i in 0..size.issuers {
        (4..size.roles).for_each(|r| builder.plays(ATTACH, i, &[r, i, r - 4]));
    }
    builder.links(&size, &mut random);
    for i in 0..size.issuers {
        for u in 0..size.users {
            builder.plays(GIVE_ROLE, i, &[u, u % 4]);
            builder.plays(OPEN, i, &[u, u]);
            builder.plays(ACTIVATE, i, &[u, u % 4 + 4 + 4 * random.below(3)]);
            while !builder.tries(ACTIVATE, i, &[u, 4 + random.below(12)]) {}
        }
    }
    let detachments = builder.detachments();
    Case {
        detachments,
        ..asked("lesser: 64 sessions", builder, &size, &mut random)
    }
}

impl Builder {
    /// The attachments on which active roles of others hang: each is detached and attached again,
    /// and what that dropped is activated again.
    fn detachments(&mut self) -> Vec<Record> {
        let mut records = vec![];
        for (j, arguments) in attachments(&self.state) {
            let before = self.state.clone();
            self.plays(DETACH, j, &arguments);
            let dropped = active::gone(&before, &self.state);
            self.plays(ATTACH, j, &arguments);
            for &(i, s, r) in &dropped {
                self.plays(ACTIVATE, i, &[s, r]);
            }
            assert!(self.state == before, "not restored");
            if dropped.iter().any(|&(i, ..)| i != j) {
                records.push(record(DETACH, j, &arguments));
                records.push(record(ATTACH, j, &arguments));
                for (i, s, r) in dropped {
                    records.push(record(ACTIVATE, i, &[s, r]));
                }
            }
        }
        records
    }
}

/// The attachments that stand: the junior's issuer, and the arguments of its call.
fn attachments(state: &[u16]) -> Vec<(u8, [u8; 3])> {
    let mut found = vec![];
    for (n, word) in state[ATTACHMENTS..SESSIONS].iter().enumerate() {
        let [j, q, i] = [n / 256, n / 16 % 16, n % 16].map(|number| number as u8);
        let bits = (0..16).filter(|r| word >> r & 1 == 1);
        found.extend(bits.map(|r| (j, [q, i, r])));
    }
    found
}
