//! The states that are measured, built by playing records through the library.

mod lesser;

use crate::answer::{refusal, verdict, ACCEPTED};
use crate::library;
use crate::random::Random;
use crate::records::*;
use crate::words::WORDS;

pub use lesser::lesser;

/// A state and what is asked on it. Each list is played in turn; the record after a grant or a publication takes it back.
/// The records after a detachment attach again and activate what it dropped; only the state of lesser roles has some.
pub struct Case {
    pub name: &'static str,
    pub state: Vec<u16>,
    pub allowed: Vec<Record>,
    pub denied: Vec<Record>,
    pub grants: Vec<Record>,
    pub publications: Vec<Record>,
    pub detachments: Vec<Record>,
}

/// A state that grows record by record.
struct Builder {
    state: Vec<u16>,
}

impl Builder {
    fn new() -> Builder {
        let mut state = vec![0; WORDS];
        assert_eq!(library::start(&mut state), ACCEPTED);
        Builder { state }
    }

    /// Whether the call is accepted. A private role that it is refused for is published, and the call made again.
    fn tries(&mut self, kind: u16, caller: u8, arguments: &[u8]) -> bool {
        let call = record(kind, caller, arguments);
        let mut answer = library::call(&mut self.state, &call);
        if refusal(answer) == 14 {
            self.plays(PUBLISH, arguments[1], &[arguments[2]]);
            answer = library::call(&mut self.state, &call);
        }
        refusal(answer) == 0
    }

    fn plays(&mut self, kind: u16, caller: u8, arguments: &[u8]) {
        assert!(self.tries(kind, caller, arguments), "{kind} {arguments:?}");
    }

    /// So many issuers, each with so many users, roles and permissions.
    fn enrols(&mut self, issuers: u8, users: u8, roles: u8, permissions: u8) {
        for i in 0..issuers {
            self.plays(ENROL, OPERATOR, &[i]);
            (0..users).for_each(|u| self.plays(ADD_USER, i, &[u]));
            (0..roles).for_each(|r| self.plays(ADD_ROLE, i, &[r]));
            (0..permissions).for_each(|p| self.plays(ADD_PERMISSION, i, &[p]));
        }
    }

    /// Trust between random pairs of issuers.
    fn trusts(&mut self, size: &Size, random: &mut Random) {
        for i in 0..size.issuers {
            for j in 0..size.issuers {
                if i != j && !random.once_in(size.distrust) {
                    self.plays(TRUST, i, &[j]);
                }
            }
        }
    }

    /// Random attachments and grants.
    fn links(&mut self, size: &Size, random: &mut Random) {
        for (kind, own, wanted) in [
            (ATTACH, size.roles, size.attachments),
            (GRANT, size.permissions, size.grants),
        ] {
            let mut made = 0;
            while made < wanted {
                let (caller, arguments) = random_link(size, own, random);
                made += usize::from(self.tries(kind, caller, &arguments));
            }
        }
    }

    /// Private roles, at most 32, each published and unpublished. No other issuer uses them, so nothing is cleared.
    fn publications(&mut self) -> Vec<Record> {
        let mut publications = vec![];
        for (i, r) in (0..=255).map(|n| (n / 16, n % 16)) {
            if publications.len() < 64 && self.tries(PUBLISH, i, &[r]) {
                self.plays(UNPUBLISH, i, &[r]);
                publications.push(record(PUBLISH, i, &[r]));
                publications.push(record(UNPUBLISH, i, &[r]));
            }
        }
        assert!(!publications.is_empty(), "no role is private");
        publications
    }

    /// The verdict of kind 21.
    fn may_use(&mut self, j: u8, p: u8, i: u8, s: u8) -> bool {
        let question = record(MAY_USE, j, &[p, i, s]);
        verdict(library::call(&mut self.state, &question)) == 1
    }
}

/// One issuer with one user, who holds its one role and has it active, and two permissions, one of them granted.
pub fn empty() -> Case {
    let mut builder = Builder::new();
    builder.enrols(1, 1, 1, 2);
    builder.plays(GIVE_ROLE, 0, &[0, 0]);
    builder.plays(OPEN, 0, &[0, 0]);
    builder.plays(ACTIVATE, 0, &[0, 0]);
    builder.plays(GRANT, 0, &[0, 0, 0]);
    let publications = builder.publications();
    Case {
        name: "empty",
        state: builder.state,
        allowed: vec![record(MAY_USE, 0, &[0, 0, 0])],
        denied: vec![record(MAY_USE, 0, &[1, 0, 0])],
        grants: vec![record(GRANT, 0, &[1, 0, 0]), record(UNGRANT, 0, &[1, 0, 0])],
        publications,
        detachments: vec![],
    }
}

/// How large a random state is.
struct Size {
    issuers: u8,
    users: u8,
    roles: u8,
    permissions: u8,
    sessions: u8,
    grants: usize,
    attachments: usize,
    // An issuer trusts every other one, save once in so many.
    distrust: u64,
}

/// Six issuers at harvest time.
pub fn harvest() -> Case {
    let size = Size {
        issuers: 6,
        users: 8,
        roles: 6,
        permissions: 8,
        sessions: 5,
        grants: 48,
        attachments: 30,
        distrust: 2,
    };
    random_case("harvest", &size, &mut Random::new(6))
}

/// Sixteen issuers with all that they may have, 600 attachments and 1,200 grants.
pub fn dense() -> Case {
    let size = Size {
        issuers: 16,
        users: 16,
        roles: 16,
        permissions: 16,
        sessions: 16,
        grants: 1200,
        attachments: 600,
        distrust: 8,
    };
    random_case("dense", &size, &mut Random::new(16))
}

fn random_case(name: &'static str, size: &Size, random: &mut Random) -> Case {
    let mut builder = Builder::new();
    builder.enrols(size.issuers, size.users, size.roles, size.permissions);
    builder.trusts(size, random);
    for i in 0..size.issuers {
        for u in 0..size.users {
            (0..3).for_each(|_| {
                builder.tries(GIVE_ROLE, i, &[u, random.below(size.roles)]);
            });
        }
        for s in 0..size.sessions {
            builder.plays(OPEN, i, &[s, random.below(size.users)]);
            (0..6).for_each(|_| {
                builder.tries(ACTIVATE, i, &[s, random.below(size.roles)]);
            });
        }
    }
    builder.links(size, random);
    asked(name, builder, size, random)
}

/// A caller, a thing of its own, an issuer and a role of it.
fn random_link(size: &Size, own: u8, random: &mut Random) -> (u8, [u8; 3]) {
    let caller = random.below(size.issuers);
    let x = random.below(own);
    let i = random.below(size.issuers);
    (caller, [x, i, random.below(size.roles)])
}

/// Random questions and grants on a random state, and publications of what is private then.
fn asked(name: &'static str, mut builder: Builder, size: &Size, random: &mut Random) -> Case {
    let (mut allowed, mut denied, mut grants) = (vec![], vec![], vec![]);
    while allowed.len() < 32 || denied.len() < 32 {
        let (j, p) = (random.below(size.issuers), random.below(size.permissions));
        let (i, s) = (random.below(size.issuers), random.below(size.sessions));
        let answers = if builder.may_use(j, p, i, s) {
            &mut allowed
        } else {
            &mut denied
        };
        if answers.len() < 32 {
            answers.push(record(MAY_USE, j, &[p, i, s]));
        }
    }
    while grants.len() < 64 {
        let (caller, arguments) = random_link(size, size.permissions, random);
        if builder.tries(GRANT, caller, &arguments) {
            builder.plays(UNGRANT, caller, &arguments);
            grants.push(record(GRANT, caller, &arguments));
            grants.push(record(UNGRANT, caller, &arguments));
        }
    }
    let publications = builder.publications();
    Case {
        name,
        state: builder.state,
        allowed,
        denied,
        grants,
        publications,
        detachments: vec![],
    }
}

/// The deepest chains: all 256 roles below one another, in numberings that are good and bad for a sweep in the order of numbers.
pub fn chains() -> Vec<Case> {
    let folded = |n: u8| if n % 2 == 0 { n / 2 } else { 255 - n / 2 };
    let mut shuffled: Vec<u8> = (0..=255).collect();
    let mut random = Random::new(256);
    for n in (1..256).rev() {
        shuffled.swap(n, (random.draw() % (n as u64 + 1)) as usize);
    }
    vec![
        chain("chain, in order", (0..=255).collect()),
        chain("chain, reversed", (0..=255).rev().collect()),
        chain("chain, pairs swapped", (0..=255).map(|n| n ^ 1).collect()),
        chain("chain, from both ends", (0..=255).map(folded).collect()),
        chain("chain, shuffled", shuffled),
    ]
}

/// A chain of all roles, the first the most senior. Role n stands for n / 16 # n % 16.
fn chain(name: &'static str, roles: Vec<u8>) -> Case {
    let mut builder = Builder::new();
    builder.enrols(16, 2, 16, 3);
    for i in 0..16 {
        (0..16)
            .filter(|&j| j != i)
            .for_each(|j| builder.plays(TRUST, i, &[j]));
    }
    for pair in roles.windows(2) {
        let (senior, junior) = (pair[0], pair[1]);
        builder.plays(
            ATTACH,
            junior / 16,
            &[junior % 16, senior / 16, senior % 16],
        );
    }
    let top = roles[0];
    let last = roles[255];
    let above = roles[254];
    // Session 0 of the top's issuer has the top active, session 1 of the bottom's issuer the bottom.
    for (session, role) in [(0, top), (1, last)] {
        let i = role / 16;
        builder.plays(GIVE_ROLE, i, &[session, role % 16]);
        builder.plays(OPEN, i, &[session, session]);
        builder.plays(ACTIVATE, i, &[session, role % 16]);
    }
    // The bottom's issuer grants permission 0 to the bottom and 1 to the one above it; nobody holds 2.
    let j = last / 16;
    builder.plays(GRANT, j, &[0, j, last % 16]);
    builder.plays(GRANT, j, &[1, above / 16, above % 16]);
    let publications = builder.publications();
    Case {
        name,
        state: builder.state,
        allowed: vec![record(MAY_USE, j, &[0, top / 16, 0])],
        denied: vec![
            record(MAY_USE, j, &[2, top / 16, 0]),
            record(MAY_USE, j, &[1, j, 1]),
        ],
        grants: vec![
            record(GRANT, j, &[2, j, last % 16]),
            record(UNGRANT, j, &[2, j, last % 16]),
        ],
        publications,
        detachments: vec![],
    }
}
