//! What the random journals have reached.

use crate::engine::Answer;
use crate::lawful::{Law, LAWS};
use crate::reach_counts::ReachCounts;
use crate::record::{decode_call, Call, KINDS};
use crate::refusals::{linked_role, REFUSALS};
use crate::sets::{own, Grant, Role, SessionName, Sets};
use crate::short_counts::ShortCounts;
use crate::through_counts::ThroughCounts;
use std::collections::{BTreeMap, BTreeSet};

/// What a call can clear.
const CLEARED: [&str; 10] = [
    "trust",
    "users",
    "roles",
    "public",
    "permissions",
    "held",
    "grants",
    "attachments",
    "sessions",
    "active",
];

/// What each clearing kind must have cleared at least once: its own thing and what the cascade
/// sentences name.
#[rustfmt::skip]
const MUST_CLEAR: [(usize, &[&str]); 11] = [
    (2, &CLEARED),
    (4, &["trust", "grants", "attachments", "active"]),
    (6, &["users", "held", "sessions", "active"]),
    (8, &["roles", "public", "held", "grants", "attachments", "active"]),
    (10, &["permissions", "grants"]),
    (12, &["held", "active"]),
    (14, &["grants"]),
    (16, &["attachments", "active"]),
    (18, &["sessions", "active"]),
    (20, &["active"]),
    (23, &["public", "grants", "attachments", "active"]),
];

/// How many there are of each of `CLEARED`.
pub type Sizes = [usize; CLEARED.len()];

pub fn sizes(sets: &Sets) -> Sizes {
    [
        sets.trust.len(),
        sets.users.len(),
        sets.roles.len(),
        sets.public.len(),
        sets.permissions.len(),
        sets.held.len(),
        sets.grants.len(),
        sets.attachments.len(),
        sets.sessions.len(),
        sets.sessions.values().map(|open| open.active.len()).sum(),
    ]
}

#[derive(Default)]
pub struct Counts {
    pub journals: u64,
    pub calls: u64,
    /// Calls on damaged or other states, among the calls.
    pub on_other_states: u64,
    pub starts: u64,
    tried: [u64; KINDS + 1],
    accepted: [u64; KINDS + 1],
    /// The accepted ones of kinds 13 to 16 that name another estate's role.
    accepted_across: [u64; KINDS + 1],
    /// Refusals 14.
    not_public: [u64; KINDS + 1],
    /// By their numbers, and at 0 whatever was accepted.
    refusals: [u64; REFUSALS + 1],
    /// Verdicts 1 by the least number of attachments walked: 0, 1, 2, 3, 4 or more.
    verdicts: [u64; 5],
    verdicts_on_other_states: u64,
    /// How much each kind cleared.
    cleared: [[u64; CLEARED.len()]; KINDS + 1],
    /// States that broke one clause of "Lawful means" and no other.
    broken_alone: BTreeMap<Law, u64>,
    pub reach: ReachCounts,
    pub short: ShortCounts,
    pub through: ThroughCounts,
}

impl Counts {
    pub fn answered(&mut self, record: &[u8], answer: Answer) {
        self.calls += 1;
        self.refusals[usize::from(answer.refusal)] += 1;
        self.short.answered(record, answer);
        if let Some(decoded) = decode_call(record) {
            let kind = decoded.kind;
            let across = linked_role(&decoded).is_some_and(|role| role.issuer != decoded.caller);
            let accepted = answer.refusal == 0;
            self.tried[kind] += 1;
            self.accepted[kind] += u64::from(accepted);
            self.accepted_across[kind] += u64::from(accepted && across);
            self.not_public[kind] += u64::from(answer.refusal == 14);
        }
    }

    /// An accepted call on the present state: what it cleared, and how far a verdict 1 went.
    pub fn changed(&mut self, record: &[u8], answer: Answer, before: Sizes, after: &Sets) {
        let Some(decoded) = decode_call(record) else {
            return;
        };
        let cleared = &mut self.cleared[decoded.kind];
        for (place, count) in sizes(after).into_iter().enumerate() {
            cleared[place] += before[place].saturating_sub(count) as u64;
        }
        let Call::MayUse {
            permission,
            issuer,
            session,
        } = decoded.call
        else {
            return;
        };
        if answer.verdict == 1 {
            let permission = own(decoded.caller, permission);
            let holds = |&role: &Role| after.grants.contains(&Grant { role, permission });
            let walked = attachments_walked(after, own(issuer, session), holds);
            self.verdicts[walked.min(4)] += 1;
        }
    }

    pub fn on_other_state(&mut self, answer: Answer, broken: &[Law]) {
        self.on_other_states += 1;
        self.verdicts_on_other_states += u64::from(answer.verdict);
        if let [law] = broken {
            *self.broken_alone.entry(*law).or_default() += 1;
        }
    }

    /// Whatever was never reached.
    pub fn missing(&self) -> Vec<String> {
        let mut missing = Vec::new();
        for number in 1..=REFUSALS {
            if self.refusals[number] == 0 {
                missing.push(format!("refusal {number}"));
            }
        }
        for kind in 1..=KINDS {
            if self.accepted[kind] == 0 {
                missing.push(format!("kind {kind} accepted"));
            }
        }
        for kind in 13..=16 {
            if self.accepted_across[kind] == 0 {
                missing.push(format!("kind {kind} accepted across estates"));
            }
            if self.not_public[kind] == 0 {
                missing.push(format!("kind {kind} refused with 14"));
            }
        }
        for (walked, &count) in self.verdicts.iter().enumerate() {
            if count == 0 {
                missing.push(format!("verdict 1 after {walked} attachments"));
            }
        }
        for (kind, must) in MUST_CLEAR {
            for (name, count) in CLEARED.iter().zip(self.cleared[kind]) {
                if must.contains(name) && count == 0 {
                    missing.push(format!("kind {kind} clearing {name}"));
                }
            }
        }
        for law in LAWS {
            if !self.broken_alone.contains_key(&law) {
                missing.push(format!("a state that breaks only {law:?}"));
            }
        }
        if self.starts == 0 {
            missing.push("starting a used state".to_string());
        }
        missing.extend(self.reach.missing());
        missing.extend(self.short.missing());
        missing.extend(self.through.missing());
        missing
    }

    pub fn print(&self) {
        let verdicts: u64 = self.verdicts.iter().sum();
        println!("journals                  {}", self.journals);
        println!("calls                     {}", self.calls);
        println!("  on other states         {}", self.on_other_states);
        println!("starts of used states     {}", self.starts);
        println!("accepted                  {}", self.refusals[0]);
        print!("refusals                 ");
        for number in 1..=REFUSALS {
            print!(" {number}: {}", self.refusals[number]);
        }
        println!();
        println!(
            "verdicts 1                {}",
            verdicts + self.verdicts_on_other_states
        );
        println!(
            "  attachments walked      0: {}, 1: {}, 2: {}, 3: {}, more: {}",
            self.verdicts[0],
            self.verdicts[1],
            self.verdicts[2],
            self.verdicts[3],
            self.verdicts[4]
        );
        self.through.print();
        self.short.print();
        self.reach.print();
        println!("kind: accepted across estates, refused with 14");
        for kind in 13..=16 {
            let (accepted, refused) = (self.accepted_across[kind], self.not_public[kind]);
            println!("  {kind:2}: {accepted:6} {refused:6}");
        }
        println!("kind: calls, accepted, cleared");
        for kind in 1..=KINDS {
            let tried = self.tried[kind];
            print!("  {kind:2}: {tried:6} {:6} ", self.accepted[kind]);
            for (name, count) in CLEARED.iter().zip(self.cleared[kind]) {
                if count > 0 {
                    print!(" {name} {count}");
                }
            }
            println!();
        }
        println!("states breaking one clause of \"Lawful means\" alone:");
        for (law, count) in &self.broken_alone {
            println!("  {law:?}: {count}");
        }
    }
}

/// The least number of attachments from an active role down to a role that fits, where there is
/// one.
pub fn attachments_walked(sets: &Sets, name: SessionName, fits: impl Fn(&Role) -> bool) -> usize {
    let active = sets.sessions[&name].active.iter();
    let mut level: BTreeSet<_> = active.map(|&role| own(name.issuer, role)).collect();
    let mut walked = 0;
    while !level.is_empty() && !level.iter().any(&fits) {
        level = level
            .into_iter()
            .flat_map(|role| sets.juniors(role))
            .collect();
        walked += 1;
    }
    walked
}
