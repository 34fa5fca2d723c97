//! What the random pairs of histories have reached.

use crate::engine::{unpacked, Answer};
use crate::histories::{outsiders, trusts_a_member, In, Pair};
use crate::pairs::Played;
use crate::reach_counts::{dropped, lesser_activated, Sessions};
use crate::record::decode_call;
use crate::sets::Sets;
use crate::through_check::Yes;
use crate::ways::only_through_others;
use std::collections::BTreeSet;

/// What came of the records that remain, or of the outsiders'.
#[derive(Default)]
struct Answered {
    accepted: u64,
    refused: u64,
    /// Refusals 14, among the refused.
    not_public: u64,
    /// Kinds 22 and 23, among the accepted.
    published: u64,
    unpublished: u64,
    verdicts: u64,
    /// Those of them through a role of another estate than the session's.
    through_others: u64,
}

impl Answered {
    fn count(&mut self, record: &[u8], answer: u64) {
        let [refusal, verdict, ..] = unpacked(answer);
        let accepted = refusal == 0;
        let kind = decode_call(record).map(|decoded| decoded.kind);
        self.accepted += u64::from(accepted);
        self.refused += u64::from(!accepted);
        self.not_public += u64::from(refusal == 14);
        self.published += u64::from(accepted && kind == Some(22));
        self.unpublished += u64::from(accepted && kind == Some(23));
        self.verdicts += verdict;
        let another = |yes: Yes| yes.told.issuer != yes.name.issuer;
        self.through_others += u64::from(Yes::to(record, answer).is_some_and(another));
    }

    fn all(&self) -> u64 {
        self.accepted + self.refused
    }
}

#[derive(Default)]
pub struct PairCounts {
    pub pairs: u64,
    /// Outsiders' kind 3 naming a member, left out as they would have been accepted.
    pub avoided: u64,
    refused_trust: u64,
    remaining: Answered,
    outsiders: Answered,
    /// Yeses that remain, where several reached roles hold the permission, and where a lower
    /// role is reached that is an outsider's.
    several_holders: u64,
    past_outsiders: u64,
    /// Signs of life that stand in one of the two histories only.
    signs_of_life: u64,
    empty_sets: u64,
    full_sets: u64,
    /// Links are grants and attachments between different issuers, at the end.
    member_links: u64,
    links_to_outsiders: u64,
    outsider_links: u64,
    /// Lesser roles activated, and active roles dropped as their reach broke.
    lesser: u64,
    lesser_through_members: u64,
    lesser_of_outsiders: u64,
    dropped: u64,
    dropped_of_outsiders: u64,
    usable: u64,
    usable_of_outsiders: u64,
    different_ends: u64,
}

impl PairCounts {
    pub fn count(&mut self, pair: &Pair, first: &Played, second: &Played) {
        self.empty_sets += u64::from(pair.members.is_empty());
        self.full_sets += u64::from(pair.members.len() == 16);
        self.different_ends += u64::from(first.words != second.words);
        for (place, record) in &pair.entries {
            self.signs_of_life += u64::from(*place != In::Both && record.is_empty());
        }
        for (which, played) in [(In::First, first), (In::Second, second)] {
            for (record, &answer) in pair.history(which).iter().zip(&played.answers) {
                if outsiders(&pair.members, record) {
                    self.outsiders.count(record, answer);
                } else {
                    self.remaining.count(record, answer);
                }
                let refused = unpacked(answer)[0] != 0;
                let refused_trust = refused && trusts_a_member(&pair.members, record);
                self.refused_trust += u64::from(refused_trust);
            }
            self.count_end(&pair.members, &Sets::read(&played.words));
        }
    }

    /// One call of a history, accepted.
    pub fn count_call(
        &mut self,
        members: &BTreeSet<usize>,
        record: &[u8],
        answer: Answer,
        before: &Sessions,
        after: &Sets,
    ) {
        let yes = Yes::to(record, answer.packed());
        if let Some(yes) = yes.filter(|_| !outsiders(members, record)) {
            let holders = after.reached_holders(yes.name, yes.permission);
            let reached = after.reached_in(yes.name);
            let mut lower = reached.range(..yes.told);
            let past_outsiders = lower.any(|role| !members.contains(&role.issuer));
            self.several_holders += u64::from(holders.len() > 1);
            self.past_outsiders += u64::from(past_outsiders);
        }
        if let Some((name, role)) = lesser_activated(record, after) {
            if members.contains(&name.issuer) {
                self.lesser += 1;
                self.lesser_through_members += u64::from(only_through_others(after, name, role));
            } else {
                self.lesser_of_outsiders += 1;
            }
        }
        for (name, _) in dropped(before, after) {
            if members.contains(&name.issuer) {
                self.dropped += 1;
            } else {
                self.dropped_of_outsiders += 1;
            }
        }
    }

    fn count_end(&mut self, members: &BTreeSet<usize>, sets: &Sets) {
        for (role, owner) in sets.links() {
            let ends = (members.contains(&role.issuer), members.contains(&owner));
            if role.issuer != owner {
                match ends {
                    (true, true) => self.member_links += 1,
                    (true, false) => self.links_to_outsiders += 1,
                    _ => self.outsider_links += 1,
                }
            }
        }
        for &name in sets.sessions.keys() {
            for &permission in &sets.permissions {
                if !sets.may_use(name, permission) {
                    continue;
                }
                if members.contains(&permission.issuer) {
                    self.usable += 1;
                } else {
                    self.usable_of_outsiders += 1;
                }
            }
        }
    }

    fn lines(&self) -> [(&'static str, u64); 33] {
        let PairCounts {
            remaining,
            outsiders,
            ..
        } = self;
        [
            ("pairs of histories", self.pairs),
            ("  of the empty set", self.empty_sets),
            ("  of all issuers", self.full_sets),
            ("  whose ends differ", self.different_ends),
            ("records played in them", remaining.all() + outsiders.all()),
            ("records that remain", remaining.all()),
            ("  accepted", remaining.accepted),
            ("  publishing", remaining.published),
            ("  unpublishing", remaining.unpublished),
            ("  refused with 14", remaining.not_public),
            ("  verdicts 1", remaining.verdicts),
            ("    of another member", remaining.through_others),
            ("    with several holders", self.several_holders),
            ("    past an outsider's", self.past_outsiders),
            ("outsiders' accepted", outsiders.accepted),
            ("outsiders' publishing", outsiders.published),
            ("outsiders' unpublishing", outsiders.unpublished),
            ("outsiders' verdicts 1", outsiders.verdicts),
            ("  of another estate", outsiders.through_others),
            ("outsiders' refused", outsiders.refused),
            ("outsiders' refusals 14", outsiders.not_public),
            ("  trusting a member", self.refused_trust),
            ("signs of life in one only", self.signs_of_life),
            ("links among members", self.member_links),
            ("links member-outsider", self.links_to_outsiders),
            ("links among outsiders", self.outsider_links),
            ("lesser, of members", self.lesser),
            ("  through other members", self.lesser_through_members),
            ("lesser, of outsiders", self.lesser_of_outsiders),
            ("dropped, of members", self.dropped),
            ("dropped, of outsiders", self.dropped_of_outsiders),
            ("usable, of members", self.usable),
            ("usable, of outsiders", self.usable_of_outsiders),
        ]
    }

    /// Whatever was never reached.
    pub fn missing(&self) -> Vec<String> {
        let lines = self.lines().into_iter();
        let never = lines.filter(|(_, count)| *count == 0);
        never.map(|(name, _)| name.trim().to_string()).collect()
    }

    pub fn print(&self) {
        for (name, count) in self.lines() {
            println!("{name:25} {count}");
        }
        println!("{:25} {}", "kind 3 left out", self.avoided);
    }
}
