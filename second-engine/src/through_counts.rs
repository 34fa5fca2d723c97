//! Through which roles the yeses went, and which roles were passed over for them.

use crate::counts::attachments_walked;
use crate::engine::Answer;
use crate::sets::{own, Grant, Role, Sets};
use crate::through_check::{asked_for, Yes};

#[derive(Default)]
pub struct ThroughCounts {
    /// Yeses through an active role itself.
    active: u64,
    /// Through a role of the session's estate that isn't active, and of another estate; of these
    /// the permission's owner's, and a third estate's.
    at_home: u64,
    elsewhere: u64,
    of_the_owner: u64,
    of_a_third: u64,
    /// Through 0#0, and through 15#15.
    first: u64,
    last: u64,
    /// Yeses where another reached role holds the permission too: one of the same issuer, one of
    /// another, one with a lower role number, one that fewer attachments lead to, and one that
    /// the lowest active role reaches, while it doesn't reach the told one.
    several: u64,
    of_the_same: u64,
    of_another: u64,
    lower_number: u64,
    nearer: u64,
    lowest_active: u64,
    /// Yeses where a lower role holds it that isn't reached, and one of a lower issuer.
    unreached: u64,
    unreached_issuer: u64,
    /// Yeses where a lower role is reached that doesn't hold it, and one of a lower issuer.
    not_holding: u64,
    not_holding_issuer: u64,
    /// Verdicts 0 of kind 21: for a closed session, and for an open one, while no role holds the
    /// permission and while some role does.
    closed: u64,
    no_holder: u64,
    no_reached_holder: u64,
    /// On damaged or other states, lawful: yeses, and those with several reached holders.
    elsewhere_yes: u64,
    elsewhere_several: u64,
}

impl ThroughCounts {
    /// An accepted call on the present state.
    pub fn accepted(&mut self, record: &[u8], answer: Answer, sets: &Sets) {
        let Some((name, permission)) = asked_for(record) else {
            return;
        };
        if let Some(yes) = Yes::to(record, answer.packed()) {
            self.told(yes, sets);
            self.passed_over(yes, sets);
        } else if !sets.sessions.contains_key(&name) {
            self.closed += 1;
        } else if sets
            .grants
            .iter()
            .any(|grant| grant.permission == permission)
        {
            self.no_reached_holder += 1;
        } else {
            self.no_holder += 1;
        }
    }

    fn told(
        &mut self,
        Yes {
            name,
            permission,
            told,
        }: Yes,
        sets: &Sets,
    ) {
        if told.issuer != name.issuer {
            let of_the_owner = told.issuer == permission.issuer;
            self.elsewhere += 1;
            self.of_the_owner += u64::from(of_the_owner);
            self.of_a_third += u64::from(!of_the_owner);
        } else if sets.sessions[&name].active.contains(&told.number) {
            self.active += 1;
        } else {
            self.at_home += 1;
        }
        self.first += u64::from(told == own(0, 0));
        self.last += u64::from(told == own(15, 15));
    }

    fn passed_over(
        &mut self,
        Yes {
            name,
            permission,
            told,
        }: Yes,
        sets: &Sets,
    ) {
        let mut others = sets.reached_holders(name, permission);
        others.remove(&told);
        let another = |fits: &dyn Fn(&Role) -> bool| u64::from(others.iter().any(fits));
        self.several += another(&|_| true);
        self.of_the_same += another(&|role| role.issuer == told.issuer);
        self.of_another += another(&|role| role.issuer != told.issuer);
        self.lower_number += another(&|role| role.number < told.number);
        let far = attachments_walked(sets, name, |&role| role == told);
        self.nearer += another(&|other| attachments_walked(sets, name, |role| role == other) < far);
        let lowest = sets.sessions[&name].active.first();
        let below = sets.reached(lowest.map(|&role| own(name.issuer, role)));
        self.lowest_active += another(&|role| below.contains(role) && !below.contains(&told));

        let reached = sets.reached_in(name);
        let holds = |role: Role| sets.grants.contains(&Grant { role, permission });
        let lower = |fits: &dyn Fn(Role) -> bool| {
            let lower: Vec<&Role> = sets
                .roles
                .range(..told)
                .filter(|&&role| fits(role))
                .collect();
            let of_lower_issuer = lower.iter().any(|role| role.issuer < told.issuer);
            (u64::from(!lower.is_empty()), u64::from(of_lower_issuer))
        };
        let (role, issuer) = lower(&|role| holds(role) && !reached.contains(&role));
        self.unreached += role;
        self.unreached_issuer += issuer;
        let (role, issuer) = lower(&|role| reached.contains(&role) && !holds(role));
        self.not_holding += role;
        self.not_holding_issuer += issuer;
    }

    /// A call on a damaged or other state, lawful.
    pub fn on_lawful_state(&mut self, record: &[u8], answer: Answer, sets: &Sets) {
        if let Some(yes) = Yes::to(record, answer.packed()) {
            let holders = sets.reached_holders(yes.name, yes.permission);
            self.elsewhere_yes += 1;
            self.elsewhere_several += u64::from(holders.len() > 1);
        }
    }

    fn lines(&self) -> [(&'static str, u64); 22] {
        [
            ("through an active role", self.active),
            ("through another at home", self.at_home),
            ("through another estate's", self.elsewhere),
            ("  the owner's own", self.of_the_owner),
            ("  a third estate's", self.of_a_third),
            ("through 0#0", self.first),
            ("through 15#15", self.last),
            ("two or more holders", self.several),
            ("  of the same issuer", self.of_the_same),
            ("  of another issuer", self.of_another),
            ("  of a lower role number", self.lower_number),
            ("  fewer attachments away", self.nearer),
            ("  below the lowest active", self.lowest_active),
            ("lower holders not reached", self.unreached),
            ("  unreached, lower issuer", self.unreached_issuer),
            ("lower ones not holding", self.not_holding),
            ("  no holder, lower issuer", self.not_holding_issuer),
            ("noes, session closed", self.closed),
            ("noes, no role holding", self.no_holder),
            ("noes, holders not reached", self.no_reached_holder),
            ("yeses on other states", self.elsewhere_yes),
            ("  two or more there", self.elsewhere_several),
        ]
    }

    /// Whatever was never reached.
    pub fn missing(&self) -> Vec<String> {
        let lines = self.lines().into_iter();
        let never = lines.filter(|(_, count)| *count == 0);
        never.map(|(name, _)| name.trim().to_string()).collect()
    }

    pub fn print(&self) {
        for (name, count) in self.lines() {
            println!("{name:25} {count}");
        }
    }
}
