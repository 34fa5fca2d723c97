//! What the random presses have reached.

use crate::lent_press::{LentPress, List};
use crate::press::{next_stage, Asked, ACTIONS, PRESSES, STAGES};
use crate::press_floor::Question;
use crate::presses::Agreed;
use crate::refusals::REFUSALS;
use crate::sets::{own, Sets};

type Applies = fn(&LentPress) -> bool;

/// The causes of error 17.
const CAUSES: [(&str, Applies); 10] = [
    ("owners under 32 bytes", |lent| short(&lent.owners)),
    ("owners over 32 bytes", |lent| long(&lent.owners)),
    ("stages under 32 bytes", |lent| short(&lent.stages)),
    ("stages over 32 bytes", |lent| long(&lent.stages)),
    ("press above 31", |lent| lent.asked.press > 31),
    ("action above 4", |lent| lent.asked.action > 4),
    ("its owner above 15", |lent| {
        lent.owner().is_some_and(|owner| owner > 15)
    }),
    ("another owner above 15", |lent| {
        others(&lent.owners, lent.asked.press).any(|owner| owner > 15)
    }),
    ("its stage above 3", |lent| {
        lent.stage().is_some_and(|stage| stage > 3)
    }),
    ("another stage above 3", |lent| {
        others(&lent.stages, lent.asked.press).any(|stage| stage > 3)
    }),
];

/// What the desk can refuse a press with.
const REFUSED: [usize; 5] = [1, 2, 5, 6, 10];

const NAMES: [&str; ACTIONS] = ["load", "start", "pause", "resume", "empty"];

/// By action and stage.
type Table = [[u64; STAGES]; ACTIONS];

#[derive(Default)]
pub struct PressCounts {
    pub histories: u64,
    pub calls: u64,
    pub presses: u64,
    /// On damaged or other states, among the presses.
    on_other_states: u64,
    null_owners: u64,
    null_stages: u64,
    /// Error 0, and by the shortest chain of trust: of length 0, 1, 2 or more.
    moved: Table,
    moved_on_other_states: u64,
    chains: [u64; 3],
    /// Error 17 by one cause alone, and by several.
    by_cause: [u64; CAUSES.len()],
    by_several: u64,
    /// Those of them where 18 applies for certain, and those where 19 does.
    out_of_form_and_18: u64,
    out_of_form_and_19: u64,
    /// Error 18 by the desk's refusal, and at 0 by a verdict 0.
    by_refusal: [u64; REFUSALS + 1],
    refused_and_19: u64,
    /// Unlawful states where roles lead to the permission, and no chain of trust to the owner.
    without_chain: u64,
    /// Error 19.
    wrong_stage: Table,
}

impl PressCounts {
    pub fn count(&mut self, question: &Question, agreed: &Agreed, sets: &Sets) {
        let Question { damage, lent } = question;
        let elsewhere = u64::from(damage.is_some());
        self.presses += 1;
        self.on_other_states += elsewhere;
        self.null_owners += u64::from(lent.null && lent.owners.bytes.is_empty());
        self.null_stages += u64::from(lent.null && lent.stages.bytes.is_empty());
        match agreed.error {
            0 => {
                *at(&mut self.moved, lent) += 1;
                self.moved_on_other_states += elsewhere;
                if let Some(length) = question.chain(sets) {
                    self.chains[length.min(2)] += 1;
                }
            }
            17 => self.out_of_form(lent),
            18 => self.refused(question, agreed, sets),
            _ => *at(&mut self.wrong_stage, lent) += 1,
        }
    }

    fn out_of_form(&mut self, lent: &LentPress) {
        let applying = CAUSES.map(|(_, applies)| applies(lent));
        let mut causes = (0..CAUSES.len()).filter(|&cause| applying[cause]);
        match (causes.next(), causes.next()) {
            (Some(only), None) => self.by_cause[only] += 1,
            _ => self.by_several += 1,
        }
        // Whoever the owner is, the desk refuses a session with a number above 15.
        let above_15 = lent.asked.issuer > 15 || lent.asked.session > 15;
        self.out_of_form_and_18 += u64::from(above_15);
        self.out_of_form_and_19 += u64::from(at_wrong_stage(lent));
    }

    fn refused(&mut self, question: &Question, agreed: &Agreed, sets: &Sets) {
        let lent = &question.lent;
        let refusal = agreed.answer.map_or(0, |answer| answer.refusal);
        self.by_refusal[usize::from(refusal)] += 1;
        self.refused_and_19 += u64::from(at_wrong_stage(lent));
        if refusal == 2 && leads(lent, sets) && question.chain(sets).is_none() {
            self.without_chain += 1;
        }
    }

    fn lines(&self) -> [(&'static str, u64); 19] {
        let by_causes = self.by_cause.iter().sum::<u64>() + self.by_several;
        [
            ("presses", self.presses),
            ("  histories", self.histories),
            ("  calls between", self.calls),
            ("  on other states", self.on_other_states),
            ("null for no owners", self.null_owners),
            ("null for no stages", self.null_stages),
            ("presses moved", sum(&self.moved)),
            ("  on other states", self.moved_on_other_states),
            ("  by the owner's session", self.chains[0]),
            ("  by a chain of 1 trust", self.chains[1]),
            ("  by a chain of more", self.chains[2]),
            ("error 17", by_causes),
            ("  and 18 too", self.out_of_form_and_18),
            ("  and 19 too", self.out_of_form_and_19),
            ("error 18", self.by_refusal.iter().sum()),
            ("  by a verdict 0", self.by_refusal[0]),
            ("  and 19 too", self.refused_and_19),
            ("  unlawful, without chain", self.without_chain),
            ("error 19", sum(&self.wrong_stage)),
        ]
    }

    fn cause_lines(&self) -> impl Iterator<Item = (&'static str, u64)> {
        let names = CAUSES.iter().map(|&(name, _)| name);
        names
            .zip(self.by_cause)
            .chain([("several causes", self.by_several)])
    }

    fn refusal_lines(&self) -> [(usize, u64); REFUSED.len()] {
        REFUSED.map(|refusal| (refusal, self.by_refusal[refusal]))
    }

    /// Whatever was never reached.
    pub fn missing(&self) -> Vec<String> {
        let mut missing = Vec::new();
        for (name, count) in self.lines().into_iter().chain(self.cause_lines()) {
            if count == 0 {
                missing.push(format!("presses, {}", name.trim()));
            }
        }
        for (refusal, count) in self.refusal_lines() {
            if count == 0 {
                missing.push(format!("presses, error 18 by refusal {refusal}"));
            }
        }
        for (action, stage) in (0..ACTIONS * STAGES).map(|n| (n / STAGES, n % STAGES)) {
            let leads = next_stage(action as u8, stage as u8).is_some();
            let table = if leads {
                &self.moved
            } else {
                &self.wrong_stage
            };
            if table[action][stage] == 0 {
                let (name, error) = (NAMES[action], if leads { 0 } else { 19 });
                missing.push(format!("presses, {name} at stage {stage}, error {error}"));
            }
        }
        missing
    }

    pub fn print(&self) {
        for (name, count) in self.lines() {
            println!("{name:25} {count}");
        }
        println!("cause: error 17 by it alone");
        for (name, count) in self.cause_lines() {
            println!("  {name}: {count}");
        }
        print!("refusals with error 18   ");
        for (refusal, count) in self.refusal_lines() {
            print!(" {refusal}: {count}");
        }
        println!();
        println!("action: moved at stages 0 to 3, error 19 at them");
        for (action, name) in NAMES.iter().enumerate() {
            print!("  {name:6}:");
            for table in [&self.moved, &self.wrong_stage] {
                for count in table[action] {
                    print!(" {count:6}");
                }
            }
            println!();
        }
    }
}

fn sum(table: &Table) -> u64 {
    table.iter().flatten().sum()
}

/// The place of the action and the press's stage, which are in range.
fn at<'a>(table: &'a mut Table, lent: &LentPress) -> &'a mut u64 {
    let stage = lent.stage().expect("the list has 32 bytes");
    &mut table[usize::from(lent.asked.action)][usize::from(stage)]
}

fn short(list: &List) -> bool {
    list.bytes.len() < PRESSES
}

fn long(list: &List) -> bool {
    list.bytes.len() > PRESSES
}

/// The bytes of the other presses.
fn others(list: &List, press: u8) -> impl Iterator<Item = u8> + '_ {
    let bytes = list.bytes.iter().enumerate();
    let others = bytes.filter(move |(place, _)| *place != usize::from(press));
    others.map(|(_, &byte)| byte)
}

/// Whether there are such an action and such a stage, and the stage is wrong.
fn at_wrong_stage(lent: &LentPress) -> bool {
    let action = lent.asked.action;
    let wrong = |stage| stage < 4 && next_stage(action, stage).is_none();
    action < 5 && lent.stage().is_some_and(wrong)
}

/// Whether the sets, lawful or not, lead from the session to the owner's permission.
fn leads(lent: &LentPress, sets: &Sets) -> bool {
    let Asked {
        action,
        issuer,
        session,
        ..
    } = lent.asked;
    let name = own(usize::from(issuer), usize::from(session));
    let owner = lent.owner().map(usize::from);
    owner.is_some_and(|owner| sets.may_use(name, own(owner, usize::from(action))))
}
