//! Presses that are wrong in one thing each, made of the plain one.

use crate::chains::chain_of_trust;
use crate::engine::{call, yes, Answer};
use crate::places::WORDS;
use crate::press::{act, next_stage, Asked, PRESSES};
use crate::record::encode;
use crate::sets::{own, Sets};

/// What a press is lent.
pub struct At<'a> {
    pub words: &'a mut [u16],
    pub owners: &'a [u8],
    pub stages: &'a mut [u8],
    pub asked: Asked,
}

/// A press in Rust.
pub type Safe = fn(&mut At) -> u16;

/// The right one.
pub fn plain(at: &mut At) -> u16 {
    act(
        |record| call(at.words, record),
        at.owners,
        at.stages,
        at.asked,
    )
}

/// Changes the record: kind 21 at 2, the owner at 4, the permission, the issuer and the session.
pub type Asker = fn(&mut [u8], Asked);

/// They ask the desk something else.
pub const ASKERS: [(&str, Asker); 8] = [
    ("called by the session's issuer", |record, asked| {
        record[4] = asked.issuer
    }),
    ("called by issuer 0", |record, _| record[4] = 0),
    ("called by the press", |record, asked| {
        record[4] = asked.press
    }),
    ("permission of the press's number", |record, asked| {
        record[5] = asked.press
    }),
    ("permissions from 1", |record, _| record[5] += 1),
    ("permission 0 for every action", |record, _| record[5] = 0),
    ("the owner's session", |record, _| record[6] = record[4]),
    ("issuer and session exchanged", |record, _| {
        record.swap(6, 7)
    }),
];

pub type Judge = fn(Answer) -> bool;

/// They take something else for the desk's yes.
pub const JUDGES: [(&str, Judge); 8] = [
    ("18 for a refusal only", |answer| answer.refusal == 0),
    ("18 for an accepted verdict 0 only", |answer| {
        answer.refusal != 0 || answer.verdict == 1
    }),
    ("refusal 1 overlooked", |answer| yes_or(answer, 1)),
    ("refusal 2 overlooked", |answer| yes_or(answer, 2)),
    ("refusal 5 overlooked", |answer| yes_or(answer, 5)),
    ("refusal 6 overlooked", |answer| yes_or(answer, 6)),
    ("refusal 10 overlooked", |answer| yes_or(answer, 10)),
    ("never a yes", |_| false),
];

/// They do something else with what was read and asked right.
pub const WHOLES: [(&str, Safe); 17] = [
    ("the stage before the desk", |at| match plain(at) {
        18 if at.wrong_stage() => 19,
        error => error,
    }),
    ("the stage before the lists", |at| match plain(at) {
        17 if at.wrong_stage() => 19,
        error => error,
    }),
    ("the desk before the lists", |at| match plain(at) {
        17 if at.desk_says_no() => 18,
        error => error,
    }),
    ("the next press moved", |at| {
        moved_elsewhere(at, at.press() + 1)
    }),
    ("press 0 moved", |at| moved_elsewhere(at, 0)),
    ("no press moved", without_moving),
    ("every press of the owner moved", |at| {
        let error = plain(at);
        for press in 0..PRESSES {
            if error == 0 && at.owners[press] == at.owners[at.press()] {
                at.stages[press] = at.stages[at.press()];
            }
        }
        error
    }),
    ("moved with error 17", |at| moved_with(at, 17)),
    ("moved with error 18", |at| moved_with(at, 18)),
    ("emptied with error 19", |at| {
        let error = plain(at);
        if error == 19 {
            at.stages[at.press()] = 0;
        }
        error
    }),
    ("a word changed where it moves", |at| {
        let error = plain(at);
        at.words[0] ^= u16::from(error == 0);
        error
    }),
    ("a word changed with error 18", |at| {
        let error = plain(at);
        if let Some(last) = at.words.last_mut() {
            *last ^= u16::from(error == 18);
        }
        error
    }),
    ("the session closed at the end", |at| {
        let error = plain(at);
        let (issuer, session) = (at.asked.issuer, at.asked.session);
        if error == 0 {
            call(at.words, &encode(18, issuer.into(), &[session.into()]));
        }
        error
    }),
    ("the law not looked at", |at| match plain(at) {
        18 if at.leads() => act(|_| YES, at.owners, at.stages, at.asked),
        error => error,
    }),
    ("trust taken for a right", |at| match plain(at) {
        18 if at.chain() == Some(1) => act(|_| YES, at.owners, at.stages, at.asked),
        error => error,
    }),
    ("only the owner's sessions", |at| match at.chain() {
        Some(1..) if without_moving(at) == 0 => 18,
        _ => plain(at),
    }),
    ("only direct trust", |at| match at.chain() {
        Some(2..) if without_moving(at) == 0 => 18,
        _ => plain(at),
    }),
];

impl At<'_> {
    fn press(&self) -> usize {
        usize::from(self.asked.press)
    }

    fn wrong_stage(&self) -> bool {
        let stage = self.stages.get(self.press());
        stage.is_some_and(|&stage| next_stage(self.asked.action, stage).is_none())
    }

    /// Whether there is an owner whom the desk refuses or gives verdict 0.
    fn desk_says_no(&mut self) -> bool {
        let Some(&owner) = self.owners.get(self.press()) else {
            return false;
        };
        let Asked {
            action,
            issuer,
            session,
            ..
        } = self.asked;
        let arguments = [action, issuer, session].map(usize::from);
        call(self.words, &encode(21, owner.into(), &arguments)).verdict == 0
    }

    /// Whether the words, lawful or not, lead to the owner's permission.
    fn leads(&self) -> bool {
        let Some(sets) = self.sets() else {
            return false;
        };
        let name = own(self.asked.issuer.into(), self.asked.session.into());
        let owner = self.owners[self.press()].into();
        sets.may_use(name, own(owner, self.asked.action.into()))
    }

    fn chain(&self) -> Option<usize> {
        let owner = *self.owners.get(self.press())?;
        chain_of_trust(&self.sets()?, self.asked.issuer.into(), owner.into())
    }

    fn sets(&self) -> Option<Sets> {
        (self.words.len() == WORDS).then(|| Sets::read(self.words))
    }
}

fn without_moving(at: &mut At) -> u16 {
    let stages = at.stages.to_vec();
    let error = plain(at);
    at.stages.copy_from_slice(&stages);
    error
}

/// This press gets the stage.
fn moved_elsewhere(at: &mut At, press: usize) -> u16 {
    let before = at.stages.to_vec();
    let error = plain(at);
    if error == 0 {
        let next = at.stages[at.press()];
        at.stages.copy_from_slice(&before);
        at.stages[press % PRESSES] = next;
    }
    error
}

/// The press moves with this error too.
fn moved_with(at: &mut At, with: u16) -> u16 {
    let error = plain(at);
    let press = at.press();
    if let Some(stage) = at.stages.get_mut(press) {
        if error == with {
            *stage = next_stage(at.asked.action, *stage).unwrap_or(*stage);
        }
    }
    error
}

/// A yes of the desk, through some role.
pub const YES: Answer = yes(own(0, 0));

fn yes_or(answer: Answer, refusal: u16) -> bool {
    answer.verdict == 1 || answer.refusal == refusal
}
