//! The presses on the floor of a history, and random questions at them.

use crate::aims::open_session;
use crate::chains::chain_of_trust;
use crate::damage::{any_damage, trust_taken, Damage};
use crate::engine::Desk;
use crate::lent_press::{LentPress, List};
use crate::places::WORDS;
use crate::press::{next_stage, Asked, ACTIONS, PRESSES, STAGES};
use crate::press_spoils::spoil;
use crate::random::Random;
use crate::sets::{own, Permission, SessionName, Sets};
use crate::worlds::{Thing, World};
use std::borrow::Cow;
use std::collections::BTreeSet;
use std::fmt;

/// An action at a press.
#[derive(Clone)]
pub struct Question {
    /// On the present state, or on a damaged copy.
    pub damage: Option<Damage>,
    pub lent: LentPress,
}

impl Question {
    /// The words that it is asked on, where these are the present ones.
    pub fn words(&self, present: &[u16]) -> Vec<u16> {
        match &self.damage {
            Some(damage) => damage.apply(present),
            None => present.to_vec(),
        }
    }

    /// The sets of the state that it is asked on, none where that has a wrong length.
    pub fn sets<'a>(&self, desk: &'a Desk) -> Cow<'a, Sets> {
        if self.damage.is_none() {
            return Cow::Borrowed(desk.sets());
        }
        let words = self.words(desk.words());
        Cow::Owned(if words.len() == WORDS {
            Sets::read(&words)
        } else {
            Sets::default()
        })
    }

    /// The length of the chain of trust from the session's estate to the press's owner.
    pub fn chain(&self, sets: &Sets) -> Option<usize> {
        let owner = self.lent.owner()?;
        let estate = self.lent.asked.issuer;
        chain_of_trust(sets, usize::from(estate), usize::from(owner))
    }
}

impl fmt::Display for Question {
    fn fmt(&self, out: &mut fmt::Formatter) -> fmt::Result {
        write!(out, "{}", self.lent)?;
        match &self.damage {
            Some(damage) => write!(out, "\n  {damage}"),
            None => Ok(()),
        }
    }
}

/// Each press's owner and stage, as they should be.
pub struct Floor {
    owners: [u8; PRESSES],
    stages: [u8; PRESSES],
}

impl Floor {
    /// Most owners are issuers of the world.
    pub fn any(random: &mut Random, world: &World) -> Floor {
        let strangers = random.pick(&[0, 5, 30]);
        let owners = [(); PRESSES].map(|()| match random.below(100) {
            turn if turn < strangers => random.byte() % 16,
            _ => world.name(random, Thing::Issuer) as u8,
        });
        let stages = [(); PRESSES].map(|()| any_stage(random));
        Floor { owners, stages }
    }

    /// The stages after an action went ahead.
    pub fn moved(&mut self, stages: &[u8]) {
        self.stages.copy_from_slice(stages);
    }

    /// What is asked at a press, mostly on the present state, and else on a damaged copy, whose
    /// words it is aimed at, lawful or not.
    pub fn any_question(&mut self, random: &mut Random, world: &World, desk: &Desk) -> Question {
        if random.percent(2) {
            let lent = self.any_press(random, world, desk.sets());
            let estate = usize::from(lent.asked.issuer) % 16;
            let damage = Some(trust_taken(desk.words(), estate));
            return Question { damage, lent };
        }
        let damage = random.percent(8);
        let damage = damage.then(|| any_damage(random, world, desk.words()));
        let words = damage.as_ref().map(|damage| damage.apply(desk.words()));
        let lent = match words {
            Some(words) if words.len() == WORDS => {
                self.any_press(random, world, &Sets::read(&words))
            }
            _ => self.any_press(random, world, desk.sets()),
        };
        Question { damage, lent }
    }

    /// Where the state has these sets. The lists may be spoilt, the floor's own are not.
    fn any_press(&mut self, random: &mut Random, world: &World, sets: &Sets) -> LentPress {
        let asked = match random.below(100) {
            0..=64 => self.aimed(random, sets),
            65..=74 => self.near(random, world, sets),
            75..=84 => self.with_permission(random, world, sets),
            _ => None,
        };
        let asked = asked.unwrap_or_else(|| blind(random, world));
        let list = |bytes: &[u8]| List {
            bytes: bytes.to_vec(),
            behind: Vec::new(),
        };
        let mut lent = LentPress {
            owners: list(&self.owners),
            stages: list(&self.stages),
            asked,
            null: random.percent(50),
        };
        if random.percent(25) {
            for _ in 0..random.pick(&[1, 1, 1, 1, 2, 3]) {
                spoil(random, &mut lent);
            }
        }
        lent
    }

    /// A question that has verdict 1, mostly at the right stage.
    fn aimed(&mut self, random: &mut Random, sets: &Sets) -> Option<Asked> {
        let (name, permission) = usable(random, sets)?;
        let press = self.press_of(random, permission.issuer);
        let action = permission.number as u8;
        self.stages[press] = match random.below(20) {
            0..=11 => right_stage(random, action),
            12..=16 => any_stage(random),
            _ => self.stages[press],
        };
        Some(Asked {
            press: press as u8,
            action,
            issuer: name.issuer as u8,
            session: name.number as u8,
        })
    }

    /// The same with one number changed.
    fn near(&mut self, random: &mut Random, world: &World, sets: &Sets) -> Option<Asked> {
        let mut asked = self.aimed(random, sets)?;
        let other = blind(random, world);
        match random.below(4) {
            0 => asked.press = other.press,
            1 => asked.action = other.action,
            2 => asked.issuer = other.issuer,
            _ => asked.session = other.session,
        }
        Some(asked)
    }

    /// A permission that is there, and any session.
    fn with_permission(
        &mut self,
        random: &mut Random,
        world: &World,
        sets: &Sets,
    ) -> Option<Asked> {
        let permission = random.member_where(&sets.permissions, for_an_action)?;
        let mut asked = blind(random, world);
        asked.press = self.press_of(random, permission.issuer) as u8;
        asked.action = permission.number as u8;
        Some(asked)
    }

    /// One of the owner's presses. Where there is none, one changes hands.
    fn press_of(&mut self, random: &mut Random, owner: usize) -> usize {
        let places: Vec<usize> = (0..PRESSES).collect();
        let owned = random.pick_where(&places, |&press| usize::from(self.owners[press]) == owner);
        let press = owned.unwrap_or_else(|| random.below(PRESSES));
        self.owners[press] = owner as u8;
        press
    }
}

/// Any press and any action, mostly for a session of the world.
fn blind(random: &mut Random, world: &World) -> Asked {
    let mut name = own(
        world.name(random, Thing::Issuer),
        world.name(random, Thing::Session),
    );
    if random.percent(10) {
        name = own(random.below(16), random.below(16));
    }
    Asked {
        press: random.below(PRESSES) as u8,
        action: random.below(ACTIONS) as u8,
        issuer: name.issuer as u8,
        session: name.number as u8,
    }
}

/// An open session and a permission for an action that it may use, now and then of an owner
/// whom the session's issuer doesn't trust itself. Asked of the sets, lawful or not.
fn usable(random: &mut Random, sets: &Sets) -> Option<(SessionName, Permission)> {
    for _ in 0..4 {
        let name = open_session(random, sets)?;
        let reached = sets.reached_in(name);
        let grants = sets.grants.iter();
        let held = grants.filter(|grant| reached.contains(&grant.role));
        let held = held.map(|grant| grant.permission);
        let held: BTreeSet<Permission> = held.filter(for_an_action).collect();
        let far = |p: &Permission| !sets.trusts(name.issuer, p.issuer);
        let mut permission = random.member_where(&held, far);
        if permission.is_none() || random.percent(30) {
            permission = random.member(&held);
        }
        if let Some(permission) = permission {
            return Some((name, permission));
        }
    }
    None
}

fn for_an_action(permission: &Permission) -> bool {
    permission.number < ACTIONS
}

fn any_stage(random: &mut Random) -> u8 {
    random.below(STAGES) as u8
}

/// A stage from which the action leads on.
fn right_stage(random: &mut Random, action: u8) -> u8 {
    let leads = |&stage: &u8| next_stage(action, stage).is_some();
    let stage = random.pick_where(&[0, 1, 2, 3], leads);
    stage.expect("every action leads on from some stage")
}
