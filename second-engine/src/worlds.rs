//! The few names that a journal uses, and how often it makes each call.

use crate::press::ACTIONS;
use crate::random::Random;
use crate::record::KINDS;

/// What an argument names.
#[derive(Clone, Copy)]
pub enum Thing {
    Issuer,
    User,
    Role,
    Permission,
    Session,
}

/// The arguments of each kind, from 1 to 23.
pub fn arguments(kind: usize) -> &'static [Thing] {
    use Thing::{Issuer, Permission, Role, Session, User};
    match kind {
        1..=4 => &[Issuer],
        5 | 6 => &[User],
        7 | 8 | 22 | 23 => &[Role],
        9 | 10 => &[Permission],
        11 | 12 => &[User, Role],
        13 | 14 => &[Permission, Issuer, Role],
        15 | 16 => &[Role, Issuer, Role],
        17 => &[Session, User],
        18 => &[Session],
        19 | 20 => &[Session, Role],
        21 => &[Permission, Issuer, Session],
        _ => unreachable!("kinds are 1 to 23"),
    }
}

/// How often each kind is tried, from kind 1 on: many things come, or as many go, or more go.
#[rustfmt::skip]
const COMING: [usize; KINDS] = [
    30, 1, 40, 2, 25, 2, 40, 3, 25, 2, 50, 3, 50, 3, 90, 4, 40, 2, 80, 4, 80, 60, 6,
];
#[rustfmt::skip]
const BALANCED: [usize; KINDS] = [
    30, 2, 30, 6, 25, 5, 35, 7, 20, 6, 50, 14, 40, 14, 60, 18, 35, 8, 70, 20, 90, 50, 14,
];
#[rustfmt::skip]
const GOING: [usize; KINDS] = [
    20, 4, 20, 12, 15, 10, 20, 14, 12, 12, 35, 20, 25, 20, 35, 25, 25, 14, 50, 25, 80, 40, 20,
];

pub struct World {
    issuers: Vec<usize>,
    users: Vec<usize>,
    roles: Vec<usize>,
    permissions: Vec<usize>,
    sessions: Vec<usize>,
    weights: &'static [usize; KINDS],
    /// Attachments make long chains, and grants go to their lower ends.
    pub deep: bool,
    /// Users hold one or two roles, mostly, and so reach more than they hold.
    pub lean: bool,
}

impl World {
    pub fn new(random: &mut Random) -> World {
        let mut names = |few: usize, many: usize| {
            let count = match random.below(20) {
                0 => 16,
                1..=3 => random.between(many, 16),
                _ => random.between(few, many),
            };
            random.names(count)
        };
        World {
            issuers: names(2, 5),
            users: names(1, 3),
            roles: names(2, 6),
            permissions: names(1, 3),
            sessions: names(1, 3),
            weights: &COMING,
            deep: random.percent(50),
            lean: random.percent(50),
        }
    }

    /// A world where permissions are for the actions at presses, and now and then one more.
    pub fn with_presses(random: &mut Random) -> World {
        let mut world = World::new(random);
        world.permissions = (0..ACTIONS).collect();
        if random.percent(30) {
            world.permissions.push(random.between(ACTIONS, 15));
        }
        world
    }

    /// Now and then the calls become more building or more clearing.
    pub fn change_mood(&mut self, random: &mut Random) {
        self.weights = random.pick(&[&COMING, &COMING, &BALANCED, &BALANCED, &GOING]);
    }

    pub fn kind(&self, random: &mut Random) -> usize {
        1 + random.weighted(self.weights)
    }

    pub fn names(&self, thing: Thing) -> &[usize] {
        match thing {
            Thing::Issuer => &self.issuers,
            Thing::User => &self.users,
            Thing::Role => &self.roles,
            Thing::Permission => &self.permissions,
            Thing::Session => &self.sessions,
        }
    }

    pub fn name(&self, random: &mut Random, thing: Thing) -> usize {
        random.pick(self.names(thing))
    }
}
