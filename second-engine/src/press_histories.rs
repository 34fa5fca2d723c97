//! Random histories in which presses are acted on between the calls.

use crate::aims::aimed;
use crate::engine::Desk;
use crate::press_floor::{Floor, Question};
use crate::random::Random;
use crate::records::any_record;
use crate::sets::Sets;
use crate::worlds::World;

/// The most turns of a history.
const LONGEST: usize = 1800;

/// There are few presses among the first ones, as little stands then.
const FIRST: usize = 150;

/// The kinds that build what leads to a verdict 1. Trust is given rarely, so that some chains
/// are long.
const BUILDING: [usize; 16] = [1, 3, 5, 7, 7, 9, 9, 9, 11, 13, 13, 13, 15, 17, 19, 22];

/// A call on the present state, or an action at a press.
pub enum Turn {
    Call(Vec<u8>),
    Press(Question),
}

pub struct History {
    world: World,
    pub floor: Floor,
    turns: usize,
    length: usize,
}

impl History {
    pub fn any(random: &mut Random) -> History {
        let world = World::with_presses(random);
        let floor = Floor::any(random, &world);
        History {
            world,
            floor,
            turns: 0,
            length: random.between(FIRST, LONGEST),
        }
    }

    /// What comes next, where the turns before have led to this desk.
    pub fn turn(&mut self, random: &mut Random, desk: &Desk) -> Option<Turn> {
        if self.turns == self.length {
            return None;
        }
        if random.below(150) == 0 {
            self.world.change_mood(random);
        }
        self.turns += 1;
        let calls = if self.turns < FIRST { 95 } else { 30 };
        Some(if random.percent(calls) {
            Turn::Call(any_call(random, &self.world, desk.sets()))
        } else {
            Turn::Press(self.floor.any_question(random, &self.world, desk))
        })
    }
}

/// Any record, often one that builds.
fn any_call(random: &mut Random, world: &World, sets: &Sets) -> Vec<u8> {
    let kind = random.pick(&BUILDING);
    let building = random.percent(50);
    let record = building.then(|| aimed(random, world, sets, kind));
    record
        .flatten()
        .unwrap_or_else(|| any_record(random, world, sets))
}
