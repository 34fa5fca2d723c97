//! "The two histories": pairs of lists that are equal once the outsiders' records are left
//! out, made at random.

use crate::engine::Desk;
use crate::random::Random;
use crate::record::{decode, decode_call, Call, Record, OPERATOR};
use crate::records::{any_record, operators, undecodable};
use crate::refusals::refusal;
use crate::sets::Sets;
use crate::worlds::{Thing, World};
use std::collections::BTreeSet;

/// Which of the two histories a record stands in.
#[derive(Clone, Copy, Debug, PartialEq, Eq)]
pub enum In {
    Both,
    First,
    Second,
}

/// The two lists in one: an outsider's record stands in one of them only.
#[derive(Clone)]
pub struct Pair {
    pub members: BTreeSet<usize>,
    pub entries: Vec<(In, Vec<u8>)>,
}

impl Pair {
    /// The records of the first or of the second history, in order.
    pub fn history(&self, which: In) -> Vec<&[u8]> {
        let entries = self.entries.iter();
        let played = entries.filter(|(place, _)| *place == In::Both || *place == which);
        played.map(|(_, record)| record.as_slice()).collect()
    }
}

/// "A record that can't be decoded, the empty one too, or names a caller above 16 counts as an
/// outsider's"; "a record not already counted as an outsider's is its caller's".
pub fn outsiders(members: &BTreeSet<usize>, record: &[u8]) -> bool {
    match decode(record) {
        Record::SignOfLife | Record::Undecodable => true,
        Record::Call(decoded) if decoded.caller > OPERATOR => true,
        Record::Call(decoded) if decoded.caller == OPERATOR => false,
        Record::Call(decoded) => !members.contains(&decoded.caller),
    }
}

/// "a kind 3 from an outsider that names a member"
pub fn trusts_a_member(members: &BTreeSet<usize>, record: &[u8]) -> bool {
    let Some(decoded) = decode_call(record) else {
        return false;
    };
    match decoded.call {
        Call::GiveTrust { trustee } => outsiders(members, record) && members.contains(&trustee),
        _ => false,
    }
}

/// A random pair. An outsider's kind 3 that names a member is left out where it would be
/// accepted; `avoided` counts them.
pub fn any_pair(random: &mut Random, avoided: &mut u64) -> Pair {
    let mut world = World::new(random);
    let members = any_members(random, &world);
    let mut pair = Pair {
        members,
        entries: Vec::new(),
    };
    let mut first = Desk::started();
    let mut second = Desk::started();
    // How many of a hundred records are the outsiders', in the first and the second history.
    let (of_first, of_second) = (random.below(40), random.below(40));
    for _ in 0..random.between(20, 800) {
        if random.below(100) == 0 {
            world.change_mood(random);
        }
        let turn = random.below(100);
        if turn < of_first {
            let record = outsiders_record(random, &world, &pair.members, first.sets(), avoided);
            first.call(&record);
            pair.entries.push((In::First, record));
        } else if turn < of_first + of_second {
            let record = outsiders_record(random, &world, &pair.members, second.sets(), avoided);
            second.call(&record);
            pair.entries.push((In::Second, record));
        } else {
            let desk = if random.percent(50) { &first } else { &second };
            let record = remaining_record(random, &world, &pair.members, desk.sets());
            first.call(&record);
            second.call(&record);
            pair.entries.push((In::Both, record));
        }
    }
    pair
}

/// The empty set, all issuers, or some; mostly so that the world has members and outsiders.
fn any_members(random: &mut Random, world: &World) -> BTreeSet<usize> {
    match random.below(16) {
        0 => BTreeSet::new(),
        1 => (0..16).collect(),
        2 => (0..16).filter(|_| random.percent(50)).collect(),
        _ => {
            let issuers = world.names(Thing::Issuer);
            let count = random.between(1, (issuers.len() - 1).max(1));
            issuers[..count].iter().copied().collect()
        }
    }
}

fn outsiders_record(
    random: &mut Random,
    world: &World,
    members: &BTreeSet<usize>,
    sets: &Sets,
    avoided: &mut u64,
) -> Vec<u8> {
    for _ in 0..50 {
        let record = any_record(random, world, sets);
        if !outsiders(members, &record) {
            continue;
        }
        if trusts_a_member(members, &record) && accepted(sets, &record) {
            *avoided += 1;
            continue;
        }
        return record;
    }
    undecodable(random, world)
}

fn accepted(sets: &Sets, record: &[u8]) -> bool {
    decode_call(record).is_some_and(|decoded| refusal(sets, &decoded) == 0)
}

/// A record of a member or of the operator.
fn remaining_record(
    random: &mut Random,
    world: &World,
    members: &BTreeSet<usize>,
    sets: &Sets,
) -> Vec<u8> {
    for _ in 0..50 {
        let record = any_record(random, world, sets);
        if !outsiders(members, &record) {
            return record;
        }
    }
    operators(random, world)
}
