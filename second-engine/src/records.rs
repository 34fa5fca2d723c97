//! Random records: aimed at what the state allows, blind, odd, not decodable, or signs of life.

use crate::aims::aimed;
use crate::random::Random;
use crate::record::{encode, OPERATOR};
use crate::sets::Sets;
use crate::worlds::{arguments, Thing, World};

/// One record for a state with these sets.
pub fn any_record(random: &mut Random, world: &World, sets: &Sets) -> Vec<u8> {
    match random.below(100) {
        0..=69 => {
            for _ in 0..4 {
                let kind = world.kind(random);
                if let Some(record) = aimed(random, world, sets, kind) {
                    return record;
                }
            }
            blind(random, world)
        }
        70..=89 => blind(random, world),
        90..=94 => odd(random, world),
        95..=98 => undecodable(random, world),
        // a sign of life
        _ => Vec::new(),
    }
}

/// A decodable record of the world's names, whether the state allows it or not.
pub fn blind(random: &mut Random, world: &World) -> Vec<u8> {
    let kind = world.kind(random);
    let caller = if random.percent(4) {
        random.below(17)
    } else if kind <= 2 {
        OPERATOR
    } else {
        world.name(random, Thing::Issuer)
    };
    encode(kind, caller, &names(random, world, kind))
}

/// A record of the operator.
pub fn operators(random: &mut Random, world: &World) -> Vec<u8> {
    let any = world.kind(random);
    let kind = random.pick(&[1, 1, 2, any]);
    encode(kind, OPERATOR, &names(random, world, kind))
}

fn names(random: &mut Random, world: &World, kind: usize) -> Vec<usize> {
    arguments(kind)
        .iter()
        .map(|&thing| world.name(random, thing))
        .collect()
}

/// A decodable record with numbers out of range, or with any numbers at all.
fn odd(random: &mut Random, world: &World) -> Vec<u8> {
    let mut record = blind(random, world);
    let above_15 = [16, 17, 18, 31, 32, 128, 254, 255, random.byte()];
    match random.below(8) {
        // a caller above 16
        0 | 1 => record[4] = random.pick(&[17, 18, 31, 32, 128, 254, 255]),
        // a kind that the caller may not use, mostly
        2 => record[4] = random.pick(&[0, 15, 16]),
        // any numbers of 0 to 15
        3 | 4 => record[5..].fill_with(|| random.byte() % 16),
        5 => record[4..].fill_with(|| random.byte() % 18),
        // an argument above 15
        _ => {
            let place = random.between(5, record.len() - 1);
            record[place] = random.pick(&above_15);
        }
    }
    record
}

/// A record where refusal 3's row applies.
pub fn undecodable(random: &mut Random, world: &World) -> Vec<u8> {
    let mut record = blind(random, world);
    let length = record.len();
    match random.below(14) {
        // 1 to 4 bytes, the length field wrong, right, or nought
        0..=2 => {
            record.truncate(random.between(1, 4));
            record[0] = random.pick(&[record[0], record.len() as u8, 0]);
        }
        // cut short, or bytes too many
        3 => record.truncate(length - 1),
        4 => record.push(random.byte()),
        // length field wrong in its low byte, in its high byte, or nought
        5 => record[0] = random.pick(&[record[0] - 1, record[0] + 1, 255]),
        6 => record[1] = random.pick(&[1, 128, 255]),
        7 => record[0] = 0,
        // kind unknown
        8 => record[2] = random.pick(&[0, 24, 25, 32, 37, 128, 255]),
        9 => record[3] = random.pick(&[1, 2, 16, 128, 255]),
        // length wrong for the kind
        10 => {
            record.pop();
            record[0] -= 1;
        }
        11 => {
            record.push(random.byte() % 16);
            record[0] += 1;
        }
        // no arguments at all
        12 => {
            record.truncate(5);
            record[0] = 5;
        }
        // long ones; in the last two the length field is right modulo 65536
        _ => {
            let long = random.pick(&[256, 261, 300, 65535, 65536 + length, 65536]);
            record.resize(long, random.byte());
            let field = long as u16;
            record[..2].copy_from_slice(&field.to_le_bytes());
        }
    }
    record
}
