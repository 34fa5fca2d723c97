//! Presses that take what they are handed for something else, and are the plain one then.

use crate::press::{Asked, PRESSES};

/// What a press takes for the lists, and for what is asked.
pub struct Taken {
    pub owners: Vec<u8>,
    pub stages: Vec<u8>,
    pub asked: Asked,
}

pub type Reader = fn(&mut Taken);

/// They take what they are handed for something else.
pub const READERS: [(&str, Reader); 28] = [
    ("owners of any length", |taken| taken.owners.resize(32, 0)),
    ("stages of any length", |taken| taken.stages.resize(32, 0)),
    ("too many owners", |taken| taken.owners.truncate(32)),
    ("too many stages", |taken| taken.stages.truncate(32)),
    ("31 owners", |taken| lengthen(&mut taken.owners, 31)),
    ("31 stages", |taken| lengthen(&mut taken.stages, 31)),
    ("no owners", |taken| lengthen(&mut taken.owners, 0)),
    ("no stages", |taken| lengthen(&mut taken.stages, 0)),
    ("owners counted in a byte", |taken| {
        in_a_byte(&mut taken.owners)
    }),
    ("stages counted in a byte", |taken| {
        in_a_byte(&mut taken.stages)
    }),
    ("press 32 taken for 31", |taken| {
        taken.asked.press -= u8::from(taken.asked.press == 32)
    }),
    ("presses modulo 32", |taken| taken.asked.press %= 32),
    ("action 5 taken for 4", |taken| {
        taken.asked.action -= u8::from(taken.asked.action == 5)
    }),
    ("actions modulo 8", |taken| taken.asked.action %= 8),
    ("owner 16 taken for 15", |taken| {
        lower(&mut taken.owners, 16)
    }),
    ("owners modulo 16", |taken| {
        taken.owners.iter_mut().for_each(|owner| *owner %= 16)
    }),
    ("other owners not looked at", |taken| {
        elsewhere(&mut taken.owners, taken.asked.press)
    }),
    ("its own owner not looked at", |taken| {
        one(&mut taken.owners, taken.asked.press, 16)
    }),
    ("the first owner not looked at", |taken| {
        one(&mut taken.owners, 0, 16)
    }),
    ("the last owner not looked at", |taken| {
        one(&mut taken.owners, 31, 16)
    }),
    ("stage 4 taken for 3", |taken| lower(&mut taken.stages, 4)),
    ("stages modulo 4", |taken| {
        taken.stages.iter_mut().for_each(|stage| *stage %= 4)
    }),
    ("other stages not looked at", |taken| {
        elsewhere(&mut taken.stages, taken.asked.press)
    }),
    ("its own stage not looked at", |taken| {
        one(&mut taken.stages, taken.asked.press, 4)
    }),
    ("the first stage not looked at", |taken| {
        one(&mut taken.stages, 0, 4)
    }),
    ("the last stage not looked at", |taken| {
        one(&mut taken.stages, 31, 4)
    }),
    ("issuers modulo 16", |taken| taken.asked.issuer %= 16),
    ("sessions modulo 16", |taken| taken.asked.session %= 16),
];

/// A list of this length gets 32 bytes.
fn lengthen(list: &mut Vec<u8>, length: usize) {
    if list.len() == length {
        list.resize(PRESSES, 0);
    }
}

fn in_a_byte(list: &mut Vec<u8>) {
    if list.len() % 256 == PRESSES {
        list.truncate(PRESSES);
    }
}

fn lower(list: &mut [u8], number: u8) {
    for byte in list {
        *byte -= u8::from(*byte == number);
    }
}

fn elsewhere(list: &mut [u8], press: u8) {
    for (place, byte) in list.iter_mut().enumerate() {
        if place != usize::from(press) {
            *byte = 0;
        }
    }
}

fn one(list: &mut [u8], press: u8, end: u8) {
    if let Some(byte) = list.get_mut(usize::from(press)) {
        *byte %= end;
    }
}
