//! Lists and numbers as they should not be: error 17, and for the session's numbers 18.

use crate::lent_press::{LentPress, List};
use crate::press::{ACTIONS, PRESSES, STAGES};
use crate::random::Random;

/// Spoils one thing. What was spoilt before may be spoilt once more.
pub fn spoil(random: &mut Random, lent: &mut LentPress) {
    let asked = &mut lent.asked;
    match random.below(16) {
        0 | 1 => change_length(random, &mut lent.owners, 16),
        2 | 3 => change_length(random, &mut lent.stages, STAGES),
        4 | 5 => asked.press = above(random, asked.press, PRESSES),
        6 | 7 => asked.action = above(random, asked.action, ACTIONS),
        8..=10 => put_above(random, &mut lent.owners, asked.press, 16),
        11..=13 => put_above(random, &mut lent.stages, asked.press, STAGES),
        14 => asked.issuer = above(random, asked.issuer, 16),
        _ => asked.session = above(random, asked.session, 16),
    }
}

/// A number that is not below `end`, often the right one modulo a power of 2.
fn above(random: &mut Random, number: u8, end: usize) -> u8 {
    let room = end.next_power_of_two();
    let right = usize::from(number) % room + room * random.between(1, 256 / room - 1);
    let any = random.between(end, 255);
    random.pick(&[end, end + 1, right, right, right, any, any, 255]) as u8
}

/// Puts such a number in the list: at the press itself, first, last or anywhere.
fn put_above(random: &mut Random, list: &mut List, press: u8, end: usize) {
    let bytes = &mut list.bytes;
    if bytes.is_empty() {
        return;
    }
    let last = bytes.len() - 1;
    let any = random.between(0, last);
    let place = random.pick(&[usize::from(press).min(last), 0, last, any, any]);
    bytes[place] = above(random, bytes[place], end);
}

/// Another length than 32, also one that is right modulo 256 or 65536. A cut list's rest lies
/// directly behind it; what is added is below `end`.
fn change_length(random: &mut Random, list: &mut List, end: usize) {
    let lengths = [
        0, 0, 1, 16, 30, 31, 31, 31, 33, 33, 33, 34, 64, 256, 288, 65_568,
    ];
    let length = random.pick(&lengths);
    list.bytes.append(&mut list.behind);
    if length < list.bytes.len() {
        list.behind = list.bytes.split_off(length);
        list.behind.truncate(PRESSES);
    } else {
        list.bytes.resize_with(length, || random.below(end) as u8);
    }
}
