//! A plain press: "The press on the floor", written from Card 6 alone. Of the desk it knows only
//! what is answered to one record.

use crate::engine::Answer;
use crate::record::encode;

/// "guards 32 presses"
pub const PRESSES: usize = 32;

/// "Actions 0 to 4", and what each permission of an owner is for.
pub const ACTIONS: usize = 5;

/// "idle 0, loaded 1, pressing 2, held 3"
pub const STAGES: usize = 4;
const IDLE: u8 = 0;
const LOADED: u8 = 1;
const PRESSING: u8 = 2;
const HELD: u8 = 3;

/// What is asked: an action at a press, for the session i/s.
#[derive(Clone, Copy, Debug, PartialEq, Eq)]
pub struct Asked {
    pub press: u8,
    pub action: u8,
    pub issuer: u8,
    pub session: u8,
}

/// "Action a goes ahead exactly when no error below applies." Gives the error, or 0.
pub fn act(
    desk: impl FnOnce(&[u8]) -> Answer,
    owners: &[u8],
    stages: &mut [u8],
    asked: Asked,
) -> u16 {
    if out_of_form(owners, stages, asked) {
        return 17;
    }
    let press = usize::from(asked.press);
    // 18: "verdict 0 or a desk refusal"
    let answer = desk(&question(owners[press], asked));
    if answer.refusal != 0 || answer.verdict == 0 {
        return 18;
    }
    // 19: "wrong stage"
    let Some(next) = next_stage(asked.action, stages[press]) else {
        return 19;
    };
    // "Only that press's stage byte changes then, and otherwise none."
    stages[press] = next;
    0
}

/// 17: "a list not 32 bytes, press above 31, action above 4, any owner above 15 or any stage
/// above 3"
fn out_of_form(owners: &[u8], stages: &[u8], asked: Asked) -> bool {
    owners.len() != PRESSES
        || stages.len() != PRESSES
        || asked.press > 31
        || asked.action > 4
        || owners.iter().any(|&owner| owner > 15)
        || stages.iter().any(|&stage| stage > HELD)
}

/// "the desk, called by the owner, must give verdict 1 for the owner's permission a and a given
/// session i/s": kind 21.
fn question(owner: u8, asked: Asked) -> Vec<u8> {
    let arguments = [asked.action, asked.issuer, asked.session];
    encode(21, usize::from(owner), &arguments.map(usize::from))
}

/// "load (0 to 1), start (1 to 2), pause (2 to 3), resume (3 to 2), empty (1 or 3 to 0)"
pub fn next_stage(action: u8, stage: u8) -> Option<u8> {
    match (action, stage) {
        (0, IDLE) => Some(LOADED),
        (1, LOADED) => Some(PRESSING),
        (2, PRESSING) => Some(HELD),
        (3, HELD) => Some(PRESSING),
        (4, LOADED | HELD) => Some(IDLE),
        _ => None,
    }
}
