//! The plain press on worked examples of Card 6.

use crate::chains::chain_of_trust;
use crate::engine::{call, refused, yes, Answer, Desk, ACCEPTED};
use crate::places::{trust_word, WORDS};
use crate::press::{act, Asked, PRESSES};
use crate::record::{encode, OPERATOR};
use crate::sets::{own, Sets, Trust};

/// The desk's answers.
const YES: Answer = yes(own(9, 0));
const NO: Answer = ACCEPTED;

/// Owners 0 to 15, twice, and stages 0 to 3, eight times.
fn owners() -> Vec<u8> {
    (0..32).map(|press| press % 16).collect()
}

fn stages() -> Vec<u8> {
    (0..32).map(|press| press % 4).collect()
}

fn asked(press: u8, action: u8) -> Asked {
    Asked {
        press,
        action,
        issuer: 9,
        session: 6,
    }
}

/// The error, where the desk gives this answer; no stage is changed by it.
fn error(answer: Answer, owners: &[u8], stages: &[u8], asked: Asked) -> u16 {
    let mut left = stages.to_vec();
    let error = act(|_| answer, owners, &mut left, asked);
    assert_ne!(error, 0, "{asked:?}");
    assert_eq!(left, stages, "{asked:?}");
    error
}

/// Error 17, whatever the desk says, and it isn't asked.
fn out_of_form(owners: &[u8], stages: &[u8], asked: Asked) {
    let mut left = stages.to_vec();
    let unasked = |_: &[u8]| -> Answer { panic!("the desk was asked") };
    let error = act(unasked, owners, &mut left, asked);
    assert_eq!(error, 17, "{asked:?}, {owners:?}, {stages:?}");
    assert_eq!(left, stages);
}

/// "load (0 to 1), start (1 to 2), pause (2 to 3), resume (3 to 2), empty (1 or 3 to 0)": a row
/// for each action, and in it what the stages 0 to 3 become.
#[rustfmt::skip]
const TABLE: [[Option<u8>; 4]; 5] = [
    [Some(1), None, None, None],
    [None, Some(2), None, None],
    [None, None, Some(3), None],
    [None, None, None, Some(2)],
    [None, Some(0), None, Some(0)],
];

/// At each press, "only that press's stage byte changes then, and otherwise none".
#[test]
fn each_action_at_each_stage() {
    for (action, row) in (0..).zip(TABLE) {
        for (stage, next) in (0..).zip(row) {
            for press in 0..32 {
                let place = usize::from(press);
                let mut before = stages();
                before[place] = stage;
                let mut left = before.clone();
                let error = act(|_| YES, &owners(), &mut left, asked(press, action));
                assert_eq!(error, if next.is_some() { 0 } else { 19 });
                before[place] = next.unwrap_or(stage);
                assert_eq!(left, before, "action {action}, stage {stage}");
            }
        }
    }
}

/// "the desk, called by the owner, must give verdict 1 for the owner's permission a and a given
/// session i/s": the record is kind 21 with its arguments p, i and s.
#[test]
fn the_desk_is_asked_by_the_owner() {
    for (press, owner) in (0..).zip(owners()) {
        for action in 0..5 {
            let mut record = Vec::new();
            let ask = |asked: &[u8]| {
                record = asked.to_vec();
                NO
            };
            act(ask, &owners(), &mut stages(), asked(press, action));
            assert_eq!(record, [8, 0, 21, 0, owner, action, 9, 6]);
        }
    }
}

/// "17, a list not 32 bytes"
#[test]
fn lists_of_other_lengths() {
    for length in (0..=100).chain([256, 288, 65_568]) {
        let list: Vec<u8> = (0..length).map(|place| (place % 4) as u8).collect();
        for press in [0, 30, 31] {
            if length != PRESSES {
                out_of_form(&list, &stages(), asked(press, 0));
                out_of_form(&owners(), &list, asked(press, 0));
                out_of_form(&list, &list, asked(press, 0));
            }
        }
    }
}

/// "press above 31, action above 4"
#[test]
fn presses_and_actions_out_of_range() {
    for number in 0..=255 {
        if number > 31 {
            out_of_form(&owners(), &stages(), asked(number, 0));
        }
        if number > 4 {
            out_of_form(&owners(), &stages(), asked(0, number));
        }
    }
}

/// "any owner above 15 or any stage above 3"
#[test]
fn owners_and_stages_out_of_range() {
    for place in 0..PRESSES {
        for number in 0..=255 {
            let (mut above_15, mut above_3) = (owners(), stages());
            above_15[place] = number;
            above_3[place] = number;
            for press in [0, 13, 31] {
                if number > 15 {
                    out_of_form(&above_15, &stages(), asked(press, 0));
                }
                if number > 3 {
                    out_of_form(&owners(), &above_3, asked(press, 0));
                }
            }
        }
    }
}

/// "18, verdict 0 or a desk refusal; 19, wrong stage", "in this order"
#[test]
fn errors_in_order() {
    // Press 0 is idle and press 1 loaded: loading is right there, and wrong here.
    for answer in [
        NO,
        refused(1),
        refused(2),
        refused(5),
        refused(6),
        refused(10),
    ] {
        for press in [0, 1] {
            assert_eq!(error(answer, &owners(), &stages(), asked(press, 0)), 18);
        }
    }
    assert_eq!(error(YES, &owners(), &stages(), asked(1, 0)), 19);
    // 17 comes before both.
    let mut above_3 = stages();
    above_3[9] = 4;
    for answer in [YES, NO, refused(2)] {
        for press in [0, 1] {
            assert_eq!(error(answer, &owners(), &above_3, asked(press, 0)), 17);
        }
    }
}

/// 0@3 holds 0#2, active in 0/4; 1#1 is below it and holds 1%0, 2%0 and 2%1. 0 trusts 1, and 1
/// trusts 2.
#[rustfmt::skip]
const CHAIN: [(usize, usize, &[usize]); 20] = [
    (1, OPERATOR, &[0]), (1, OPERATOR, &[1]), (1, OPERATOR, &[2]), (3, 0, &[1]), (3, 1, &[2]),
    (5, 0, &[3]), (7, 0, &[2]), (11, 0, &[3, 2]), (22, 0, &[2]), (17, 0, &[4, 3]), (19, 0, &[4, 2]),
    (7, 1, &[1]), (22, 1, &[1]), (9, 1, &[0]), (9, 2, &[0]), (9, 2, &[1]), (15, 1, &[1, 0, 2]),
    (13, 1, &[0, 1, 1]), (13, 2, &[0, 1, 1]), (13, 2, &[1, 1, 1]),
];

fn with_chain() -> Desk {
    let mut desk = Desk::started();
    for (kind, caller, arguments) in CHAIN {
        assert_eq!(desk.call(&encode(kind, caller, arguments)), ACCEPTED);
    }
    desk
}

/// On these words: press 5 is estate 1's, press 6 estate 2's, press 7 estate 3's, and all are
/// idle.
fn on(words: &[u16], press: u8, action: u8, issuer: u8, session: u8) -> u16 {
    let mut owners = [0; PRESSES];
    owners[5..8].copy_from_slice(&[1, 2, 3]);
    let mut left = words.to_vec();
    let asked = Asked {
        press,
        action,
        issuer,
        session,
    };
    let mut stages = [0; PRESSES];
    let error = act(
        |record| call(&mut left, record),
        &owners,
        &mut stages,
        asked,
    );
    assert_eq!(left, words);
    assert_eq!(stages[usize::from(press)], u8::from(error == 0));
    error
}

#[test]
fn sessions_move_presses_along_chains_of_trust() {
    let desk = with_chain();
    let words = desk.words();
    assert_eq!(on(words, 5, 0, 0, 4), 0);
    assert_eq!(on(words, 6, 0, 0, 4), 0);
    assert_eq!(chain_of_trust(desk.sets(), 0, 1), Some(1));
    assert_eq!(chain_of_trust(desk.sets(), 0, 2), Some(2));
    // An idle press can't be started.
    assert_eq!(on(words, 6, 1, 0, 4), 19);
    // a closed session, no such permission, no such owner, an argument above 15
    assert_eq!(on(words, 5, 0, 0, 5), 18);
    assert_eq!(on(words, 5, 1, 0, 4), 18);
    assert_eq!(on(words, 7, 0, 0, 4), 18);
    assert_eq!(on(words, 5, 0, 16, 4), 18);
    assert_eq!(on(words, 5, 0, 0, 16), 18);
}

/// "An estate from which no chain of trust leads to the owner can't move the press, however the
/// state came about."
#[test]
fn without_trust_no_press_moves() {
    let mut withdrawn = with_chain();
    assert_eq!(withdrawn.call(&encode(4, 1, &[2])), ACCEPTED);
    assert_eq!(chain_of_trust(withdrawn.sets(), 0, 2), None);
    assert_eq!(on(withdrawn.words(), 5, 0, 0, 4), 0);
    assert_eq!(on(withdrawn.words(), 6, 0, 0, 4), 18);
    // The grant stays as it was, and only the trust is taken.
    let mut unlawful = with_chain().words().to_vec();
    unlawful[trust_word(1)] = 2;
    assert_eq!(chain_of_trust(&Sets::read(&unlawful), 0, 2), None);
    assert_eq!(on(&unlawful, 6, 0, 0, 4), 18);
    assert_eq!(on(&unlawful, 5, 0, 0, 4), 18);
}

/// "state not 9,025 words", now 9,041: the desk's refusal 1.
#[test]
fn states_of_other_lengths() {
    for length in [0, 1, 9025, 9040, 9042, 18082] {
        let mut words = with_chain().words().to_vec();
        assert_eq!(words.len(), WORDS);
        words.resize(length, 0);
        assert_eq!(on(&words, 5, 0, 0, 4), 18);
    }
}

#[test]
fn chains_are_shortest() {
    let mut sets = Sets::default();
    let mut trust = |trustor, trustee| {
        sets.trust.insert(Trust { trustor, trustee });
        sets.clone()
    };
    assert_eq!(chain_of_trust(&Sets::default(), 7, 7), Some(0));
    assert_eq!(chain_of_trust(&Sets::default(), 7, 8), None);
    let one = trust(3, 3);
    assert_eq!(chain_of_trust(&one, 3, 3), Some(0));
    assert_eq!(chain_of_trust(&one, 3, 4), None);
    trust(3, 4);
    trust(4, 15);
    let line = trust(15, 0);
    let lengths = [3, 4, 15, 0].map(|owner| chain_of_trust(&line, 3, owner));
    assert_eq!(lengths, [Some(0), Some(1), Some(2), Some(3)]);
    assert_eq!(chain_of_trust(&line, 0, 3), None);
    let circle = trust(0, 3);
    assert_eq!(chain_of_trust(&circle, 0, 15), Some(3));
    assert_eq!(chain_of_trust(&circle, 0, 9), None);
    assert_eq!(chain_of_trust(&trust(3, 15), 3, 0), Some(2));
}
